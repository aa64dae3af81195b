"""A client over a socket, whose calls wait for their ends."""
import contextlib
import os
import socket
import threading
from typing import Any, Callable, Iterator, Optional

from . import faults
from ._buffers import Bytes
from ._session import READER, Folder, Known, Record, Scheme, Session, Step, Steps, T

PIECE = 1 << 16
# How many connections are tried where each leads to a server of an older version: a balancer may
# lead to another one.
CONNECTIONS = 4

# Told how many bytes of a hint have come, and of how many, or None where only the rows that changed
# are sent.
Progress = Callable[[int, Optional[int]], object]


@contextlib.contextmanager
def _timely() -> Iterator[None]:
    """Raises `TimeoutError` for a socket's timeout, which before Python 3.10 is an exception of its own."""
    try:
        yield
    except socket.timeout as fault:
        raise TimeoutError(*fault.args) from None


class Client:
    """A client of one server, over a connection of its own.

        with Client("127.0.0.1", 7000, hints="hints") as client:
            print(client.get(5))

    Its secret seed is drawn from the system's random source (`os.urandom`), and is on no disk;
    numbers count from 0. With `seed` and `number` it is the caller who must never use a number
    twice with one seed. `hints` is a folder in which the public hint is kept for the next time, the
    same as that of `pir_client get --state`. `key` is the publisher's, for who edits. A server
    whose dimension is below `least_dimension` raises `LowDimension`. Connecting, and each piece
    that is waited for, may take `timeout` seconds.

    A server whose version is lower than one that was seen before of its store, by what is kept in
    `hints`, is warned of (`faults.OlderVersion`); with `no_older` it raises `Older`, after four
    connections. `progress` is called with two numbers while a hint is fetched: how many bytes have
    come, and of how many, or None where only the rows that changed are sent.

    Threads may share a client: each call has the connection to itself until it ends. A client that
    is used in another process than the one that made it raises `Forked`, and none can be pickled or
    copied. A call that fails before its end, by a timeout or any other exception, closes the
    client; what the server refuses does not.
    """

    def __init__(
        self,
        host: str,
        port: int,
        *,
        hints: Optional[Folder] = None,
        seed: Optional[bytes] = None,
        number: int = 0,
        key: Bytes = READER,
        scheme: Scheme = Scheme.SIMPLE,
        least_dimension: int = 1024,
        timeout: Optional[float] = None,
        no_older: bool = False,
        progress: Optional[Progress] = None,
    ) -> None:
        if no_older and hints is None:
            raise ValueError("what was seen before is known from `hints` alone")
        self._turn, self._process, self._progress = threading.RLock(), os.getpid(), progress
        self._socket: Optional[socket.socket] = None
        for _ in range(CONNECTIONS):
            self._session = Session(seed, number, key, scheme, hints)
            try:
                with _timely():
                    self._socket = socket.create_connection((host, port), timeout)
                self._ended(self._session.greet(least_dimension))
            except BaseException:
                self.close()
                raise
            if not no_older or self._session.older is None:
                self._session.warn_of_older()
                return
            self.close()
        raise faults.Older()

    def sync(self) -> int:
        """Fetches the hint of the current version, and gives its number. `get` does so if it has to.

        A server that publishes meanwhile again and again raises `Stale`.
        """
        with self._exclusive():
            return self._ended(self._session.sync())

    def get(self, index: int) -> bytes:
        """The bytes of a record in the current version."""
        return self.retrieve(index).bytes

    def retrieve(self, index: int) -> Record:
        """A record in the current version, with its number."""
        with self._exclusive():
            return self._ended(self._session.retrieve(index))

    def edit(self, index: int, record: Bytes) -> None:
        """Replaces a record of the server's draft; the client speaks for the publisher."""
        with self._exclusive():
            self._ended(self._session.edit(index, record))

    def append(self, record: Bytes) -> None:
        """Puts a record after those of the server's draft; the client speaks for the publisher."""
        with self._exclusive():
            self._ended(self._session.append(record))

    def publish(self) -> int:
        """Publishes the server's draft, and gives the new version."""
        with self._exclusive():
            return self._ended(self._session.publish())

    @property
    def known(self) -> Known:
        """What the server reported of its store."""
        with self._exclusive():
            return self._session.known()

    @property
    def next_number(self) -> int:
        """The number of the next retrieval."""
        with self._exclusive():
            return self._session.next_number()

    def close(self) -> None:
        """Ends the connection, and frees the client. Every later call raises `Closed`. In a process that was forked it lets go of that
        process's end alone, and the maker's client goes on."""
        if self._socket is not None:
            self._socket.close()
        if os.getpid() == self._process:
            self._session.client.close()

    @contextlib.contextmanager
    def _exclusive(self) -> Iterator[None]:
        """The connection for this thread alone."""
        if os.getpid() != self._process:
            raise faults.Forked()
        with self._turn:
            yield

    def _ended(self, steps: Steps[T]) -> T:
        """What a call returns, once its bytes have gone to and fro. What goes wrong meanwhile is raised in the call, which closes the client."""
        try:
            step = next(steps)
            while True:
                try:
                    piece = self._exchanged(step)
                except BaseException as fault:
                    step = steps.throw(fault)
                else:
                    step = steps.send(piece)
        except StopIteration as end:
            value: T = end.value
            return value
        finally:
            if self._socket is not None and self._session.client.is_closed():
                self._socket.close()

    def _exchanged(self, step: Step) -> bytes:
        if step.progress is not None and self._progress is not None:
            self._progress(*step.progress)
        if not step.awaits:
            return b""
        if self._socket is None:
            raise faults.Closed()
        with _timely():
            if step.sent:
                self._socket.sendall(step.sent)
            return self._socket.recv(PIECE)

    def __enter__(self) -> "Client":
        return self

    def __exit__(self, *_: object) -> None:
        self.close()

    def __reduce__(self) -> Any:
        raise TypeError("a client can't be pickled or copied: two that go on with one seed would show what they ask")
