"""A client over a connection of asyncio, whose calls are awaited."""
import asyncio
import contextlib
import os
from typing import Any, AsyncIterator, Awaitable, Callable, Generator, Generic, NamedTuple, Optional, Tuple, TypeVar, Union

from . import faults
from ._buffers import Bytes
from ._session import READER, Folder, Known, Record, Scheme, Session, Step, Steps, T
from .client import CONNECTIONS, PIECE, Progress


R = TypeVar("R")


class _End(Generic[T]):
    """What a call returns."""

    def __init__(self, value: T) -> None:
        self.value = value


def _next(steps: Steps[T], piece: Optional[bytes]) -> Union[Step, _End[T]]:
    """A call's next step, or its end: no StopIteration can come out of a thread."""
    try:
        return next(steps) if piece is None else steps.send(piece)
    except StopIteration as end:
        return _End(end.value)


async def _in_thread(work: Callable[[], R]) -> R:
    """What is computed in a thread of the loop's executor. It is left only when the thread has left it, also if it is cancelled: nothing
    else may touch the client before."""
    future = asyncio.get_running_loop().run_in_executor(None, work)
    try:
        return await asyncio.shield(future)
    except asyncio.CancelledError:
        while not future.done():
            with contextlib.suppress(asyncio.CancelledError):
                await asyncio.wait([future])
        future.exception()
        raise


class _Words(NamedTuple):
    host: str
    port: int
    least_dimension: int
    timeout: Optional[float]
    no_older: bool
    progress: Optional[Progress]


Streams = Tuple[asyncio.StreamReader, asyncio.StreamWriter]


class AsyncClient:
    """A client of one server, as `Client` is, whose calls are awaited.

        async with AsyncClient("127.0.0.1", 7000, hints="hints") as client:
            print(await client.get(5))

    It takes the same words as `Client`, and has calls of the same names; `await AsyncClient(..)`
    connects without a block. What a call computes, and what it reads and writes of the folder, is
    done in a thread of the loop's executor, so that the loop goes on meanwhile; `progress` is
    called in the loop. Tasks may share a client: each call has the connection to itself until it
    ends. A call that is cancelled, or fails before its end in any other way, closes the client;
    what the server refuses does not.
    """

    def __init__(
        self,
        host: str,
        port: int,
        *,
        hints: Optional[Folder] = None,
        seed: Optional[bytes] = None,
        number: int = 0,
        key: Bytes = READER,
        scheme: Scheme = Scheme.SIMPLE,
        least_dimension: int = 1024,
        timeout: Optional[float] = None,
        no_older: bool = False,
        progress: Optional[Progress] = None,
    ) -> None:
        if no_older and hints is None:
            raise ValueError("what was seen before is known from `hints` alone")
        self._words = _Words(host, port, least_dimension, timeout, no_older, progress)
        self._made = (seed, number, key, scheme, hints)
        self._session, self._process = Session(*self._made), os.getpid()
        self._streams: Optional[Streams] = None
        self._turn: Optional[asyncio.Lock] = None
        self._has_begun = False

    def __await__(self) -> Generator[Any, None, "AsyncClient"]:
        return self._connected().__await__()

    async def _connected(self) -> "AsyncClient":
        """The client, which has connected and greeted."""
        if self._turn is None:
            self._turn = asyncio.Lock()
        async with self._turn:
            if not self._has_begun:
                self._has_begun = True
                try:
                    await self._connect()
                except BaseException:
                    await self.close()
                    raise
        return self

    async def _connect(self) -> None:
        words = self._words
        for _ in range(CONNECTIONS):
            self._streams = await self._timely(asyncio.open_connection(words.host, words.port))
            await self._ended(self._session.greet(words.least_dimension))
            if not words.no_older or self._session.older is None:
                return self._session.warn_of_older()
            await self.close()
            self._session = Session(*self._made)
        raise faults.Older()

    async def sync(self) -> int:
        """Fetches the hint of the current version, and gives its number. `get` does so if it has to.

        A server that publishes meanwhile again and again raises `Stale`.
        """
        async with self._exclusive():
            return await self._ended(self._session.sync())

    async def get(self, index: int) -> bytes:
        """The bytes of a record in the current version."""
        return (await self.retrieve(index)).bytes

    async def retrieve(self, index: int) -> Record:
        """A record in the current version, with its number."""
        async with self._exclusive():
            return await self._ended(self._session.retrieve(index))

    async def edit(self, index: int, record: Bytes) -> None:
        """Replaces a record of the server's draft; the client speaks for the publisher."""
        async with self._exclusive():
            await self._ended(self._session.edit(index, record))

    async def append(self, record: Bytes) -> None:
        """Puts a record after those of the server's draft; the client speaks for the publisher."""
        async with self._exclusive():
            await self._ended(self._session.append(record))

    async def publish(self) -> int:
        """Publishes the server's draft, and gives the new version."""
        async with self._exclusive():
            return await self._ended(self._session.publish())

    @property
    def known(self) -> Known:
        """What the server reported of its store."""
        self._judge()
        return self._session.known()

    @property
    def next_number(self) -> int:
        """The number of the next retrieval."""
        self._judge()
        return self._session.next_number()

    async def close(self) -> None:
        """Ends the connection, and frees the client. Every later call raises `Closed`. In a process that was forked it does nothing, since
        the loop's end of the connection is the maker's."""
        if os.getpid() != self._process:
            return
        self._session.client.close()
        if self._streams is not None:
            self._streams[1].close()
            with contextlib.suppress(OSError):
                await self._streams[1].wait_closed()

    def _judge(self) -> None:
        if os.getpid() != self._process:
            raise faults.Forked()

    @contextlib.asynccontextmanager
    async def _exclusive(self) -> AsyncIterator[None]:
        """The connection for this task alone."""
        self._judge()
        await self._connected()
        assert self._turn is not None
        async with self._turn:
            yield

    async def _timely(self, awaited: Awaitable[T]) -> T:
        """What is awaited, within the timeout."""
        try:
            return await asyncio.wait_for(awaited, self._words.timeout)
        except asyncio.TimeoutError:
            raise TimeoutError("timed out") from None

    async def _ended(self, steps: Steps[T]) -> T:
        """What a call returns, once its bytes have gone to and fro. What goes wrong meanwhile is raised in the call, which closes the client."""
        piece: Optional[bytes] = None
        try:
            while True:
                step = await _in_thread(lambda: _next(steps, piece))
                if isinstance(step, _End):
                    return step.value
                piece = await self._exchanged(step)
        finally:
            # A call that has not ended yet closes the client here, whatever was raised.
            steps.close()
            if self._streams is not None and self._session.client.is_closed():
                self._streams[1].close()

    async def _exchanged(self, step: Step) -> bytes:
        if step.progress is not None and self._words.progress is not None:
            self._words.progress(*step.progress)
        if not step.awaits:
            return b""
        if self._streams is None:
            raise faults.Closed()
        reader, writer = self._streams
        if step.sent:
            writer.write(step.sent)
            await self._timely(writer.drain())
        return bytes(await self._timely(reader.read(PIECE)))

    async def __aenter__(self) -> "AsyncClient":
        return await self

    async def __aexit__(self, *_: object) -> None:
        await self.close()

    def __reduce__(self) -> Any:
        raise TypeError("a client can't be pickled or copied: two that go on with one seed would show what they ask")
