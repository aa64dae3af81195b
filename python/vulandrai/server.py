"""A server over bytes."""
from ctypes import byref, c_size_t, c_uint32, c_uint64
from typing import Any, Iterator, List, Tuple, Union

from . import faults
from ._buffers import Bytes, bytes_of, lent
from ._library import Side, within


class ServerCore:
    """Sessions over the records of one snapshot file, with no connection: bytes go in by `feed`, and the replies come back.

        with ServerCore(open("store.pir", "rb").read()) as server:
            server.open_session(1)
            replies = server.feed(1, piece)

    Bytes are taken without a copy if they are `bytes` or a `memoryview` that is read-only, whose
    bytes nothing may change meanwhile; others are copied. Threads may share a server: each frame is
    served, and its reply taken, by one of them alone. None can be pickled or copied. In a process
    that was forked a server goes on by itself; if another thread was in a call on it at the fork,
    each call raises `Forked`, and `close` does nothing.
    """

    def __init__(self, snapshot: Bytes) -> None:
        self._server = Side("server")
        with lent(bytes_of(snapshot)) as (at, count):
            self._server.call("open", at, count)

    def open_session(self, number: int) -> None:
        """Begins a session under a number of the caller's: one for each connection."""
        self._server.call("session_open", within(number, 64, faults.NoSession))

    def close_session(self, number: int) -> None:
        """Ends a session."""
        self._server.call("session_close", within(number, 64, faults.NoSession))

    def is_open(self, number: int) -> bool:
        """Whether there is such a session that takes more bytes."""
        answer = c_uint32()
        self._server.call("session_is_open", within(number, 64, faults.NoSession), byref(answer))
        return answer.value == 1

    def feed(self, number: int, piece: Bytes) -> bytes:
        """Takes a piece of a session's stream, and gives the replies to the frames that are whole now. If memory runs
        out the session is closed, and the fault has the replies to the frames before in `replies`."""
        replies: List[bytes] = []
        try:
            replies.extend(self.feed_frames(number, piece))
        except faults.OutOfMemory as fault:
            fault.replies = b"".join(replies) + fault.replies
            raise
        return b"".join(replies)

    def feed_frames(self, number: int, piece: Bytes) -> Iterator[bytes]:
        """Takes a piece frame by frame, and gives the reply to each: the next frame is served when the next reply is asked for. So a
        caller who sends each reply on holds one alone, whatever the piece asks for."""
        left: Union[bytes, memoryview] = memoryview(bytes_of(piece))
        while True:
            reply, took = self._served(number, left)
            left = left[took:]
            yield reply
            if not left:
                return

    def _served(self, number: int, piece: Union[bytes, memoryview]) -> Tuple[bytes, int]:
        """The reply to the first frame of a piece, and how many bytes of the piece were taken."""
        took = c_size_t()
        with self._server.turn, lent(piece) as (at, count):
            try:
                self._server.call("feed_frame", within(number, 64, faults.NoSession), at, count, byref(took))
            except faults.OutOfMemory as fault:
                fault.replies = self._taken()
                raise
            return self._taken(), took.value

    def _taken(self) -> bytes:
        return bytes(self._server.taken("take", self._server.count("waiting")))

    def edit(self, index: int, record: Bytes) -> None:
        """Replaces a record of the draft. No reader sees it before it is published."""
        with lent(bytes_of(record)) as (at, count):
            try:
                self._server.call("edit", within(index, 32, faults.NoSuchRecord), at, count)
            except faults.VulandraiError as fault:
                fault.index = index
                raise

    def append(self, record: Bytes) -> None:
        """Puts a record after those of the draft. No reader sees it before it is published."""
        with lent(bytes_of(record)) as (at, count):
            self._server.call("append", at, count)

    def publish(self) -> int:
        """Makes the draft the current version, and gives its number."""
        with self._server.turn:
            self._server.call("publish")
            return self.version

    @property
    def version(self) -> int:
        """The number of the current version."""
        number = c_uint64()
        self._server.call("version", byref(number))
        return number.value

    def snapshot(self) -> bytes:
        """The snapshot file of the current version."""
        with self._server.turn:
            return bytes(self._server.taken("snapshot", self._server.count("snapshot_len")))

    def close(self) -> None:
        """Frees the server. Every later call raises `Closed`."""
        self._server.close()

    def __enter__(self) -> "ServerCore":
        return self

    def __exit__(self, *_: object) -> None:
        self.close()

    def __reduce__(self) -> Any:
        raise TypeError("a server can't be pickled or copied: take its `snapshot`")
