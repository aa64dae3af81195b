"""A client's calls, with no connection of their own: each is a generator that says what is to be sent and is given what came, so that
`Client` and `AsyncClient` have the same calls over connections of two kinds."""
import enum
import os
import warnings
from ctypes import byref, c_uint64
from typing import Generator, NamedTuple, Optional, Tuple, TypeVar, Union

from . import faults
from ._buffers import Bytes, bytes_of, lent
from ._library import PLAN, Event, KnownServer, Side, within
from .hints import Hints, version_of

READER = bytes(32)
SYNCED, RETRIEVED, UNREADABLE, STALE, REFUSED = 2, 3, 4, 5, 7

# How often a hint or an answer may be stale before the server is given up: it may publish again and
# again, or lie.
STALE_ANSWERS = 3

# Where frames have their kind, and the kind that asks for a part of a hint, whose number is its
# last field (docs/FORMATS.md).
KIND, HINT_ASK = 4, 0x03
# Bytes of a HintPart besides its words, and words of a part.
PART_HEAD, PART_WORDS = 18, 1 << 16

Folder = Union[str, "os.PathLike[str]"]
T = TypeVar("T")


class Scheme(enum.IntEnum):
    """How records are retrieved. SIMPLE has the shorter answers, and a hint that grows with the store and is moved by the rows that changed;
    DOUBLE has a hint of 16 to 24 MiB however large the store is, which is fetched anew for each version."""

    SIMPLE = 0
    DOUBLE = 1


class Record(NamedTuple):
    """A record as it was in a version."""

    index: int  # type: ignore[assignment]
    version: int
    bytes: bytes


class Known(NamedTuple):
    """What the server reported of its store: the version, how many records it has, their form, how many bytes a record has, or
    in form 2 its slot, and how many words a secret has."""

    version: int
    count: int  # type: ignore[assignment]
    form: int
    record_len: int
    dimension: int


class Step(NamedTuple):
    """What is to be sent; whether a piece of the server's stream is wanted then; and how far a hint has come, if one is fetched: how many
    bytes, and of how many, which is None where only the rows that changed are sent."""

    sent: Union[bytes, bytearray]
    awaits: bool = True
    progress: Optional[Tuple[int, Optional[int]]] = None


Steps = Generator[Step, bytes, T]


def hint_len(plan: bytes, scheme: Scheme) -> int:
    """How many bytes the parts of a store's hint have as frames."""
    width, record, groups, dimension = plan[2], *(int.from_bytes(plan[at : at + 2], "little") for at in (3, 5, 7))
    digits = (8 * record + width - 1) // width
    rows = groups * digits if scheme == Scheme.SIMPLE else (32 + width - 1) // width * dimension
    words = rows * dimension
    return 4 * words + PART_HEAD * ((words + PART_WORDS - 1) // PART_WORDS)


# The code by which a server refuses a greeting of the other kind of store.
BAD_PROFILE = 3


class Session:
    """A client of the library, and the hints that it keeps."""

    def __init__(self, seed: Optional[bytes], number: int, key: Bytes, scheme: Scheme, hints: Optional[Folder]) -> None:
        if seed is None and number != 0:
            raise ValueError("a number is that of a seed of your own")
        seed, key = os.urandom(32) if seed is None else bytes(bytes_of(seed)), bytes(bytes_of(key))
        if len(seed) != 32 or len(key) != 32:
            raise ValueError("a seed has 32 bytes, and so has a key")
        self.client, self.scheme, self._key = Side("client"), Scheme(scheme), key
        self.older: Optional[Tuple[int, int]] = None
        self._is_synced, self._has_looked = False, False
        self._is_fetching, self._come = False, 0
        self._whole: Optional[int] = None
        self._hints = None if hints is None else Hints(hints)
        self._opening = (seed, within(number, 64, faults.BadNumber))
        self.client.call("open", *self._opening)

    def greet(self, least_dimension: int) -> Steps[None]:
        try:
            yield from self._greeted()
        except faults.Refused as fault:
            if fault.code != BAD_PROFILE:
                raise
            # The store may be a wide one, whose clients are others.
            self.client.call("open_wide", *self._opening)
            yield from self._greeted()
        finally:
            del self._opening
        known = self.known()
        if known.dimension < least_dimension:
            raise faults.LowDimension()
        seen = 0 if self._hints is None else self._hints.version_seen(self._plan())
        self.older = (known.version, seen) if known.version < seen else None

    def _greeted(self) -> Steps[None]:
        self.client.call("hello", self._key)
        yield from self._ended()

    def sync(self) -> Steps[int]:
        for _ in range(STALE_ANSWERS):
            self.client.call("sync", self.scheme)
            self._is_fetching, self._come, self._whole = True, 0, None
            try:
                event, _ = yield from self._ended()
                if event.kind == SYNCED:
                    yield from self._told()
            finally:
                self._is_fetching = False
            if event.kind == SYNCED:
                self._is_synced = True
                self._keep_hint()
                return int(event.version)
        raise faults.Stale(self.known().version)

    def retrieve(self, index: int) -> Steps[Record]:
        try:
            return (yield from self._retrieved(within(index, 32, faults.BadIndex)))
        except faults.VulandraiError as fault:
            fault.index = index
            raise

    def _retrieved(self, wanted: int) -> Steps[Record]:
        yield from self._hold_hint()
        for _ in range(1 + STALE_ANSWERS):
            self.client.call("ask", wanted)
            event, record = yield from self._ended()
            if event.kind == RETRIEVED:
                self._compare(wanted, event)
                return Record(event.index, event.version, bytes(record))
            if event.kind == UNREADABLE:
                raise faults.Unreadable(event.version)
            yield from self.sync()
        raise faults.Stale(self.known().version)

    def edit(self, index: int, record: Bytes) -> Steps[None]:
        whole = bytes_of(record)
        try:
            with lent(whole) as (at, count):
                self.client.call("edit", within(index, 32, faults.NoSuchRecord), at, count)
            yield from self._ended()
        except faults.VulandraiError as fault:
            fault.index = index
            raise

    def append(self, record: Bytes) -> Steps[None]:
        with lent(bytes_of(record)) as (at, count):
            self.client.call("append", at, count)
        yield from self._ended()

    def publish(self) -> Steps[int]:
        self.client.call("publish")
        event, _ = yield from self._ended()
        return int(event.version)

    def known(self) -> Known:
        known = KnownServer()
        self.client.call("known", byref(known))
        return Known(known.version, known.count, known.form, known.record_len, known.dimension)

    def next_number(self) -> int:
        number = c_uint64()
        self.client.call("number", byref(number))
        return number.value

    def warn_of_older(self) -> None:
        if self.older is not None:
            warnings.warn("version %d after %d" % self.older, faults.OlderVersion, stacklevel=3)

    def _plan(self) -> bytes:
        return bytes(self.client.taken("plan", PLAN))

    def _hold_hint(self) -> Steps[None]:
        """Sees to it that a hint of the current version is held: the one kept, or as a sync moves or brings it."""
        if not self._has_looked:
            self._has_looked = True
            self._take_up()
        if not self._is_synced:
            yield from self.sync()

    def _take_up(self) -> None:
        """Takes up the hint that is kept for the store, if there is one. A damaged one is dropped."""
        if self._hints is None:
            return
        name, plan = self.scheme.name.lower(), self._plan()
        file = self._hints.read(name, plan)
        if file is None:
            return
        try:
            self.client.call("resume", file, len(file))
        except faults.BadHint:
            self._hints.drop(name, plan)
        except faults.OtherHint:
            pass
        else:
            self._is_synced = version_of(file) == self.known().version

    def _keep_hint(self) -> None:
        """Keeps the hint held. That it can't be kept is warned of, since nothing else depends on it."""
        if self._hints is None:
            return
        file = self.client.taken("save", self.client.count("hint_len"))
        try:
            self._hints.keep(self.scheme.name.lower(), self._plan(), file)
        except OSError as fault:
            warnings.warn(f"the hint can't be kept: {fault}")

    def _compare(self, wanted: int, event: Event) -> None:
        """An answer is that of the record asked for. The client has compared it already."""
        if event.index != wanted:
            self.client.close()
            raise faults.BadReply()

    def _ended(self) -> Steps[Tuple[Event, bytearray]]:
        """The event with which the outstanding call ends, and its record; a refusal is raised."""
        try:
            event, record = yield from self._conversation()
        except BaseException:
            # Nobody knows how far the server is, so nothing more can be said over this connection.
            self.client.close()
            raise
        if event.kind == REFUSED:
            raise faults.Refused(event.detail)
        return event, record

    def _conversation(self) -> Steps[Tuple[Event, bytearray]]:
        event = Event()
        while True:
            sent = self.client.taken("take", self.client.count("waiting"))
            self.client.call("event", byref(event))
            if event.kind:
                return event, self.client.taken("next", event.record_len)
            self._note_ask(sent)
            piece = yield Step(sent, progress=self._progress() if self._come else None)
            if not piece:
                raise faults.Ended()
            self._come += len(piece) if self._is_fetching else 0
            self.client.call("feed", piece, len(piece))

    def _told(self) -> Steps[None]:
        """Says that all has come."""
        try:
            yield Step(b"", False, self._progress())
        except BaseException:
            self.client.close()
            raise

    def _note_ask(self, sent: bytearray) -> None:
        """Notes that a hint begins to come, of which all parts are asked for."""
        if self._is_fetching and len(sent) > KIND and sent[KIND] == HINT_ASK and not any(sent[-4:]):
            self._come, self._whole = 0, hint_len(self._plan(), self.scheme)

    def _progress(self) -> Optional[Tuple[int, Optional[int]]]:
        return (self._come, self._whole) if self._is_fetching else None
