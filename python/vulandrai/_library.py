"""The C interface over ctypes, as include/vulandrai.h declares it.

The shared library is the file that VULANDRAI_LIBRARY names; or that of this package's folder, or of
out/c in the repository in which this file stands; or the one that the system's loader finds. Each
of these folders has two, one for every x86-64-v2 and one for processors with AVX2 and what goes
with it (x86-64-v3): /proc/cpuinfo decides.
"""
import ctypes
import os
import threading
import weakref
from ctypes import POINTER, byref, c_char_p, c_size_t, c_uint32, c_uint64, c_void_p
from typing import Any, Dict, List, Type

from . import faults
from ._buffers import Room

HERE = os.path.dirname(os.path.abspath(__file__))
NAME = "libvulandrai.so.1"
# The features of x86-64-v3, as /proc/cpuinfo names them.
WIDE = frozenset("avx avx2 bmi1 bmi2 f16c fma abm movbe xsave".split())


class Handle(ctypes.Structure):
    _fields_ = [("full", c_uint64), ("at", c_void_p)]


class Event(ctypes.Structure):
    _fields_ = [
        ("kind", c_uint32),
        ("detail", c_uint32),
        ("index", c_uint32),
        ("reserved", c_uint32),
        ("version", c_uint64),
        ("record_len", c_uint64),
    ]


class KnownServer(ctypes.Structure):
    _fields_ = [
        ("version", c_uint64),
        ("count", c_uint32),
        ("form", c_uint32),
        ("record_len", c_uint32),
        ("dimension", c_uint32),
    ]


def is_wide(cpuinfo: str = "/proc/cpuinfo") -> bool:
    """Whether the processor runs code for x86-64-v3."""
    try:
        with open(cpuinfo, encoding="ascii", errors="replace") as file:
            for line in file:
                if line.startswith("flags"):
                    return WIDE.issubset(line.split())
    except OSError:
        pass
    return False


def _found() -> ctypes.CDLL:
    if "VULANDRAI_LIBRARY" in os.environ:
        return ctypes.CDLL(os.environ["VULANDRAI_LIBRARY"])
    folders = [HERE, os.path.join(HERE, os.pardir, os.pardir, "out", "c")]
    below = [os.path.join("glibc-hwcaps", "x86-64-v3", NAME), NAME] if is_wide() else [NAME]
    for place in (os.path.join(folder, name) for folder in folders for name in below):
        if os.path.exists(place):
            return ctypes.CDLL(place)
    try:
        return ctypes.CDLL(NAME)
    except OSError:
        raise ImportError(f"{NAME} is neither in {folders} nor known to the loader: make it by scripts/build_c, or install it") from None


LIBRARY = _found()
BYTES: List[Any] = [c_void_p, c_size_t]
# How many bytes say which store a hint is of.
PLAN = 41
CLIENT: Dict[str, List[Any]] = {
    "open": [c_char_p, c_uint64],
    "open_wide": [c_char_p, c_uint64],
    "close": [],
    "hello": [c_char_p],
    "sync": [c_uint32],
    "ask": [c_uint32],
    "edit": [c_uint32, *BYTES],
    "append": BYTES,
    "publish": [],
    "feed": BYTES,
    "waiting": [],
    "take": BYTES,
    "event": [POINTER(Event)],
    "next": BYTES,
    "hint_len": [],
    "save": BYTES,
    "resume": BYTES,
    "number": [POINTER(c_uint64)],
    "known": [POINTER(KnownServer)],
    "plan": BYTES,
}
SERVER: Dict[str, List[Any]] = {
    "open": BYTES,
    "close": [],
    "session_open": [c_uint64],
    "session_close": [c_uint64],
    "session_is_open": [c_uint64, POINTER(c_uint32)],
    "feed": [c_uint64, *BYTES],
    "feed_frame": [c_uint64, *BYTES, POINTER(c_size_t)],
    "waiting": [],
    "take": BYTES,
    "edit": [c_uint32, *BYTES],
    "append": BYTES,
    "publish": [],
    "version": [POINTER(c_uint64)],
    "snapshot_len": [],
    "snapshot": BYTES,
}
TEXTS: Dict[str, List[Any]] = {"version": [], "strerror": [c_uint32]}
COUNTS = ("waiting", "hint_len", "snapshot_len")


def _declare() -> None:
    for side, calls in (("client_", CLIENT), ("server_", SERVER), ("", TEXTS)):
        for name, types in calls.items():
            call = getattr(LIBRARY, f"vul_{side}{name}", None)
            if call is None:
                raise ImportError(f"the library has no vul_{side}{name}: it is of an earlier version than this package")
            call.argtypes = [POINTER(Handle), *types] if side else types
            call.restype = (None if name == "close" else c_size_t if name in COUNTS else c_uint32) if side else c_char_p


_declare()


def library_version() -> str:
    """The version of the library, as its header has it."""
    return bytes(LIBRARY.vul_version()).decode()


def within(number: int, bits: int, fault: Type[faults.VulandraiError]) -> int:
    """A number of so many bits; ctypes would cut off what is above them."""
    if not 0 <= number < 1 << bits:
        raise fault()
    return number


class Side:
    """A handle and its calls, of which one is made at a time. It is closed with the object; a call on a closed one raises
    `Closed`. Whoever makes several calls that belong together holds `turn` meanwhile."""

    def __init__(self, side: str) -> None:
        self._side, self._handle, self._process = side, Handle(), os.getpid()
        self.turn, self._is_lost = threading.RLock(), False
        _sides.add(self)

    def call(self, name: str, *words: object) -> None:
        """Makes a call that answers a code."""
        if self._is_lost:
            raise faults.Forked()
        faults.check(self._made(name, *words))

    def count(self, name: str) -> int:
        """Makes a call that answers a count of bytes."""
        if self._is_lost:
            raise faults.Forked()
        return self._made(name)

    def taken(self, name: str, count: int) -> bytearray:
        """So many bytes that a call copies out."""
        room = Room(count)
        self.call(name, room.words, count)
        return room.bytes

    def close(self) -> None:
        """Frees what the handle holds. Of a handle that was lost at a fork nothing is touched."""
        if not self._is_lost:
            self._made("close")

    def is_closed(self) -> bool:
        """Whether the handle holds nothing."""
        return self._is_lost or not self._handle.full

    def came_over(self) -> None:
        """Looks in a new process whether another thread was in a call at the fork. That thread is not here, so its call never ends, and what
        the handle holds may be half of it."""
        if self.turn.acquire(blocking=False):
            self.turn.release()
        else:
            self.turn, self._is_lost = threading.RLock(), True

    def _made(self, name: str, *words: object) -> int:
        with self.turn:
            return int(getattr(LIBRARY, f"vul_{self._side}_{name}")(byref(self._handle), *words) or 0)

    def __reduce__(self) -> Any:
        raise TypeError("a handle can't be pickled or copied")

    def __del__(self) -> None:
        # In a process that was forked the memory goes when the process ends.
        if LIBRARY is not None and getattr(self, "_process", None) == os.getpid():
            self.close()


_sides: "weakref.WeakSet[Side]" = weakref.WeakSet()


def _came_over() -> None:
    for side in list(_sides):
        side.came_over()


os.register_at_fork(after_in_child=_came_over)
