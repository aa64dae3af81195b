"""A folder of hints, the same as that of `pir_client get --state`. What is in it is public: any copy of it may be used, by any
number of clients side by side."""
import contextlib
import fcntl
import hashlib
import os
import re
import stat
from typing import List, NamedTuple, Optional, Union

# Where fields stand in a file, as docs/FORMATS.md has them: the store's plan with its dimension,
# the records and the version that the server had reported last, the scheme, the hint's version,
# rows and columns, and the digests of its parts.
PLAN, DIMENSION, RECORDS, REPORTED, SCHEME, OWN = slice(8, 49), slice(15, 17), slice(49, 53), slice(53, 61), 61, slice(62, 70)
ROWS, COLUMNS, PARTS = slice(70, 78), slice(78, 86), 86
MAGIC, DIGEST, PART_WORDS, MOST_WORDS = b"PIRHINT3", 32, 1 << 16, 1 << 25
SCHEMES = ("simple", "double")
MOST_BYTES = 1 << 28
# So long is the longest head.
MOST_HEAD = PARTS + DIGEST * (MOST_WORDS // PART_WORDS + 1)
FILE = re.compile(r"(simple|double)-[0-9a-f]{64}\.hint")


class Head(NamedTuple):
    """What the file of a hint says of itself."""

    scheme: str
    version: int
    plan: bytes
    reported: int
    records: int
    dimension: int


def version_of(file: Union[bytes, bytearray]) -> int:
    """The version of the hint in a file."""
    return _number(file[OWN])


def head_of(file: bytes) -> Optional[Head]:
    """The head of a file, if it is whole."""
    if len(file) < PARTS or not file.startswith(MAGIC) or file[SCHEME] >= len(SCHEMES):
        return None
    words = _number(file[ROWS]) * _number(file[COLUMNS])
    end = PARTS + DIGEST * ((words + PART_WORDS - 1) // PART_WORDS)
    if words > MOST_WORDS or hashlib.sha256(file[:end]).digest() != file[end : end + DIGEST]:
        return None
    scheme, plan = SCHEMES[file[SCHEME]], bytes(file[PLAN])
    return Head(scheme, version_of(file), plan, _number(file[REPORTED]), _number(file[RECORDS]), _number(file[DIMENSION]))


class Hints:
    """The hints that a folder keeps, one for each scheme and store. The folder is made where there is none."""

    def __init__(self, path: Union[str, "os.PathLike[str]"]) -> None:
        self._path = os.fspath(path)
        os.makedirs(self._path, 0o700, exist_ok=True)

    def read(self, scheme: str, plan: bytes) -> Optional[bytes]:
        """The file of a scheme's hint for the store of this plan, if there is one."""
        return self._read(self._name(scheme, plan), MOST_BYTES)

    def version_seen(self, plan: bytes) -> int:
        """The highest version that a server of this store was seen to have, beside a hint of either scheme; 0 where none was."""
        files = (self._read(self._name(scheme, plan), MOST_HEAD) for scheme in SCHEMES)
        heads = (head_of(file) for file in files if file is not None)
        return max((head.reported for head in heads if head is not None and head.plan == plan), default=0)

    def heads(self) -> List[Optional[Head]]:
        """The heads of all files, in the order of their names; None for one that is damaged."""
        names = sorted(name for name in os.listdir(self._path) if FILE.fullmatch(name))
        files = (self._read(f"{self._path}/{name}", MOST_HEAD) for name in names)
        return [None if file is None else head_of(file) for file in files]

    def drop(self, scheme: str, plan: bytes) -> None:
        """Removes a file, if there is one."""
        try:
            os.remove(self._name(scheme, plan))
        except FileNotFoundError:
            pass

    def keep(self, scheme: str, plan: bytes, file: Union[bytes, bytearray]) -> None:
        """Keeps a file in place of the one before, whole, unless that one is of a later version. Nothing is kept while another
        process keeps one of this name."""
        name = self._name(scheme, plan)
        with open(os.open(f"{name}.lock", os.O_RDWR | os.O_CREAT | os.O_NOFOLLOW, 0o600), "rb") as lock:
            try:
                fcntl.flock(lock, fcntl.LOCK_EX | fcntl.LOCK_NB)
            except BlockingIOError:
                return
            before = self._read(name, OWN.stop)
            if before is not None and any(_number(before[at]) > _number(file[at]) for at in (REPORTED, OWN)):
                return
            self._remove_left(name)
            self._replace(name, file)

    def _name(self, scheme: str, plan: bytes) -> str:
        return f"{self._path}/{scheme}-{hashlib.sha256(plan).hexdigest()}.hint"

    def _read(self, name: str, most: int) -> Optional[bytes]:
        try:
            descriptor = os.open(name, os.O_RDONLY | os.O_NOFOLLOW | os.O_NONBLOCK)
        except OSError:
            return None
        with open(descriptor, "rb") as file:
            return file.read(most) if stat.S_ISREG(os.fstat(descriptor).st_mode) else None

    def _remove_left(self, name: str) -> None:
        """Removes what a process that was killed left beside a file."""
        left = re.compile(re.escape(os.path.basename(name)) + r"\.new-[0-9a-f]{16}")
        for other in os.listdir(self._path):
            if left.fullmatch(other):
                os.remove(f"{self._path}/{other}")

    def _replace(self, name: str, data: Union[bytes, bytearray]) -> None:
        beside = f"{name}.new-{os.urandom(8).hex()}"
        try:
            with open(os.open(beside, os.O_WRONLY | os.O_CREAT | os.O_EXCL, 0o600), "wb") as file:
                file.write(data)
                file.flush()
                os.fsync(file.fileno())
            os.replace(beside, name)
        except BaseException:
            with contextlib.suppress(FileNotFoundError):
                os.remove(beside)
            raise
        folder = os.open(self._path, os.O_RDONLY)
        try:
            os.fsync(folder)
        finally:
            os.close(folder)


def _number(data: Union[bytes, bytearray]) -> int:
    return int.from_bytes(data, "little")
