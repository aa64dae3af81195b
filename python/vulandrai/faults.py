"""What a call is refused for, by name. Each exception says in its text what is wrong and what to do; in `code` it has the number of
include/vulandrai.h where the library gave one, in `index` the record that the call was for, and in `advice` what to do."""
from typing import Dict, Optional, Tuple, Type


class VulandraiError(Exception):
    """Any refusal or fault."""

    code: Optional[int] = None
    index: Optional[int] = None
    advice: str = ""

    def meaning(self) -> str:
        """What is wrong, without the record and what to do."""
        return str(self.args[0]) if self.args else (self.__doc__ or "").split("\n")[0]

    def __str__(self) -> str:
        record = "" if self.index is None else f" Record {self.index}."
        return f"{self.meaning()}{record} {self.advice}".rstrip()


class NotReady(VulandraiError):
    """No greeting was accepted yet, or no hint is held."""

    code, advice = 1, "Call `sync` first."


class Busy(VulandraiError):
    """Another call is outstanding."""

    code, advice = 2, "Wait for its end."


class BadIndex(VulandraiError, IndexError):
    """There is no such record."""

    code, advice = 3, "Ask for one from 0 to `known.count` - 1; `sync` brings the current count."


class SeedUsedUp(VulandraiError):
    """The retrieval numbers of the seed are used up."""

    code, advice = 4, "Make a client with another seed."


class OutOfMemory(VulandraiError, MemoryError):
    """There is no memory."""

    code, advice = 5, "Close what is not needed. A client whose reply found no memory, or a server's session, is closed."
    replies: bytes = b""


class Failed(VulandraiError):
    """An earlier reply ended the client."""

    code, advice = 6, "Connect anew."


class AlreadyWelcome(VulandraiError):
    """A greeting was accepted before."""

    code, advice = 7, "Go on without another."


class Stale(VulandraiError):
    """The server has named a newer version again and again; `version` is the last."""

    advice = "Try again later; if it stays so, don't trust the server."

    def __init__(self, version: int = 0) -> None:
        super().__init__(version)
        self.version = version

    def meaning(self) -> str:
        return f"The server has named a newer version again and again, at last {self.version}."


class BadWelcome(VulandraiError):
    """The server's greeting is none that the client accepts."""

    code, advice = 16, "See that this is a `pir_server` of this version."


class BadReply(VulandraiError):
    """A reply doesn't fit what was asked."""

    code, advice = 17, "Connect anew, and to another server if it stays so."


class Closed(VulandraiError):
    """The client or the server is closed."""

    code, advice = 32, "Make another."


class BadNumber(VulandraiError, ValueError):
    """The first retrieval number is above 2^62."""

    code, advice = 33, "Begin with 0 under a fresh seed."


class BadScheme(VulandraiError, ValueError):
    """There is no such scheme."""

    code, advice = 34, "Take a `Scheme`."


class BadLength(VulandraiError, ValueError):
    """A record has more bytes than any frame, or bytes are taken into room for another number."""

    code, advice = 35, "Give a record of at most `known.record_len` bytes, in form 2 of two fewer."


class Untaken(VulandraiError):
    """Bytes or events wait that the call would overwrite."""

    code, advice = 36, "Take them first."


class NullPointer(VulandraiError):
    """There is a length and no bytes."""

    code, advice = 37, "Report it: no call of this package gives such."


class NoSession(VulandraiError, KeyError):
    """There is no session of this number."""

    code, advice = 48, "Call `open_session` first."


class IdInUse(VulandraiError):
    """There is a session of this number."""

    code, advice = 49, "Give each connection a number of its own."


class NoSuchRecord(VulandraiError, IndexError):
    """An edit is of a record that there is none of."""

    code, advice = 50, "Append it, or edit one below the draft's count."


class BadRecordLength(VulandraiError, ValueError):
    """An edit or an append is of bytes that can't be a record of the store."""

    code, advice = 51, "Give all of a record's bytes, in form 2 at most two fewer than a slot has."


class NothingToPublish(VulandraiError):
    """Nothing was edited or appended since the last publication."""

    code, advice = 52, "The current version has it all."


class VersionsUsedUp(VulandraiError):
    """The version is the last that there is."""

    code, advice = 53, "Make a new store."


class Full(VulandraiError):
    """An append is to a store that has no room for a further record."""

    code, advice = 54, "Make a new store of other sizes."


class NotSnapshot(VulandraiError, ValueError):
    """The bytes don't begin as a snapshot file."""

    code, advice = 64, "Give the bytes of a file that `pir_server make` wrote."


class BadLayout(VulandraiError, ValueError):
    """The snapshot's sizes, dimension or version are beyond the limits."""

    code, advice = 65, "Give another file: `pir_server show` says what one holds."


class ShortSnapshot(VulandraiError, ValueError):
    """The snapshot is cut short."""

    code, advice = 66, "Read the file to its end, or take a copy of it from before."


class BadDigest(VulandraiError, ValueError):
    """The snapshot's digest is wrong."""

    code, advice = 67, "The file is damaged: take a copy of it from before."


class TrailingBytes(VulandraiError, ValueError):
    """There are bytes after the snapshot."""

    code, advice = 68, "Give the bytes of one file alone."


class BadSlot(VulandraiError, ValueError):
    """A record of the snapshot is no slot."""

    code, advice = 69, "The file is damaged: take a copy of it from before."


class NotRead(VulandraiError, ValueError):
    """The snapshot can't be read."""

    code, advice = 70, "Report it: bytes in memory can always be read."


class BadHint(VulandraiError, ValueError):
    """The bytes are no file of a hint."""

    code, advice = 80, "Remove the file: the next `get` fetches the hint."


class OtherHint(VulandraiError):
    """The hint is none that this client may go on with: of another store, or of a later version than the server's."""

    code, advice = 81, "Call `sync`, which fetches the server's."


# Name, meaning and advice of each code of a server's refusal, as docs/FORMATS.md numbers them.
REFUSALS: Dict[int, Tuple[str, str, str]] = {
    1: ("BadFrame", "a frame can't be read", "Connect anew."),
    2: ("NotWelcome", "no greeting was accepted", "Connect anew."),
    3: ("BadProfile", "the store doesn't speak this profile", "Take a client of the server's version."),
    4: ("BadKey", "the key is neither a reader's nor the publisher's", "Give the key that the store was made with."),
    5: ("NotPublisher", "a reader can't edit", "Give the publisher's `key`."),
    6: ("BadIndex", "the draft has no such record", "Append it, or edit one below the draft's count."),
    7: ("BadLength", "the bytes can't be a record", "Give all of a record's bytes, in form 2 at most two fewer than a slot has."),
    8: ("NothingToPublish", "the draft is the current version", "Nothing is left to do."),
    9: ("VersionsUsedUp", "the version is the last that there is", "Make a new store."),
    10: ("BadPart", "the hint has no such part", "Connect anew."),
    11: ("BadQueryLength", "the query has another length", "Connect anew."),
    12: ("Memory", "the server has no memory for it", "Try again later."),
    13: ("BadScheme", "the server has no such scheme", "Take a `Scheme`."),
    14: ("Full", "the store has no room for a further record", "Make a new store of other sizes."),
}


class Refused(VulandraiError):
    """The server refuses the call; `code` and `name` are its refusal, as docs/FORMATS.md has them."""

    def __init__(self, code: int) -> None:
        super().__init__(code)
        self.code = code
        self.name, self._why, self.advice = REFUSALS.get(code, ("", "this client doesn't know for what", ""))

    def meaning(self) -> str:
        return f"The server refuses the call by code {self.code}: {self._why}."


class Unreadable(VulandraiError):
    """The answer in this `version` gives no record: its noise was too large, or the hint that is kept is another store's."""

    advice = "Ask again: the next try has other noise. If it stays so, remove the folder of hints."

    def __init__(self, version: int = 0) -> None:
        super().__init__(version)
        self.version = version

    def meaning(self) -> str:
        return f"The answer in version {self.version} gives no record: its noise was too large, or the kept hint is another store's."


class Ended(VulandraiError, ConnectionError):
    """The server closed the connection before the call ended."""

    advice = "Connect anew."


class LowDimension(VulandraiError):
    """The server's dimension hides the index less than the client accepts."""

    advice = "Ask another server, or accept it by `least_dimension`."


class Older(VulandraiError):
    """The server's version is lower than one that was seen before of this store."""

    advice = "Behind a balancer ask again in a while. Else its file may have been put back: ask its owner, or accept it without `no_older`."


class Forked(VulandraiError):
    """The client or the server was made in another process, which was forked meanwhile."""

    advice = "Make one in this process: two clients that go on with one seed would show what they ask."


class OlderVersion(UserWarning):
    """The warning of a server whose version is lower than one that was seen before of its store."""


BY_CODE: Dict[int, Type[VulandraiError]] = {
    kind.code: kind for kind in VulandraiError.__subclasses__() if kind.code is not None
}


def check(code: int) -> None:
    """Raises the exception of a code that isn't 0."""
    if code:
        raise BY_CODE[code]() if code in BY_CODE else VulandraiError(f"The library answers code {code}, which is none of this version.")
