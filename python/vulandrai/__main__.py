"""usage: python -m vulandrai get|put|append|publish|state --help

Does what the commands of `pir_client` of these names do, and prints the same lines. Exit status: 0
done, 1 refused by the server (or stale, or unreadable), 2 a bad command line, 3 a fault, 4 out of
memory.
"""
import argparse
import os
import re
import sys
import warnings
from typing import Callable, Dict, List, Optional

from . import Client, Scheme, __version__, faults, library_version
from .hints import Hints

DONE, REFUSED, BAD_LINE, FAULT, MEMORY = 0, 1, 2, 3, 4


def key_word(word: str) -> str:
    """A key's 64 hex digits, or @FILE, which is read when it is needed."""
    if not re.fullmatch("@.+|[0-9a-f]{64}", word):
        raise argparse.ArgumentTypeError("a key is 64 hex digits, or @FILE with them")
    return word


def key_of(word: str) -> bytes:
    """A key of 32 bytes, of its digits or of the file that has them."""
    if word.startswith("@"):
        with open(word[1:], encoding="ascii") as file:
            word = file.read().strip()
    if not re.fullmatch("[0-9a-f]{64}", word):
        raise ValueError("--key: the file has no key of 64 hex digits")
    return bytes.fromhex(word)


def record_of(word: str) -> bytes:
    """A record's bytes, two hex digits each, or - for none."""
    if not re.fullmatch("-|([0-9a-f]{2})+", word):
        raise argparse.ArgumentTypeError("a record is two hex digits for each byte, or - for none")
    return b"" if word == "-" else bytes.fromhex(word)


def parser_of_words() -> argparse.ArgumentParser:
    parser = argparse.ArgumentParser(prog="python -m vulandrai", description="A client of one pir_server.")
    version = f"vulandrai {__version__}, library {library_version()}"
    parser.add_argument("--version", action="version", version=version)
    commands = parser.add_subparsers(dest="command", required=True)

    def command(name: str, text: str) -> argparse.ArgumentParser:
        made = commands.add_parser(name, help=text, description=f"{text[0].upper()}{text[1:]}.")
        made.add_argument("--verbose", action="store_true", help="say the cause of a fault in a second line, and what to do")
        return made

    def connected(made: argparse.ArgumentParser, for_publisher: bool) -> None:
        made.add_argument("--host", default="127.0.0.1", help="the server's address; 127.0.0.1 if none is given")
        made.add_argument("--port", type=int, required=True, help="the server's port")
        made.add_argument("--timeout", type=float, default=30, help="how many seconds connecting and each piece may take; 30 if not given")
        if for_publisher:
            made.add_argument("--key", type=key_word, required=True, help="the publisher's key: 64 hex digits, or @FILE")

    get = command("get", "retrieve records without telling the server which")
    connected(get, False)
    get.add_argument("--hints", help="a folder in which the hint is kept for the next time; it is made if there is none, and has no secret")
    get.add_argument("--no-older", action="store_true", help="with --hints: refuse a server whose version is lower than one seen before")
    get.add_argument("--scheme", choices=("simple", "double"), default="simple")
    get.add_argument("index", type=int, nargs="+", help="which record, counted from 0")
    put = command("put", "replace a record in the publisher's draft, which no reader sees before publish")
    connected(put, True)
    put.add_argument("index", type=int, help="which record, counted from 0")
    put.add_argument("record", type=record_of, help="its new bytes, two hex digits each, or - for none")
    append = command("append", "append a record to the publisher's draft, which no reader sees before publish")
    connected(append, True)
    append.add_argument("record", type=record_of, help="its bytes, two hex digits each, or - for none")
    connected(command("publish", "make the publisher's draft the next version"), True)
    state = command("state", "print which hints a folder keeps")
    state.add_argument("--hints", required=True, help="the folder")
    return parser


def shown(come: int, whole: Optional[int]) -> None:
    """Counts the bytes of a hint in one line of a terminal. Rows that changed alone come too fast to be counted."""
    if whole is not None:
        print(f"\rhint: {come} of {whole} bytes", end="\n" if come == whole else "", file=sys.stderr, flush=True)


def get(said: argparse.Namespace) -> None:
    if said.no_older and said.hints is None:
        said.parser.error("--no-older goes with --hints")
    words = {"hints": said.hints, "scheme": Scheme[said.scheme.upper()], "no_older": said.no_older, "timeout": said.timeout}
    with warnings.catch_warnings(record=True) as them:
        warnings.simplefilter("always")
        with Client(said.host, said.port, progress=shown if sys.stderr.isatty() else None, **words) as client:
            for index in said.index:
                record = client.retrieve(index)
                print("retrieved", record.index, record.version, record.bytes.hex() or "-", flush=True)
    for it in them:
        print(f"warning: {it.message}", file=sys.stderr)


def publisher(said: argparse.Namespace) -> Client:
    return Client(said.host, said.port, key=key_of(said.key), least_dimension=1, timeout=said.timeout)


def put(said: argparse.Namespace) -> None:
    with publisher(said) as client:
        client.edit(said.index, said.record)
        print("done", client.known.version)


def append(said: argparse.Namespace) -> None:
    with publisher(said) as client:
        client.append(said.record)
        print("done", client.known.version)


def publish(said: argparse.Namespace) -> None:
    with publisher(said) as client:
        print("published", client.publish())


def state(said: argparse.Namespace) -> None:
    if not os.path.isdir(said.hints):
        raise NotADirectoryError(f"there is no folder {said.hints}")
    heads = Hints(said.hints).heads()
    for head in heads:
        if head is not None:
            print(f"hint {head.scheme} {head.version}\nversion {head.reported}\nrecords {head.records}\ndimension {head.dimension}")
    if not any(heads):
        print("hint none")
    if None in heads:
        print("warning: the hint kept is damaged", file=sys.stderr)


COMMANDS: Dict[str, Callable[[argparse.Namespace], None]] = {
    "get": get,
    "put": put,
    "append": append,
    "publish": publish,
    "state": state,
}


def done(said: argparse.Namespace) -> int:
    """Does a command, and says in a line how it failed."""
    try:
        COMMANDS[said.command](said)
        return DONE
    except faults.Refused as fault:
        line, status, cause = f"refused {fault.code}", REFUSED, str(fault)
    except faults.Stale as fault:
        line, status, cause = f"stale {fault.version}", REFUSED, str(fault)
    except faults.Unreadable as fault:
        line, status, cause = f"unreadable {fault.index} {fault.version}", REFUSED, str(fault)
    except MemoryError as fault:
        line, status, cause = "fault: Memory", MEMORY, str(fault)
    except (faults.VulandraiError, OSError) as fault:
        line, status, cause = f"fault: {type(fault).__name__}", FAULT, str(fault)
    except ValueError as fault:
        print(fault, file=sys.stderr)
        return BAD_LINE
    print(line, file=sys.stderr)
    if said.verbose:
        print(f"cause: {cause}", file=sys.stderr)
    return status


def main(line: Optional[List[str]] = None) -> int:
    parser = parser_of_words()
    said = parser.parse_args(line)
    said.parser = parser
    return done(said)


if __name__ == "__main__":
    sys.exit(main())
