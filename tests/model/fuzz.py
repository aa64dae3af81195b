#!/usr/bin/env -S python3 -B
"""Random and hostile input for both built programs, compared with a model written from docs/FORMATS.md alone.

usage: fuzz.py [--seconds N] [--seed S] [--jobs J] [--streams N] [--area NAME] [SERVER CLIENT]

Areas: streams to the sessions of a served store, every order of three frames of every kind there,
what changed in a wide one, and the limits of what it keeps of that; one database over one stream,
replies to the client's commands, the hint that a folder keeps and what moves it, scripts of a
world, and snapshot files as they are shown, migrated and made wide; stores and worlds are of all
four forms. All follows from the seed. It runs for N seconds (60 if not given), or until N streams
were sent. A case that differs is made smaller, and printed with its seed. It ends with 'N passed, M
failed'; a stream counts as one case.
"""
import argparse
import multiprocessing
import os
import random
import sys
import time

from areas import Changes, Limits, Moves, Once, Orders, Replies, Scripts, Streams
from snapshots import Snapshots

HERE = os.path.dirname(os.path.abspath(__file__))
# Areas of which all cases are run once, before the others.
WHOLE = (Orders(), Limits())
# Each area, and how many of its cases are run in one round.
ROUND = ((Streams(), 4), (Changes(), 2), (Once(), 25), (Replies(), 25), (Moves(), 15), (Scripts(), 15), (Snapshots(), 10))
MOST_SHRINKING = 60


def without(parts):
    """The parts with some of them left out: halves first, then single ones, then single parts of a part."""
    size = len(parts) // 2
    while size:
        for at in range(0, len(parts), size):
            yield parts[:at] + parts[at + size :]
        size //= 2
    for at, part in enumerate(parts):
        for cut in range(len(part)) if len(part) > 1 else ():
            yield [*parts[:at], part[:cut] + part[cut + 1 :], *parts[at + 1 :]]


def smallest(area, case, programs):
    """A case that still differs, from which nothing can be left out, or as far as a minute brings it."""
    until, going = time.monotonic() + MOST_SHRINKING, True
    while going:
        going = False
        for parts in without(case["parts"]):
            if time.monotonic() > until:
                return case
            fewer = {**case, "parts": parts}
            if area.difference(fewer, programs):
                case, going = fewer, True
                break
    return case


def tried(area, case, name, programs):
    """How many cases passed and failed. What differs is printed."""
    try:
        difference = area.difference(case, programs)
    except Exception as error:
        difference = repr(error)
    if difference is None:
        return len(case["parts"]) if isinstance(area, Streams) else 1, 0
    case = smallest(area, case, programs)
    print(f"FAIL {name}: {area.difference(case, programs) or difference}\n  {case}", flush=True)
    return 0, 1


def rounds(words, job, programs):
    """One process's share."""
    passed = failed = streams = number = 0
    until = time.monotonic() + words.seconds
    while failed < 3 and (streams * words.jobs < words.streams if words.streams else time.monotonic() < until):
        for area, count in ROUND:
            for at in range(count if words.area in (None, area.name) else 0):
                name = f"{area.name} {words.seed} {job} {number} {at}"
                more = tried(area, area.case(random.Random(name)), name, programs)
                passed, failed = passed + more[0], failed + more[1]
                streams += more[0] * isinstance(area, Streams)
        number += 1
    return passed, failed, streams


def main():
    parser = argparse.ArgumentParser(description=__doc__, formatter_class=argparse.RawDescriptionHelpFormatter)
    parser.add_argument("--seconds", type=int, default=60)
    parser.add_argument("--seed", type=int, default=1)
    parser.add_argument("--jobs", type=int, default=2)
    parser.add_argument("--streams", type=int, default=0)
    parser.add_argument("--area")
    parser.add_argument("programs", nargs="*")
    words = parser.parse_args()
    built = [f"{HERE}/../../crates/{name}/out/{name}" for name in ("pir_server", "pir_client")]
    programs = [os.path.realpath(program) for program in words.programs or built]
    passed = failed = streams = 0
    for area in WHOLE:
        for at, case in enumerate(area.all_cases() if words.area in (None, area.name) else ()):
            more = tried(area, case, f"{area.name} {at}", programs)
            passed, failed = passed + more[0], failed + more[1]
    with multiprocessing.Pool(words.jobs) as pool:
        for more in pool.starmap(rounds, [(words, job, programs) for job in range(words.jobs)]):
            passed, failed, streams = passed + more[0], failed + more[1], streams + more[2]
    print(f"seed {words.seed}: {streams} random streams to a server, {passed + failed} cases in all")
    print(f"{passed} passed, {failed} failed")
    sys.exit(failed != 0 or not passed)


if __name__ == "__main__":
    main()
