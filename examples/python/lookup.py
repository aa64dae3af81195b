#!/usr/bin/env python3
"""A private lookup by name. Names and their values, of any lengths, are kept in buckets: record i holds all entries whose
name hashes to i. Who looks a name up gets its bucket, and the server learns neither name nor
bucket.

usage: lookup.py make FILE KEY BUCKETS ROOM < ENTRIES    ENTRIES has a line 'NAME VALUE' each; ROOM is a bucket's
                                                         bytes, 254 at most, and BUCKETS 4096 at most
       lookup.py get PORT HINTS NAME                     prints the value, or ends with status 1
       lookup.py put PORT HINTS KEY NAME VALUE           sets a value, and publishes

FILE is served by `pir_server run --file FILE --listen 127.0.0.1:PORT`. KEY is a file with the
publisher's key, 64 hex digits; HINTS is a folder that keeps the hint for the next time. PIR_SERVER
names the program if it isn't on the path.
"""
import hashlib
import os
import subprocess
import sys
from typing import Dict, List

from vulandrai import Client

Entries = Dict[str, str]


def bucket_of(name: str, buckets: int) -> int:
    return int.from_bytes(hashlib.sha256(name.encode()).digest()[:8], "big") % buckets


def packed(entries: Entries, room: int) -> bytes:
    """A bucket's bytes: of each entry the lengths of name and value in two bytes each, the name, and the value."""
    whole = b""
    for name, value in sorted(entries.items()):
        first, second = name.encode(), value.encode()
        whole += len(first).to_bytes(2, "big") + len(second).to_bytes(2, "big") + first + second
    if len(whole) > room:
        sys.exit(f"a bucket is full: {len(whole)} bytes for {', '.join(sorted(entries))}, and room for {room}")
    return whole


def unpacked(whole: bytes) -> Entries:
    entries, at = {}, 0
    while at < len(whole):
        first, second = int.from_bytes(whole[at : at + 2], "big"), int.from_bytes(whole[at + 2 : at + 4], "big")
        name, value = whole[at + 4 : at + 4 + first], whole[at + 4 + first : at + 4 + first + second]
        entries[name.decode()], at = value.decode(), at + 4 + first + second
    return entries


def make(file: str, key: str, buckets: int, room: int) -> None:
    kept: List[Entries] = [{} for _ in range(buckets)]
    for line in sys.stdin:
        name, value = line.rstrip("\n").split(" ", 1)
        kept[bucket_of(name, buckets)][name] = value
    lines = "".join((packed(entries, room).hex() or "-") + "\n" for entries in kept)
    program, seed = os.environ.get("PIR_SERVER", "pir_server"), os.urandom(32).hex()
    words = f"make --form 2 --width 8 --record {room + 2} --groups 1 --seed {seed} --out".split()
    subprocess.run([program, *words, file, "--key", f"@{key}"], input=lines.encode(), check=True)


def get(port: str, hints: str, name: str) -> None:
    with Client("127.0.0.1", int(port), hints=hints) as client:
        entries = unpacked(client.get(bucket_of(name, client.known.count)))
    if name not in entries:
        sys.exit(f"there is no {name}")
    print(entries[name])


def put(port: str, hints: str, key: str, name: str, value: str) -> None:
    with open(key, encoding="ascii") as file:
        secret = bytes.fromhex(file.read())
    with Client("127.0.0.1", int(port), hints=hints, key=secret) as client:
        index = bucket_of(name, client.known.count)
        entries = {**unpacked(client.get(index)), name: value}
        client.edit(index, packed(entries, client.known.record_len - 2))
        print("version", client.publish())


if __name__ == "__main__":
    if len(sys.argv) < 2 or sys.argv[1] not in ("make", "get", "put"):
        sys.exit(__doc__)
    command, *words = sys.argv[1:]
    if command == "make":
        make(words[0], words[1], int(words[2]), int(words[3]))
    elif command == "get":
        get(*words)
    else:
        put(*words)
