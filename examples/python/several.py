#!/usr/bin/env python3
"""Asks several servers on this machine for a record, side by side, without any of them learning which.

usage: several.py HINTS INDEX PORT ..    prints a line 'PORT VERSION RECORD' for each, the record in hex digits, or 'PORT FAULT'

HINTS is a folder that keeps the hints for the next time. While one hint is fetched the others are,
too.
"""
import asyncio
import sys
from typing import List

from vulandrai import AsyncClient, VulandraiError


async def asked(port: int, hints: str, index: int) -> str:
    try:
        async with AsyncClient("127.0.0.1", port, hints=hints, timeout=30) as client:
            record = await client.retrieve(index)
            return f"{port} {record.version} {record.bytes.hex()}"
    except (VulandraiError, OSError) as fault:
        return f"{port} {type(fault).__name__}: {fault}"


async def asked_of_all(hints: str, index: int, ports: List[int]) -> None:
    for line in await asyncio.gather(*(asked(port, hints, index) for port in ports)):
        print(line)


if __name__ == "__main__":
    if len(sys.argv) < 4:
        sys.exit(__doc__)
    asyncio.run(asked_of_all(sys.argv[1], int(sys.argv[2]), [int(port) for port in sys.argv[3:]]))
