"""The store of the largest size, its server, and what speaks with it: what scripts/time_open, scripts/time_get and scripts/load
have in common. It has 262,144 records of 80 bytes in digits of 10 bits, 64 to a column: 4096 x 4096 digits, secrets of 1024
words, and hints of 16 MiB in 64 parts. scripts/side_by_side.py has the programs."""

import os
import socket
import struct
import subprocess
import threading
import time

from side_by_side import stop

SIDE = 4096
RECORD = 80
WIDTH = 10
GROUPS = 64
RECORDS = GROUPS * SIDE
DIGITS = RECORD * 8 // 10
SPLITS = 4
PARTS = 64
PART_BYTES = 5 + 13 + 4 * 65536
WELCOME_BYTES = 5 + 53
DONE_BYTES = 5 + 8
READER, PUBLISHER = bytes(32), bytes([1] * 32)
BYE = struct.pack("<IB", 0, 0x08)


def hello(key):
    return struct.pack("<IBH32s", 34, 0x02, 1, key)


def connected(port):
    connection = socket.create_connection(("127.0.0.1", port))
    connection.setsockopt(socket.IPPROTO_TCP, socket.TCP_NODELAY, 1)
    return connection


def received(connection, count):
    """Exactly so many bytes."""
    got = bytearray(count)
    view = memoryview(got)
    at = 0
    while at < count:
        more = connection.recv_into(view[at:])
        if more == 0:
            stop(f"the server closed after {at} of {count} bytes")
        at += more
    return got


def exchange(connection, sent, count):
    """Sends bytes while as many as are wanted come back: the milliseconds until the last of them."""
    begun = time.perf_counter()
    sender = threading.Thread(target=connection.sendall, args=(sent,))
    sender.start()
    got = received(connection, count)
    millis = (time.perf_counter() - begun) * 1000
    sender.join()
    return millis, got


def spent_millis(pid):
    """The time that a process spent so far."""
    # The number that Linux gives to the clock of a process's time, as clock_getcpuclockid answers
    # it: /proc counts in steps of 10 ms.
    return time.clock_gettime_ns((~pid << 3) | 2) / 1e6


def made(program, folder, record=RECORD, groups=GROUPS, columns=SIDE, width=WIDTH):
    """The store's file, and its records; they may be shorter, with more groups, so that the digits are as many, and there may be fewer columns."""
    count = groups * columns * record
    records = b"".join(struct.pack("<Q", i * 0x9E3779B97F4A7C15 % 2**64) for i in range(count // 8))
    name = os.path.join(folder, "store.pir")
    words = ["make", "--out", name, "--width", str(width), "--record", str(record), "--groups", str(groups)]
    keys = ["--seed", "00" * 32, "--key", PUBLISHER.hex()]
    if subprocess.run([program, *words, *keys], input=records).returncode != 0:
        stop("make failed")
    return name, records


def serving(program, name, connections):
    """A server of the file that listens, its port, and the milliseconds until it did."""
    words = ["serve", "--file", name, "--port", "0", "--connections", str(connections)]
    begun = time.perf_counter()
    server = subprocess.Popen([program, *words], stdout=subprocess.PIPE, text=True)
    line = server.stdout.readline()
    millis = (time.perf_counter() - begun) * 1000
    if len(line.split()) < 2:
        stop("the server didn't listen")
    return server, int(line.split()[1]), millis
