"""Snapshot files as an area: what the programs say of them, and make of them."""
import hashlib
import os
import subprocess
import tempfile

from areas import SECONDS, compared, file_of, store_of
from formats import (
    DOUBLE, SIMPLE, Layout, answer_count, fields_at, hint_count, is_layout, is_slotted, is_wide, magic_of, query_count, snapshot_fault,
)  # fmt: skip
from server import Store
from streams import KEY, damaged, near, random_store

WIDE_SEED = bytes([0x33]) * 32


class Snapshots:
    """Snapshot files, whole and damaged, as `pir_server show` prints them, `pir_server migrate` moves their records into slots, and
    `pir_server widen` into a wide store."""

    name = "snapshots"

    def case(self, chance):
        publisher = hashlib.sha256(KEY).digest()
        data = file_of(random_store(chance, publisher, last=True) if chance.random() < 0.8 else large_store(chance, publisher))
        kind = chance.randrange(8)
        if kind == 0:
            at = chance.randrange(fields_at(data) + 19)
            data = data[:at] + bytes([chance.randrange(256)]) + data[at + 1 :]
        elif kind == 1:
            data = damaged(chance, data)
        elif kind == 2:
            data = data[: chance.randrange(len(data))]
        elif kind == 3:
            at = chance.randrange(fields_at(data) + 83, len(data) - 32)
            data = data[:at] + bytes([near(chance, data[at] ^ 1, 255)]) + data[at + 1 :]
        elif kind == 4:
            data = magic_of(chance.choice((1, 2, 129, 130, 1, 131))) + data[fields_at(data) :]
        if kind in (0, 3, 4) and chance.random() < 0.7:
            data = data[:-32] + hashlib.sha256(data[:-32]).digest()
        if chance.random() < 0.1:
            data += b"\0"
        return {"command": chance.choice(("show", "migrate", "widen")), "parts": [data]}

    def difference(self, case, programs):
        data = b"".join(case["parts"])
        with tempfile.TemporaryDirectory() as room:
            path, out = os.path.join(room, "store"), os.path.join(room, "out")
            with open(path, "wb") as file:
                file.write(data)
            words = [case["command"], "--file", path, *(["--out", out] if case["command"] != "show" else [])]
            words += ["--seed", WIDE_SEED.hex()] if case["command"] == "widen" else []
            done = subprocess.run([programs[0], *words], capture_output=True, text=True, timeout=SECONDS)
            left = None
            if os.path.exists(out):
                with open(out, "rb") as file:
                    left = file.read()
        wanted = {"show": self.shown, "migrate": self.migrated, "widen": self.widened}[case["command"]](data)
        return compared(wanted, (done.stdout, done.stderr, done.returncode, left))

    def shown(self, data):
        if fault := snapshot_fault(data):
            return "", f"fault: {fault}\n", 3, None
        return "".join(f"{line}\n" for line in description(store_of(data))), "", 0, None

    def migrated(self, data):
        fault = snapshot_fault(data) or migrate_fault(store_of(data).layout)
        if fault:
            return "", f"fault: {fault}\n", 3, None
        store = store_of(data)
        return f"migrated {store.layout.count} {store.version()}\n", "", 0, file_of(in_slots(store))

    def widened(self, data):
        fault = snapshot_fault(data) or widen_fault(store_of(data).layout)
        if fault:
            return "", f"fault: {fault}\n", 3, None
        store = store_of(data)
        return f"widened {store.layout.count} {store.version()}\n", "", 0, file_of(made_wide(store))


def large_store(chance, publisher):
    """A store of records of one length of which some have no room for a length beside them, or of more rows than an ordinary one
    has."""
    longest = (
        (8, 254, 1, 1), (8, 255, 1, 1), (8, 256, 1, 1), (8, 62, 64, 1), (8, 63, 64, 1), (8, 64, 64, 1), (10, 3, 1000, 1), (10, 4, 1000, 1),
        (8, 254, 63, 129), (8, 255, 63, 129), (8, 256, 63, 129), (8, 252, 64, 129), (8, 1, 32_768, 129), (8, 1, 10_922, 129),
        (8, 1, 10_923, 129), (9, 2, 5000, 129),
    )  # fmt: skip
    width, record_len, groups, form = chance.choice(longest)
    records = [chance.randbytes(record_len) for _ in range(chance.randint(1, 3))]
    return Store(Layout(width, record_len, groups, len(records), form), 1, 1, bytes(32), publisher, records)


def migrate_fault(layout):
    """The name of the fault with which the records of a layout are not moved into slots, or None."""
    if is_slotted(layout.form):
        return "NotFormOne"
    return None if is_layout(layout.width, layout.record_len + 2, layout.groups, layout.count, layout.form) else "TooWide"


def in_slots(store):
    """The same records in slots."""
    old = store.layout
    layout = Layout(old.width, old.record_len + 2, old.groups, old.count, old.form + 1)
    return Store(layout, store.n, store.first, store.seed, store.publisher, store.versions[0])


def widen_fault(layout):
    """The name of the fault with which the records of a layout are not put into a wide store, or None."""
    if is_wide(layout.form):
        return "NotOrdinary"
    return "BadWidth" if layout.width > 9 else None


def made_wide(store):
    """The same records in a wide store, which has a public seed of its own."""
    old = store.layout
    layout = Layout(old.width, old.record_len, old.groups, old.count, old.form + 128)
    return Store(layout, store.n, store.first, WIDE_SEED, store.publisher, store.versions[0])


def is_certain(layout, terms):
    """Whether each noise sum of so many terms stays below half of delta."""
    return 27 * ((1 << layout.width) - 1) * terms < layout.delta // 2


def bits_of_sum(layout, terms):
    """How rarely a noise sum of so many terms reaches half of delta, in bits: if digits are drawn evenly, and at worst."""
    half_squared, top = (layout.delta // 2) ** 2, (1 << layout.width) - 1
    worst = 18 * half_squared // (1025 * terms * top * top)
    spread = (terms * (2 * top + 1)) ** 2
    if 41 * spread < 36 * half_squared:
        return worst, worst
    mean = 108 * half_squared // (1025 * terms * top * (2 * top + 1))
    return max(worst, mean - 54 * half_squared * mean // (205 * spread) - 1), worst


def description(store):
    """The lines that `show` prints."""
    layout, n = store.layout, store.n
    lengths = f"{layout.record_len} bytes"
    if is_slotted(layout.form):
        lengths = f"at most {layout.record_len - 2} bytes, the longest of {max(map(len, store.draft))}"
    yield from (f"version {store.version()}", f"form {layout.form}", f"records {layout.count} of {lengths}")
    yield from (f"width {layout.width}", f"groups {layout.groups}", f"digits {layout.rows} rows {layout.cols} columns", f"dimension {n}")
    for name, scheme in (("simple", SIMPLE), ("double", DOUBLE)):
        sizes = (hint_count(scheme, layout, n), query_count(scheme, layout), answer_count(scheme, layout, n))
        hint, query, answer = (4 * words for words in sizes)
        yield f"{name}: hint {hint}, query {query}, answer {answer} bytes"
    first, second = bits_of_sum(layout, layout.cols), bits_of_sum(layout, layout.rows)
    simple = [max(0, bits - 1) for bits in first]
    double = [max(0, min(over_columns - 2, over_rows - 15)) for over_columns, over_rows in zip(first, second)]
    for name, good, odds in (
        ("simple", is_certain(layout, layout.cols), simple),
        ("double", is_certain(layout, max(layout.cols, layout.rows)), double),
    ):
        yield f"{name}: certain" if good else f"{name}: depends on the noise, odds 2^-{odds[0]}, at worst 2^-{odds[1]}"
