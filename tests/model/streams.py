"""Random frames, and damage done to them."""
from formats import (
    ANSWER, APPEND, BYE, CHANGES, CHANGES_ASK, DELTA, DELTA_ASK, DONE, DOUBLE, EDIT, HELLO, HINT_ASK, HINT_PART, KINDS, LOAD, NO_DELTA,
    PUBLISH, QUERY, REFUSED, SIMPLE, STALE, WELCOME, Layout, client_profile, frame, is_slotted, is_wide, query_count,
)  # fmt: skip
from server import Store

KEY = bytes([1]) * 32
KINDS_OF_REPLIES = (WELCOME, HINT_PART, DELTA, ANSWER, STALE, DONE, NO_DELTA, CHANGES, REFUSED)
U32, U64 = (1 << 32) - 1, (1 << 64) - 1


def random_store(chance, publisher, last=False, forms=(1, 1, 2, 2, 129, 130)):
    """A small store of one of these forms. With `last` its version may be one of the last."""
    form = chance.choice(forms)
    width = chance.choice((6, 7, 8, 8, 9, 9 if is_wide(form) else 10))
    record_len = chance.choice((2, 3, 3, 4, 5) if is_slotted(form) else (1, 1, 2, 3))
    # With longer secrets a wide store keeps more of what changed.
    groups, count, n = chance.randint(1, 3), chance.randint(1, 7), chance.choice((1, 3, 8, 16) if is_wide(form) else (1, 1, 2, 3))
    layout = Layout(width, record_len, groups, count, form)
    records = [random_record(chance, layout) for _ in range(count)]
    version = chance.choice((U64, U64 - 1)) if last and chance.random() < 0.1 else chance.choice((1, 1, 7))
    return Store(layout, n, version, chance.randbytes(1) * 32, publisher, records)


def random_record(chance, layout):
    """A record that fits."""
    return chance.randbytes(chance.randint(0, layout.record_len - 2) if is_slotted(layout.form) else layout.record_len)


def random_edit(chance, layout):
    """The bytes of an edit, mostly of a length that fits."""
    record = random_record(chance, layout)
    return record if chance.random() < 0.75 else chance.randbytes(near(chance, layout.record_len, 9))


def near(chance, value, most):
    """A number that is mostly the value, else one beside it, or an end of the range."""
    kind = chance.random()
    if kind < 0.75:
        return value
    return min(most, max(0, chance.choice((value - 1, value + 1, 0, 1, most, chance.randint(0, most)))))


def words(chance, count):
    return [chance.getrandbits(32) for _ in range(near(chance, count, count + 3))]


def random_ask(chance, store):
    """A frame that clients send, mostly one that fits the store."""
    layout, version = store.layout, near(chance, store.version(), U64)
    scheme = near(chance, chance.choice((SIMPLE, DOUBLE)), 255)
    changes = (EDIT, EDIT, EDIT, APPEND, APPEND, PUBLISH, PUBLISH, PUBLISH)
    since = (DELTA_ASK, CHANGES_ASK) if is_wide(layout.form) else (DELTA_ASK, DELTA_ASK)
    kind = chance.choice((HELLO, HINT_ASK, HINT_ASK, *since, QUERY, QUERY, QUERY, *changes, BYE))
    if kind == HELLO:
        key = chance.choice((bytes(32), bytes(32), KEY, bytes([2]) * 32))
        profile = client_profile(is_wide(layout.form)) if chance.random() < 0.5 else chance.choice((1, 2, 129, 130))
        return frame(HELLO, near(chance, profile, 65_535), key)
    if kind == HINT_ASK:
        return frame(kind, scheme, version, near(chance, 0, U32))
    if kind in since:
        return frame(kind, max(0, store.version() - chance.choice((0, 0, 1, 2, 3, 16, 17))) if chance.random() < 0.9 else version)
    if kind == QUERY:
        return frame(kind, scheme, version, rest=words(chance, query_count(scheme & 1, layout)))
    if kind == EDIT:
        index = chance.randrange(len(store.draft)) if chance.random() < 0.9 else near(chance, len(store.draft), U32)
        same = chance.random() < 0.2 and index < len(store.draft)
        return frame(kind, index, rest=store.draft[index] if same else random_edit(chance, layout))
    if kind == APPEND:
        return frame(kind, rest=bytes(layout.record_len) if chance.random() < 0.2 else random_edit(chance, layout))
    return frame(kind)


def random_frame(chance, store):
    """A frame of any kind."""
    if chance.random() < 0.93:
        return random_ask(chance, store)
    kind = chance.choice((LOAD, CHANGES_ASK, *KINDS_OF_REPLIES))
    payload = chance.randbytes(chance.choice((0, 1, 5, 8, 9, 12, 13, 20, 22, 26, 53)))
    return len(payload).to_bytes(4, "little") + bytes([kind]) + payload


def damaged(chance, data):
    """The bytes with something wrong."""
    data, kind = bytearray(data), chance.randrange(8)
    at = chance.randrange(len(data) + 1)
    if kind == 0 and data:
        data[at % len(data)] ^= 1 << chance.randrange(8)
    elif kind == 1 and data:
        data[at % len(data)] = chance.choice((0, 1, 0x7F, 0x80, 0xFF, chance.randrange(256)))
    elif kind == 2:
        del data[at:]
    elif kind == 3:
        data[at:at] = chance.randbytes(chance.choice((1, 2, 4, 5)))
    elif kind == 4 and len(data) > 4:
        data[:4] = chance.choice((0, 1, len(data) - 6 & U32, len(data) - 4, 16_777_216, 16_777_217, U32)).to_bytes(4, "little")
    elif kind == 5 and len(data) > 4:
        data[4] = chance.choice((*KINDS, 0, 11, 0x7F, 0x80, 0x81, 0x89, 0x8B, 0x8E, 0x90, 0xFF))
    elif kind == 6:
        del data[at : at + chance.choice((1, 2, 4))]
    else:
        data = bytearray(chance.randbytes(chance.randrange(12)))
    return bytes(data)


def pieces(chance, data):
    """The bytes in chunks."""
    if chance.random() < 0.5 or len(data) < 2:
        return [data]
    if chance.random() < 0.1 and len(data) < 200:
        return [data[at : at + 1] for at in range(len(data))]
    cuts = sorted({0, len(data), *(chance.randrange(len(data)) for _ in range(chance.randint(1, 3)))})
    return [data[begin:end] for begin, end in zip(cuts, cuts[1:])]
