"""Records and their slots, digits, words, both schemes, frames and snapshots by docs/FORMATS.md, in the plainest way.

Nothing here is fast: hints are made from scratch, matrices are lists of lists.
"""
import functools
import hashlib
import struct

WORD = 1 << 32
PART_WORDS = 65_536
# The most words that a query has for the digits of its record.
MOST_PART_WORDS = 4_128_768
MOST_PAYLOAD = 16_777_216
MOST_DELTA_ROWS = 1024
# The most bytes that the entries of Changes have: the payload has 20 before them.
MOST_ENTRIES = MOST_PAYLOAD - 20
SIMPLE, DOUBLE = 0, 1
# The highest forms that there are, which are the profiles of a client that knows all ordinary ones,
# or all wide ones.
LAST_FORM, LAST_WIDE_FORM = 2, 130
LIMITS = [
    2043, 6079, 9970, 13630, 16990, 20001, 22633, 24879, 26749, 28269, 29474, 30407, 31111, 31630,
    32003, 32265, 32445, 32565, 32643, 32693, 32724, 32743, 32754, 32760, 32764, 32766, 32767,
]  # fmt: skip


# ---- words


def chacha20_block(key, counter, nonce):
    """16 words of RFC 8439's block function, with a counter and a nonce of 64 bits each."""
    start = [*struct.unpack("<4I", b"expand 32-byte k"), *struct.unpack("<8I", key)]
    start += struct.unpack("<4I", struct.pack("<QQ", counter, nonce))
    state = list(start)

    def quarter(a, b, c, d):
        for first, second, third, turn in ((a, b, d, 16), (c, d, b, 12), (a, b, d, 8), (c, d, b, 7)):
            state[first] = (state[first] + state[second]) % WORD
            mixed = state[third] ^ state[first]
            state[third] = (mixed << turn | mixed >> (32 - turn)) % WORD

    for _ in range(10):
        for column in range(4):
            quarter(column, column + 4, column + 8, column + 12)
        for diagonal in range(4):
            quarter(diagonal, (diagonal + 1) % 4 + 4, (diagonal + 2) % 4 + 8, (diagonal + 3) % 4 + 12)
    return [(word + first) % WORD for word, first in zip(state, start)]


@functools.lru_cache(maxsize=256)
def stream(key, number):
    """A stream's words as far as they are made."""
    return []


def words_of(key, number, place, count):
    """`count` words of a stream, from a place on."""
    words = stream(key, number)
    while len(words) < place + count:
        words += chacha20_block(key, len(words) // 16, number)
    return words[place : place + count]


def noise_of(word):
    magnitude = sum(limit <= word % 32_768 for limit in LIMITS)
    return -magnitude if word >> 15 & 1 else magnitude


def dot(left, right):
    return sum(a * b for a, b in zip(left, right)) % WORD


def product(left, right):
    columns = list(zip(*right))
    return [[dot(row, column) for column in columns] for row in left]


def transposed(matrix):
    return [list(column) for column in zip(*matrix)]


@functools.lru_cache(maxsize=64)
def public_matrix(seed, number, rows, n):
    words = words_of(seed, number, 0, rows * n)
    return [words[row * n : (row + 1) * n] for row in range(rows)]


# ---- records


def slot_of(record, size):
    """A record of at most size - 2 bytes in a slot of so many: its length, the record, zeros."""
    return struct.pack("<H", len(record)) + record + bytes(size - 2 - len(record))


def content_of(slot):
    """The record in a slot; None where the bytes are no slot."""
    record = slot[2 : 2 + int.from_bytes(slot[:2], "little")]
    return record if len(slot) >= 2 and slot_of(record, len(slot)) == slot else None


def is_wide(form):
    """Whether the digit matrix of a form may have more rows and columns."""
    return form > 128


def is_slotted(form):
    """Whether each record of a form has a length of its own, and stands in a slot."""
    return form in (2, 130)


def is_form(form, record_len):
    """Whether there is a form of this number whose places may have so many bytes: a slot has two for the length."""
    return form in (1, 129) or is_slotted(form) and record_len >= 2


def client_profile(wide):
    """The profile in which a client of wide stores, or of ordinary ones, greets."""
    return LAST_WIDE_FORM if wide else LAST_FORM


def accepts(form, profile):
    """Whether a store of a form and a client of a profile speak with each other: they are of one kind, and the client knows slots
    if there are any."""
    return form <= profile <= client_profile(is_wide(form))


def fits(form, record_len, record):
    """Whether a place of so many bytes takes a record."""
    return len(record) + 2 <= record_len if is_slotted(form) else len(record) == record_len


class Layout:
    """Where the digits of records stand, and the form of the bytes that they are the digits of: the records themselves in
    forms 1 and 129, slots of R bytes in forms 2 and 130."""

    def __init__(self, width, record_len, groups, count, form=1):
        self.width, self.record_len, self.groups, self.count, self.form = width, record_len, groups, count, form
        self.digits = -(-8 * record_len // width)
        self.rows = groups * self.digits
        self.cols = -(-count // groups)
        self.delta = 1 << (32 - width)
        self.split = -(-32 // width)

    def with_count(self, count):
        return Layout(self.width, self.record_len, self.groups, count, self.form)

    def fits(self, record):
        return fits(self.form, self.record_len, record)

    def stored(self, record):
        """The bytes that stand for a record."""
        return slot_of(record, self.record_len) if is_slotted(self.form) else record

    def content(self, stored):
        """The record that bytes stand for; None where they stand for none."""
        return content_of(stored) if is_slotted(self.form) else stored

    def digits_of(self, stored):
        number = int.from_bytes(stored, "little")
        return [number >> (self.width * digit) & (1 << self.width) - 1 for digit in range(self.digits)]

    def matrix(self, records):
        matrix = [[0] * self.cols for _ in range(self.rows)]
        for index, record in enumerate(records):
            for digit, value in enumerate(self.digits_of(self.stored(record))):
                matrix[self.first_row(index) + digit][index // self.groups] = value
        return matrix

    def record(self, digits):
        """The record of these digits; None where a bit past the last byte is set, or the bytes stand for no record."""
        number = sum(digit << (self.width * place) for place, digit in enumerate(digits))
        return self.content(number.to_bytes(self.record_len, "little")) if number >> 8 * self.record_len == 0 else None

    def first_row(self, index):
        return self.digits * (index % self.groups)

    def rounded(self, word):
        return (word + self.delta // 2) % WORD // self.delta


def is_layout(width, record_len, groups, count, form=1):
    most_bits, side = (9, 32_768) if is_wide(form) else (10, 4096)
    if not (6 <= width <= most_bits and 1 <= record_len <= 256 and groups >= 1):
        return False
    digits = -(-8 * record_len // width)
    rows = groups * digits
    return rows <= side and digits * rows <= MOST_PART_WORDS and count >= 1 and -(-count // groups) <= side


def decomposed(layout, matrix):
    """Each row as `split` rows of digits, the lowest digit first."""
    mask = (1 << layout.width) - 1
    return [[word >> (layout.width * t) & mask for word in row] for row in matrix for t in range(layout.split)]


def recomposed(layout, digits):
    return sum(digit << (layout.width * t) for t, digit in enumerate(digits)) % WORD


# ---- the schemes


def query_count(scheme, layout):
    return layout.cols + (layout.digits * layout.rows if scheme == DOUBLE else 0)


def answer_count(scheme, layout, n):
    if scheme == SIMPLE:
        return layout.rows
    return layout.split * n + layout.digits * layout.split * (n + 1)


def hint_count(scheme, layout, n):
    return layout.rows * n if scheme == SIMPLE else layout.split * n * n


def part_count(scheme, layout, n, part):
    """The words of a part of the hint; 0 where there is no such part."""
    return max(0, min(PART_WORDS, hint_count(scheme, layout, n) - part * PART_WORDS))


def encrypted(layout, public, secret, noise, place):
    return [
        (dot(row, secret) + small + layout.delta * (j == place)) % WORD
        for j, (row, small) in enumerate(zip(public, noise))
    ]


def query_of(scheme, layout, n, public_seed, seed, number, index):
    secret = words_of(seed, 4 * number, 0, n)
    noise = [noise_of(word) for word in words_of(seed, 4 * number + 1, 0, layout.cols)]
    first = public_matrix(public_seed, 0, layout.cols, n)
    words = encrypted(layout, first, secret, noise, index // layout.groups)
    if scheme == DOUBLE:
        second = public_matrix(public_seed, 1, layout.rows, n)
        for d in range(layout.digits):
            secret = words_of(seed, 4 * number + 2, d * n, n)
            noise = [noise_of(word) for word in words_of(seed, 4 * number + 3, d * layout.rows, layout.rows)]
            words += encrypted(layout, second, secret, noise, layout.first_row(index) + d)
    return words


class Hints:
    """Both schemes' hints of one version, from scratch, each when it is first asked for."""

    def __init__(self, layout, n, public_seed, records):
        self.layout, self.n, self.seed = layout, n, public_seed
        self.digits = layout.matrix(records)

    @functools.cached_property
    def second(self):
        return public_matrix(self.seed, 1, self.layout.rows, self.n)

    @functools.cached_property
    def simple(self):
        return product(self.digits, public_matrix(self.seed, 0, self.layout.cols, self.n))

    @functools.cached_property
    def server(self):
        return decomposed(self.layout, transposed(self.simple))

    @functools.cached_property
    def double(self):
        return product(self.server, self.second)

    def words(self, scheme):
        return [word for row in (self.simple if scheme == SIMPLE else self.double) for word in row]

    def answer(self, scheme, words):
        layout = self.layout
        first = [dot(row, words[: layout.cols]) for row in self.digits]
        if scheme == SIMPLE:
            return first
        rows = decomposed(layout, [first])
        answer = [word for row in product(rows, self.second) for word in row]
        for d in range(layout.digits):
            part = words[layout.cols + d * layout.rows : layout.cols + (d + 1) * layout.rows]
            answer += [dot(row, part) for row in self.server] + [dot(row, part) for row in rows]
        return answer


def read_answer(scheme, layout, n, hint, seed, number, index, answer):
    """The record that an answer gives, by the words of the scheme's hint; None where it can't be read."""
    secret = words_of(seed, 4 * number, 0, n)
    rows = [hint[at : at + n] for at in range(0, len(hint), n)]
    digits = []
    for d in range(layout.digits):
        if scheme == SIMPLE:
            row = layout.first_row(index) + d
            digits.append(layout.rounded((answer[row] - dot(rows[row], secret)) % WORD))
            continue
        k, second = layout.split, words_of(seed, 4 * number + 2, d * n, n)
        at = k * n + d * k * (n + 1)
        of_hint = [layout.rounded((answer[at + i] - dot(rows[i], second)) % WORD) for i in range(k * n)]
        of_first = [
            layout.rounded((answer[at + k * n + t] - dot(answer[t * n : (t + 1) * n], second)) % WORD) for t in range(k)
        ]
        hint_row = [recomposed(layout, of_hint[k * i : k * i + k]) for i in range(n)]
        digits.append(layout.rounded((recomposed(layout, of_first) - dot(hint_row, secret)) % WORD))
    return layout.record(digits)


def delta_rows(old, new):
    """The rows that differ; a version with fewer columns has zeros in the others."""
    more = [0] * (new.layout.cols - old.layout.cols)
    return [row for row, (left, right) in enumerate(zip(old.digits, new.digits)) if left + more != right]


# ---- changed records


def differences(before, after):
    """Where two lists of stored bytes differ, and the bytes of both, ascending; what the first lacks at its end are zeros there."""
    for index, new in enumerate(after):
        old = before[index] if index < len(before) else bytes(len(new))
        if old != new:
            yield index, old, new


def entry_of(index, old, new):
    return struct.pack("<I", index) + old + new


def entries_in(data, record_len):
    """The changes that some bytes have; None if they are not whole entries."""
    size = 4 + 2 * record_len
    if len(data) % size:
        return None
    split = [(data[at : at + 4], data[at + 4 : at + 4 + record_len], data[at + 4 + record_len : at + size]) for at in range(0, len(data), size)]
    return [(int.from_bytes(index, "little"), old, new) for index, old, new in split]


def moved_hint(layout, n, public_seed, hint, changes):
    """The words of a SimplePIR hint after changes of records: the change of each digit times the record's row of the public matrix."""
    hint = list(hint)
    for index, old, new in changes:
        column = index // layout.groups
        row_of_public = words_of(public_seed, 0, column * n, n)
        for d, (before, after) in enumerate(zip(layout.digits_of(old), layout.digits_of(new))):
            at = (layout.first_row(index) + d) * n
            for k in range(n):
                hint[at + k] = (hint[at + k] + (after - before) * row_of_public[k]) % WORD
    return hint


# ---- frames

LOAD, HELLO, HINT_ASK, DELTA_ASK, QUERY, EDIT, PUBLISH, BYE, APPEND, CHANGES_ASK = 1, 2, 3, 4, 5, 6, 7, 8, 9, 10
WELCOME, HINT_PART, DELTA, ANSWER, STALE, DONE, NO_DELTA, CHANGES, REFUSED = 0x82, 0x83, 0x84, 0x85, 0x86, 0x87, 0x88, 0x8A, 0x8F
# The fixed part of each kind's payload, and what follows it: nothing, bytes, words or rows.
KINDS = {
    LOAD: ("<HHB", "bytes"), HELLO: ("<H32s", ""), HINT_ASK: ("<BQI", ""), DELTA_ASK: ("<Q", ""), QUERY: ("<BQ", "words"),
    EDIT: ("<I", "bytes"), PUBLISH: ("<", ""), BYE: ("<", ""), APPEND: ("<", "bytes"), WELCOME: ("<HBHHIQH32s", ""),
    HINT_PART: ("<BQI", "words"), DELTA: ("<QQIH", "rows"), ANSWER: ("<BQ", "words"), STALE: ("<QI", ""), DONE: ("<Q", ""), NO_DELTA: ("<QI", ""),
    REFUSED: ("<B", ""), CHANGES_ASK: ("<Q", ""), CHANGES: ("<QQI", "bytes"),
}  # fmt: skip
# Those that the streams of wide stores alone have.
WIDE_KINDS = (CHANGES_ASK, CHANGES)


def bytes_of(words):
    return struct.pack(f"<{len(words)}I", *words)


def words_in(data):
    return list(struct.unpack(f"<{len(data) // 4}I", data))


def frame(kind, *fields, rest=b""):
    """A frame's bytes; the rest may be bytes or words."""
    payload = struct.pack(KINDS[kind][0], *fields) + (rest if isinstance(rest, bytes) else bytes_of(rest))
    return struct.pack("<IB", len(payload), kind) + payload


def fields_of(kind, payload):
    """The fields of a payload, the rest last where there is one; None where its kind can't have this length."""
    fixed, rest = KINDS[kind]
    size = struct.calcsize(fixed)
    if len(payload) < size or rest == "" and len(payload) > size:
        return None
    fields, beyond = list(struct.unpack(fixed, payload[:size])), payload[size:]
    whole = {"": 1, "bytes": 1, "words": 4, "rows": 4 + 4 * fields[-1] if rest == "rows" else 0}[rest]
    if len(beyond) % whole:
        return None
    if rest:
        fields.append(beyond if rest == "bytes" else words_in(beyond))
    return fields


def is_kind(kind, wide):
    """Whether the streams of a wide store, or of an ordinary one, have frames of a kind."""
    return kind in KINDS and (wide or kind not in WIDE_KINDS)


class Reader:
    """Cuts a stream of a wide store, or of an ordinary one, into frames: (kind, fields), and at the end "fault" where it can't be
    read on."""

    def __init__(self, wide=False):
        self.wide, self.data, self.failed = wide, b"", False

    def feed(self, piece):
        self.data += piece
        while not self.failed:
            if len(self.data) < 4:
                return
            length = struct.unpack("<I", self.data[:4])[0]
            if length > MOST_PAYLOAD or len(self.data) > 4 and not is_kind(self.data[4], self.wide):
                self.failed = True
                yield "fault", None
                return
            if len(self.data) < 5 + length:
                return
            kind, payload = self.data[4], self.data[5 : 5 + length]
            self.data = self.data[5 + length :]
            fields = fields_of(kind, payload)
            if fields is None:
                self.failed = True
                yield "fault", None
                return
            yield kind, fields

    def is_between_frames(self):
        return not self.failed and not self.data


# ---- snapshots

# The forms that a snapshot may have that begins so. A wide one says in its next byte which it has.
FORMS = {b"PIRSNAP1": (1,), b"PIRSNAP2": (2,), b"PIRWIDE1": (129, 130)}


def magic_of(form):
    """What a snapshot of a form begins with, up to w."""
    return b"PIRWIDE1" + bytes([form]) if is_wide(form) else f"PIRSNAP{form}".encode()


def fields_at(data):
    """Where a snapshot's fields begin: at w."""
    return 9 if data[:8] == b"PIRWIDE1" else 8


def header_of(data):
    """A snapshot's form, w, R, g, count, n and version, and where its seed begins."""
    start = fields_at(data)
    form = data[8] if start == 9 else FORMS[data[:8]][0]
    return (form, *struct.unpack("<BHHIHQ", data[start : start + 19]), start + 19)


def snapshot_bytes(layout, n, version, seed, publisher, records):
    sizes = (layout.width, layout.record_len, layout.groups, layout.count, n, version)
    stored = b"".join(layout.stored(record) for record in records)
    body = magic_of(layout.form) + struct.pack("<BHHIHQ", *sizes) + seed + publisher + stored
    return body + hashlib.sha256(body).digest()


def snapshot_fault(data):
    """The name of the fault with which a snapshot is refused, or None."""
    if data[:8] not in FORMS:
        return "Short" if len(data) < 8 else "NotSnapshot"
    first = fields_at(data) + 83
    if len(data) < first:
        return "Short"
    form, width, record_len, groups, count, n, version, _ = header_of(data)
    if form not in FORMS[data[:8]] or not is_form(form, record_len) or not is_layout(width, record_len, groups, count, form):
        return "BadLayout"
    if not 1 <= n <= 1024 or version == 0:
        return "BadLayout"
    end = first + count * record_len
    if len(data) < end + 32:
        return "Short"
    if hashlib.sha256(data[:end]).digest() != data[end : end + 32]:
        return "BadDigest"
    if len(data) > end + 32:
        return "TrailingBytes"
    layout = Layout(width, record_len, groups, count, form)
    stored = (data[at : at + record_len] for at in range(first, end, record_len))
    return "BadSlot" if any(layout.content(place) is None for place in stored) else None
