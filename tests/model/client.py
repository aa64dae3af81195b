"""A client's side of a session by docs/FORMATS.md: its calls, what it takes as a reply, and what comes of it."""
from formats import (
    ANSWER, APPEND, CHANGES, CHANGES_ASK, DELTA, DELTA_ASK, DONE, EDIT, HELLO, HINT_ASK, HINT_PART, MOST_DELTA_ROWS, NO_DELTA, PUBLISH,
    QUERY, REFUSED, SIMPLE, STALE, WELCOME, Layout, Reader, accepts, answer_count, client_profile, entries_in, frame, is_form, is_layout,
    moved_hint, part_count, query_of, read_answer,
)  # fmt: skip

NUMBERS = 1 << 62
SCHEMES = ("simple", "double")


class BadReply(Exception):
    """A reply that doesn't fit the outstanding call."""


class BadWelcome(Exception):
    """A Welcome that can't be accepted."""


class CallRefused(Exception):
    """A call that was refused; its text is the name."""


class Client:
    """A client of wide stores, or of ordinary ones. Calls give bytes to send or raise CallRefused; `feed` gives bytes to send, events
    as lines, and a fault's name or None."""

    def __init__(self, seed, number=0, wide=False):
        self.seed, self.number, self.reader = seed, number, Reader(wide)
        self.profile, self.wide = client_profile(wide), wide
        self.failed, self.layout, self.call = False, None, None
        self.scheme, self.hint, self.hint_version, self.parts = None, None, None, []

    # ---- calls

    def begin(self, welcomed):
        if self.failed:
            raise CallRefused("Failed")
        if welcomed and not self.layout:
            raise CallRefused("NotReady")

    def free(self):
        if self.call:
            raise CallRefused("Busy")

    def hello(self, key=bytes(32)):
        self.begin(False)
        if self.layout:
            raise CallRefused("AlreadyWelcome")
        self.free()
        self.call = ("hello",)
        return frame(HELLO, self.profile, key)

    def sync(self, scheme):
        self.begin(True)
        self.free()
        if scheme == SIMPLE and self.hint is not None and self.scheme == SIMPLE:
            name, kind = ("changes", CHANGES_ASK) if self.wide else ("delta", DELTA_ASK)
            self.call = (name, self.hint_version)
            return frame(kind, self.hint_version)
        return self.parts_from_start(scheme)

    def parts_from_start(self, scheme):
        self.hint, self.scheme, self.hint_version, self.parts = None, None, None, []
        self.call = ("parts", scheme, self.version, 0)
        return frame(HINT_ASK, scheme, self.version, 0)

    def ask(self, index):
        self.begin(True)
        if self.hint is None or self.hint_version != self.version:
            raise CallRefused("NotReady")
        self.free()
        if index >= self.layout.count:
            raise CallRefused("BadIndex")
        if self.number == NUMBERS:
            raise CallRefused("SeedUsedUp")
        number, self.number = self.number, self.number + 1
        self.call = ("ask", self.scheme, self.version, number, index)
        words = query_of(self.scheme, self.layout, self.n, self.public_seed, self.seed, number, index)
        return frame(QUERY, self.scheme, self.version, rest=words)

    def edit(self, index, data):
        self.begin(True)
        self.free()
        self.call = ("edit",)
        return frame(EDIT, index, rest=data)

    def append(self, data):
        self.begin(True)
        self.free()
        self.call = ("append",)
        return frame(APPEND, rest=data)

    def publish(self):
        self.begin(True)
        self.free()
        self.call = ("publish",)
        return frame(PUBLISH)

    # ---- replies

    def feed(self, piece):
        if self.failed:
            return b"", [], "Failed"
        out, events = b"", []
        try:
            for kind, fields in self.reader.feed(piece):
                said, event = self.take(kind, fields)
                out += said
                events += event
        except (BadReply, BadWelcome) as fault:
            self.failed = True
            return out, events, type(fault).__name__
        return out, events, None

    def take(self, kind, fields):
        if kind == "fault" or not self.call:
            raise BadReply
        if kind == REFUSED:
            self.parts = []
            return self.ended(f"server refused {fields[0]}")
        takes = {"hello": self.in_hello, "parts": self.in_parts, "delta": self.in_delta, "changes": self.in_changes, "ask": self.in_ask}
        return takes.get(self.call[0], self.in_change)(kind, fields)

    def ended(self, *event):
        self.call = None
        return b"", [" ".join(str(word) for word in event)]

    def in_hello(self, kind, fields):
        if kind != WELCOME:
            raise BadReply
        form, width, record_len, groups, count, version, n, seed = fields
        if not accepts(form, self.profile) or not is_form(form, record_len) or not is_layout(width, record_len, groups, count, form):
            raise BadWelcome
        if not 1 <= n <= 1024 or version == 0:
            raise BadWelcome
        self.layout = Layout(width, record_len, groups, count, form)
        self.version, self.n, self.public_seed = version, n, seed
        return self.ended("welcomed", version)

    def renewed(self, version, count):
        """The version and the count last known, from a reply that names them."""
        old = self.layout
        if version == 0 or not is_layout(old.width, old.record_len, old.groups, count, old.form):
            raise BadReply
        self.version, self.layout = version, old.with_count(count)

    def stale(self, asked, version, count):
        if version == asked:
            raise BadReply
        self.renewed(version, count)
        self.parts = []
        return self.ended("stale", version)

    def in_parts(self, kind, fields):
        _, scheme, version, part = self.call
        if kind == STALE:
            return self.stale(version, *fields)
        if kind != HINT_PART or fields[:3] != [scheme, version, part]:
            raise BadReply
        if len(fields[3]) != part_count(scheme, self.layout, self.n, part):
            raise BadReply
        self.parts += fields[3]
        if part_count(scheme, self.layout, self.n, part + 1):
            self.call = ("parts", scheme, version, part + 1)
            return frame(HINT_ASK, scheme, version, part + 1), []
        self.scheme, self.hint, self.hint_version, self.parts = scheme, self.parts, version, []
        return self.ended("synced", SCHEMES[scheme], version)

    def in_delta(self, kind, fields):
        since = self.call[1]
        if kind == NO_DELTA:
            self.renewed(*fields)
            return self.parts_from_start(SIMPLE), []
        if kind != DELTA:
            raise BadReply
        named, now, count, n, words = fields
        rows = [words[at : at + n + 1] for at in range(0, len(words), n + 1)]
        numbers = [row[0] for row in rows]
        if named != since or n != self.n or len(rows) > MOST_DELTA_ROWS or numbers != sorted(set(numbers)):
            raise BadReply
        if numbers and numbers[-1] >= self.layout.rows:
            raise BadReply
        self.renewed(now, count)
        for row in rows:
            self.hint[row[0] * n : (row[0] + 1) * n] = row[1:]
        self.hint_version = now
        return self.ended("synced", SCHEMES[SIMPLE], now)

    def in_changes(self, kind, fields):
        if kind == NO_DELTA:
            self.renewed(*fields)
            return self.parts_from_start(SIMPLE), []
        if kind != CHANGES or fields[0] != self.call[1]:
            raise BadReply
        now, count, data = fields[1:]
        self.renewed(now, count)
        changes = entries_in(data, self.layout.record_len)
        if changes is None:
            raise BadReply
        least = 0
        for index, old, new in changes:
            if not least <= index < count or self.layout.content(old) is None or self.layout.content(new) is None:
                raise BadReply
            least = index + 1
        self.hint = moved_hint(self.layout, self.n, self.public_seed, self.hint, changes)
        self.hint_version = now
        return self.ended("synced", SCHEMES[SIMPLE], now)

    def in_ask(self, kind, fields):
        _, scheme, version, number, index = self.call
        if kind == STALE:
            return self.stale(version, *fields)
        if kind != ANSWER or fields[:2] != [scheme, version]:
            raise BadReply
        if len(fields[2]) != answer_count(scheme, self.layout, self.n):
            raise BadReply
        record = read_answer(scheme, self.layout, self.n, self.hint, self.seed, number, index, fields[2])
        if record is None:
            return self.ended("unreadable", index, version)
        return self.ended("retrieved", index, version, record.hex() or "-")

    def in_change(self, kind, fields):
        if kind != DONE:
            raise BadReply
        return self.ended("done", fields[0])
