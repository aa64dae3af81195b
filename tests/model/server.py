"""A store as the list of its versions, a session of it, and one database over one stream, by docs/FORMATS.md."""
import hashlib

from formats import (
    ANSWER, APPEND, BYE, CHANGES, CHANGES_ASK, DELTA, DELTA_ASK, DONE, DOUBLE, EDIT, HELLO, HINT_ASK, HINT_PART, LOAD, MOST_DELTA_ROWS,
    MOST_ENTRIES, NO_DELTA, PART_WORDS, PUBLISH, QUERY, REFUSED, SIMPLE, STALE, WELCOME, Hints, Layout, Reader, accepts, delta_rows,
    differences, entry_of, frame, is_layout, is_wide, part_count, query_count,
)  # fmt: skip

LAST_VERSION = (1 << 64) - 1
MOST_LISTS = 16


class Store:
    """The records of a store in all its versions, and the draft. The layout is the current version's."""

    def __init__(self, layout, n, first, seed, publisher, records):
        self.layout, self.n, self.first, self.seed, self.publisher = layout, n, first, seed, publisher
        self.versions, self.draft, self.edited = [list(records)], list(records), False
        self.made = {}

    def version(self):
        return self.first + len(self.versions) - 1

    def hints(self, version):
        if version not in self.made:
            records = self.versions[version - self.first]
            self.made[version] = Hints(self.layout.with_count(len(records)), self.n, self.seed, records)
        return self.made[version]

    def edit(self, index, data):
        """The name of the refusal, or None."""
        if index >= len(self.draft):
            return "BadIndex"
        if not self.layout.fits(data):
            return "BadLength"
        self.draft[index], self.edited = data, True
        return None

    def append(self, data):
        """The name of the refusal, or None."""
        layout = self.layout
        if not layout.fits(data):
            return "BadLength"
        if not is_layout(layout.width, layout.record_len, layout.groups, len(self.draft) + 1, layout.form):
            return "Full"
        self.draft.append(data)
        self.edited = True
        return None

    def publish(self):
        if not self.edited:
            return "NothingToPublish"
        if self.version() == LAST_VERSION:
            return "VersionsUsedUp"
        self.versions.append(list(self.draft))
        self.layout = self.layout.with_count(len(self.draft))
        self.edited = False
        return None

    def rows_since(self, since):
        """The rows that changed since a version; None where it is out of the log's reach."""
        now = self.version()
        if not max(self.first, now - MOST_LISTS) <= since <= now:
            return None
        rows = set()
        for version in range(since, now):
            rows.update(delta_rows(self.hints(version), self.hints(version + 1)))
        return sorted(rows)


    def stored(self, version):
        return [self.layout.stored(record) for record in self.versions[version - self.first]]

    def most_old_bytes(self):
        """How many bytes a wide store keeps of records that changed: an eighth of those of its SimplePIR hint."""
        return self.layout.rows * self.n // 2

    def reach(self):
        """The earliest version of which all old bytes since are kept."""
        since, left = self.version(), self.most_old_bytes()
        while since > max(self.first, self.version() - MOST_LISTS):
            left -= self.layout.record_len * sum(1 for _ in differences(self.stored(since - 1), self.stored(since)))
            if left < 0:
                break
            since -= 1
        return since

    def changes_since(self, since):
        """The entries of the records that changed since a version; None where they are not given."""
        if not self.reach() <= since <= self.version():
            return None
        entries = b"".join(entry_of(*it) for it in differences(self.stored(since), self.stored(self.version())))
        return entries if len(entries) <= min(MOST_ENTRIES, self.most_old_bytes()) else None


class Session:
    """What a server says to one stream."""

    def __init__(self, store):
        self.store, self.standing, self.closed = store, None, False
        self.reader = Reader(is_wide(store.layout.form))

    def feed(self, piece):
        said = b""
        for kind, fields in self.reader.feed(piece):
            if self.closed:
                break
            said += self.reply(kind, fields)
        return said

    def refused(self, code):
        return frame(REFUSED, code)

    def stale(self, kind=STALE):
        return frame(kind, self.store.version(), self.store.layout.count)

    def reply(self, kind, fields):
        serve = {
            HELLO: self.hello, HINT_ASK: self.hint_ask, DELTA_ASK: self.delta_ask, QUERY: self.query, EDIT: self.edit, APPEND: self.append,
            CHANGES_ASK: self.changes_ask,
        }  # fmt: skip
        if kind == BYE:
            self.closed = True
            return b""
        if kind == PUBLISH:
            return self.publish()
        if kind in serve:
            return serve[kind](*fields)
        self.closed = True
        return self.refused(1)

    def hello(self, profile, key):
        layout = self.store.layout
        if not accepts(layout.form, profile):
            return self.refused(3)
        if key == bytes(32):
            self.standing = "reader"
        elif hashlib.sha256(key).digest() == self.store.publisher:
            self.standing = "publisher"
        else:
            return self.refused(4)
        sizes = (layout.width, layout.record_len, layout.groups, layout.count)
        return frame(WELCOME, layout.form, *sizes, self.store.version(), self.store.n, self.store.seed)

    def not_current(self, scheme, version):
        """The refusals that a HintAsk and a Query have in common."""
        if not self.standing:
            return self.refused(2)
        if scheme not in (SIMPLE, DOUBLE):
            return self.refused(13)
        return self.stale() if version != self.store.version() else None

    def hint_ask(self, scheme, version, part):
        if said := self.not_current(scheme, version):
            return said
        if part_count(scheme, self.store.layout, self.store.n, part) == 0:
            return self.refused(10)
        words = self.store.hints(version).words(scheme)[part * PART_WORDS : (part + 1) * PART_WORDS]
        return frame(HINT_PART, scheme, version, part, rest=words)

    def delta_ask(self, since):
        if not self.standing:
            return self.refused(2)
        rows = self.store.rows_since(since)
        if rows is None or len(rows) > MOST_DELTA_ROWS:
            return self.stale(NO_DELTA)
        version = self.store.version()
        hint = self.store.hints(version).simple
        words = [word for row in rows for word in (row, *hint[row])]
        return frame(DELTA, since, version, self.store.layout.count, self.store.n, rest=words)

    def changes_ask(self, since):
        if not self.standing:
            return self.refused(2)
        entries = self.store.changes_since(since)
        if entries is None:
            return self.stale(NO_DELTA)
        return frame(CHANGES, since, self.store.version(), self.store.layout.count, rest=entries)

    def query(self, scheme, version, words):
        if said := self.not_current(scheme, version):
            return said
        if len(words) != query_count(scheme, self.store.layout):
            return self.refused(11)
        return frame(ANSWER, scheme, version, rest=self.store.hints(version).answer(scheme, words))

    def not_publisher(self):
        if not self.standing:
            return self.refused(2)
        return self.refused(5) if self.standing != "publisher" else None

    def edit(self, index, data):
        if said := self.not_publisher():
            return said
        refusal = self.store.edit(index, data)
        return self.refused({"BadIndex": 6, "BadLength": 7}[refusal]) if refusal else frame(DONE, self.store.version())

    def append(self, data):
        if said := self.not_publisher():
            return said
        refusal = self.store.append(data)
        return self.refused({"BadLength": 7, "Full": 14}[refusal]) if refusal else frame(DONE, self.store.version())

    def publish(self):
        if said := self.not_publisher():
            return said
        refusal = self.store.publish()
        if refusal:
            return self.refused({"NothingToPublish": 8, "VersionsUsedUp": 9}[refusal])
        return frame(DONE, self.store.version())


def once(stream):
    """What one database over one stream says to all of it, and whether it was good input."""
    reader, said, hints = Reader(), b"", None
    for kind, fields in reader.feed(stream):
        if hints is None:
            hints = loaded(fields) if kind == LOAD else None
            if hints is None:
                return said + frame(REFUSED, 1), False
        elif kind == QUERY:
            said += one_answer(hints, *fields)
        elif kind == BYE:
            return said, True
        else:
            return said + frame(REFUSED, 1), False
    return (said, True) if reader.is_between_frames() else (said + frame(REFUSED, 1), False)


def loaded(fields):
    record_len, groups, width, data = fields
    if record_len == 0 or len(data) % record_len or not is_layout(width, record_len, groups, len(data) // record_len):
        return None
    records = [data[at : at + record_len] for at in range(0, len(data), record_len)]
    return Hints(Layout(width, record_len, groups, len(records)), 1, bytes(32), records)


def one_answer(hints, scheme, version, words):
    if scheme != SIMPLE:
        return frame(REFUSED, 13)
    if version != 1:
        return frame(STALE, 1, hints.layout.count)
    if len(words) != hints.layout.cols:
        return frame(REFUSED, 11)
    return frame(ANSWER, SIMPLE, 1, rest=hints.answer(SIMPLE, words))
