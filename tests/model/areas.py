"""What is tried: random cases of each area, run by the built programs and compared with the model.

A case is a dictionary whose "parts" is a list that may be cut when a failing case is made smaller.
"""
import hashlib
import os
import socket
import subprocess
import tempfile

from client import CallRefused, Client
from formats import (
    APPEND, BYE, CHANGES, CHANGES_ASK, DELTA, DONE, DOUBLE, EDIT, HELLO, HINT_PART, LOAD, NO_DELTA, PUBLISH, QUERY, REFUSED, SIMPLE,
    STALE, WELCOME, Layout, Reader, answer_count, bytes_of, client_profile, entries_in, entry_of, fields_of, frame, header_of,
    hint_count, is_layout, is_slotted, is_wide, moved_hint, query_count, snapshot_bytes,
)  # fmt: skip
from script import WORLDS, rehearse
from server import Session, Store, once
from streams import KEY, U32, U64, damaged, near, pieces, random_ask, random_edit, random_frame, random_record, random_store

SECONDS = 60
READER = bytes(32)


def compared(wanted, got):
    return None if wanted == got else f"wanted {wanted!r}\ngot    {got!r}"


def file_of(store):
    return snapshot_bytes(store.layout, store.n, store.version(), store.seed, store.publisher, store.versions[-1])


class Streams:
    """Streams to the sessions of one server, connection after connection, and the file that it leaves."""

    name = "streams"
    count = 100

    def case(self, chance):
        store = random_store(chance, hashlib.sha256(KEY).digest(), last=True)
        opening = file_of(store)
        return {"opening": opening, "parts": [self.stream(chance, store) for _ in range(self.count)]}

    def stream(self, chance, store):
        session = Session(store)
        key = chance.choice((READER, KEY, KEY))
        data = frame(HELLO, chance.choice((store.layout.form, client_profile(is_wide(store.layout.form)))), key) if chance.random() < 0.85 else b""
        session.feed(data)
        for _ in range(chance.randint(0, 6)):
            more = random_frame(chance, store)
            if chance.random() < 0.06:
                more = damaged(chance, more)
            session.feed(more)
            data += more
        if chance.random() < 0.1:
            data = data[: chance.randrange(len(data) + 1)]
        return pieces(chance, data)

    def difference(self, case, programs):
        store = store_of(case["opening"])
        with tempfile.TemporaryDirectory() as room:
            path = os.path.join(room, "store")
            with open(path, "wb") as file:
                file.write(case["opening"])
            words = ["serve", "--file", path, "--port", "0", "--connections", str(len(case["parts"]))]
            serving = subprocess.Popen([programs[0], *words], stdout=subprocess.PIPE, stderr=subprocess.PIPE)
            try:
                return self.served(case, serving, store, path)
            finally:
                serving.kill()
                serving.communicate()

    def served(self, case, serving, store, path):
        before = store.version()
        port = int(serving.stdout.readline().split()[1])
        for at, parts in enumerate(case["parts"]):
            session = Session(store)
            wanted = b"".join(session.feed(piece) for piece in parts)
            try:
                got, whole = spoken(port, parts, session.closed)
            except OSError as error:
                return f"stream {at}: {error!r}, wanted {wanted.hex()}"
            if wanted != got and (whole or not wanted.startswith(got)):
                return f"stream {at}: {compared(wanted.hex(), got.hex())}"
        status, (_, said) = serving.wait(SECONDS), serving.communicate()
        with open(path, "rb") as file:
            left = file.read()
        wanted = file_of(store) if store.version() != before else case["opening"]
        return compared((0, b"", wanted), (status, said, left))


class Orders(Streams):
    """Every order of three frames of every kind, in sessions of a store of each form."""

    name = "orders"

    def all_cases(self):
        for layout in (Layout(8, 1, 1, 2), Layout(8, 3, 1, 2, 2), Layout(8, 1, 1, 2, 129), Layout(8, 3, 1, 2, 130)):
            yield from self.cases(Store(layout, 1, 1, bytes(32), hashlib.sha256(KEY).digest(), [b"\x0a", b"\xc8"]))

    def cases(self, store):
        form, asked = store.layout.form, range(query_count(DOUBLE, store.layout))
        last, other = client_profile(is_wide(form)), client_profile(not is_wide(form))
        frames = [
            frame(HELLO, form, READER), frame(HELLO, last, KEY), frame(HELLO, form - 1, READER), frame(HELLO, last, bytes([2]) * 32),
            frame(HELLO, other, KEY),
            frame(3, SIMPLE, 1, 0), frame(3, DOUBLE, 2, 0), frame(4, 1), frame(4, 9), frame(QUERY, SIMPLE, 1, rest=[1, 2]),
            frame(QUERY, DOUBLE, 2, rest=asked), frame(QUERY, SIMPLE, 1, rest=[1]), frame(EDIT, 0, rest=b"\5"), frame(EDIT, 2, rest=b"\5"),
            frame(PUBLISH), frame(BYE), frame(APPEND, rest=b"\5"), frame(LOAD, 1, 1, 8, rest=b"ab"), frame(0x87, 1),
            frame(CHANGES_ASK, 1), frame(CHANGES, 1, 1, 2), b"\0\0\0\0\x7f", b"\1\0\0\0\x8f",
        ]  # fmt: skip
        streams = [[a + b + c] for a in frames for b in frames for c in frames]
        for at in range(0, len(streams), 500):
            yield {"opening": file_of(store), "parts": streams[at : at + 500]}


def blank(layout):
    """The record that stands for the zeros after the last one."""
    return b"" if is_slotted(layout.form) else bytes(layout.record_len)


class Changes(Streams):
    """Streams of the publisher of a wide store: publications, and asks for the records that changed since a version."""

    name = "changes"
    count = 20

    def case(self, chance):
        store = random_store(chance, hashlib.sha256(KEY).digest(), forms=(129, 130))
        store.n = chance.choice((1, 4, 16, 64, 64))
        opening = file_of(store)
        return {"opening": opening, "parts": [self.stream(chance, store) for _ in range(self.count)]}

    def stream(self, chance, store):
        session, data = Session(store), frame(HELLO, client_profile(True), KEY)
        session.feed(data)
        for _ in range(chance.randint(1, 10)):
            for more in self.turn(chance, store):
                session.feed(more)
                data += more
        return pieces(chance, data)

    def turn(self, chance, store):
        if chance.random() < 0.6:
            yield frame(CHANGES_ASK, max(0, store.version() - chance.choice((-1, 0, 1, 1, 2, 3, 4, 6, 9, 15, 16, 17))))
            return
        for _ in range(chance.choice((0, 1, 1, 2, 4))):
            yield self.change(chance, store)
        yield frame(PUBLISH)

    def change(self, chance, store):
        """A record appended or edited: to any bytes, or back to those of a version, which may be the current one."""
        if chance.random() < 0.15:
            return frame(APPEND, rest=blank(store.layout) if chance.random() < 0.4 else random_record(chance, store.layout))
        index = chance.randrange(len(store.draft))
        earlier = [records[index] for records in store.versions if index < len(records)]
        return frame(EDIT, index, rest=chance.choice(earlier) if earlier and chance.random() < 0.5 else random_record(chance, store.layout))


class Limits(Streams):
    """The same publications in wide stores that keep more and more of what changed, and after each an ask since every version."""

    name = "limits"
    dimensions = (*range(1, 25), 64)

    def all_cases(self):
        for layout in (Layout(8, 1, 3, 3, 129), Layout(7, 4, 1, 3, 130)):
            for n in self.dimensions:
                store = Store(layout, n, 1, bytes(32), hashlib.sha256(KEY).digest(), [self.record(layout, i) for i in range(3)])
                opening = file_of(store)
                yield {"opening": opening, "parts": [[stream] for stream in self.streams(layout)]}

    def record(self, layout, value):
        return blank(layout) if value is None else bytes([value]) * (layout.record_len - 2 * is_slotted(layout.form))

    def streams(self, layout):
        first = [(0, 0)]
        # One record, another, both back, bytes that stay, appends, a blank one and its edit, all,
        # and one again and again.
        turns = [[(0, 9)], [(0, 8), (1, 8)], [(0, 0), (1, 1)], first, [(None, 7)], [(None, None)], [(4, 6)], [(4, None)], [(i, 5) for i in range(5)]]
        turns += [[(2, 10 + turn)] for turn in range(18)] + [first, [(0, 4), (None, 3)], [(5, 2), (0, 0)]]
        for version, turn in enumerate(turns, 2):
            stream = frame(HELLO, 130, KEY)
            for index, value in turn:
                record = self.record(layout, value)
                stream += frame(APPEND, rest=record) if index is None else frame(EDIT, index, rest=record)
            yield stream + frame(PUBLISH) + b"".join(frame(CHANGES_ASK, since) for since in range(version + 2))


def store_of(data):
    """The store of a snapshot."""
    form, width, record_len, groups, count, n, version, at = header_of(data)
    layout, first = Layout(width, record_len, groups, count, form), at + 64
    records = [layout.content(data[first + i * record_len : first + (i + 1) * record_len]) for i in range(count)]
    return Store(layout, n, version, data[at : at + 32], data[at + 32 : first], records)


def spoken(port, parts, closes):
    """What a server says to a stream, until it closes. One that closes the session itself waits a tenth of a second for what is
    still sent, and then it may be gone: the rest can't be sent, or what it said is lost in part."""
    said = b""
    with socket.create_connection(("127.0.0.1", port), SECONDS) as stream:
        stream.setsockopt(socket.IPPROTO_TCP, socket.TCP_NODELAY, 1)
        try:
            for piece in parts:
                stream.sendall(piece)
            stream.shutdown(socket.SHUT_WR)
        except OSError:
            if not closes:
                raise
        try:
            while piece := stream.recv(65_536):
                said += piece
        except ConnectionResetError:
            if not closes:
                raise
            return said, False
    return said, True


class Once:
    """One database over standard input."""

    name = "once"

    def case(self, chance):
        record_len, groups, count = chance.choice((1, 2, 3)), chance.randint(1, 3), chance.randint(1, 5)
        width = near(chance, chance.choice((6, 8, 10)), 255)
        data = chance.randbytes(near(chance, record_len * count, 40))
        parts = [frame(LOAD, near(chance, record_len, 65_535), near(chance, groups, 65_535), width, rest=data)]
        cols = -(-count // groups)
        for _ in range(chance.randint(0, 4)):
            words = [chance.getrandbits(32) for _ in range(near(chance, cols, cols + 2))]
            ask = frame(QUERY, near(chance, 0, 255), near(chance, 1, (1 << 64) - 1), rest=words)
            parts.append(ask if chance.random() < 0.9 else chance.choice((frame(BYE), frame(4, 1), frame(PUBLISH), parts[0])))
        return {"parts": [damaged(chance, part) if chance.random() < 0.04 else part for part in parts]}

    def difference(self, case, programs):
        data = b"".join(case["parts"])
        said, good = once(data)
        done = subprocess.run([programs[0]], input=data, capture_output=True, timeout=SECONDS)
        wanted = (said.hex(), b"" if good else b"fault: BadInput\n", 0 if good else 3)
        return compared(wanted, (done.stdout.hex(), done.stderr, done.returncode))


class Replies:
    """Random and damaged replies to the commands of a client."""

    name = "replies"

    def case(self, chance):
        store = random_store(chance, hashlib.sha256(KEY).digest())
        store.edited = chance.random() < 0.5
        index = chance.randrange(store.layout.count) if chance.random() < 0.9 else near(chance, store.layout.count, (1 << 32) - 1)
        command = chance.choice(("get", "get", "get", "put", "append", "publish"))
        scheme = chance.choice(("simple", "double"))
        wide = is_wide(store.layout.form) if chance.random() < 0.9 else chance.random() < 0.5
        case = {
            "command": command, "scheme": scheme, "index": index, "number": chance.choice((0, 1, (1 << 62) - 1)),
            "record": chance.choice((b"de", b"")), "wide": wide, "parts": [],
        }  # fmt: skip
        session, conversation = Session(store), Conversation(case)
        for sent in conversation:
            right = session.feed(sent)
            if not right:
                break
            case["parts"] += self.replies(chance, store, right)
        return case

    def replies(self, chance, store, right):
        """The pieces that come for a frame of the client."""
        if right[4] == WELCOME and chance.random() < 0.1:
            return [of_other_form(chance, right)]
        if chance.random() < 0.75:
            return [right]
        kind = chance.randrange(5)
        if kind == 0:
            return pieces(chance, damaged(chance, right))
        if kind == 1:
            return pieces(chance, right)
        if kind == 2:
            return [right + random_frame(chance, store)]
        if kind == 3:
            return [altered(chance, right)]
        return [self.any_reply(chance, store)]

    def any_reply(self, chance, store):
        layout, version = store.layout, near(chance, store.version(), (1 << 64) - 1)
        return chance.choice((
            frame(0x86, near(chance, version + 1, 9) if version < 9 else version, near(chance, layout.count, 9000)), frame(0x87, version),
            frame(0x88, version, layout.count), frame(0x8F, chance.randrange(256)), frame(0x84, version, version, layout.count, store.n),
            frame(CHANGES, version, version, layout.count),
            frame(0x83, SIMPLE, version, 0, rest=[0] * near(chance, hint_count(SIMPLE, layout, store.n), 99)),
            frame(0x85, SIMPLE, version, rest=[0] * near(chance, answer_count(SIMPLE, layout, store.n), 99)), random_ask(chance, store),
        ))  # fmt: skip

    def difference(self, case, programs):
        words = {
            "get": ["--seed", "11" * 32, "--number", str(case["number"]), "--scheme", case["scheme"], "--least-dimension", "1", str(case["index"])],
            "put": ["--key", "01" * 32, str(case["index"]), case["record"].hex() or "-"],
            "append": ["--key", "01" * 32, case["record"].hex() or "-"],
            "publish": ["--key", "01" * 32],
        }[case["command"]] + ["--wide"] * case["wide"]
        conversation = Conversation(case)
        steps = list(conversation)
        with socket.create_server(("127.0.0.1", 0)) as listener:
            listener.settimeout(SECONDS)
            port = str(listener.getsockname()[1])
            asking = subprocess.Popen(
                [programs[1], case["command"], "--port", port, *words], stdout=subprocess.PIPE, stderr=subprocess.PIPE
            )
            try:
                stream, _ = listener.accept()
                with stream:
                    fault = talked(stream, steps, case["parts"], conversation.left)
                said, told = asking.communicate(timeout=SECONDS)
            finally:
                asking.kill()
        return fault or compared(conversation.end, (said.decode(), told.decode(), asking.returncode))


def of_other_form(chance, welcome):
    """A Welcome that names another form: the records of a store of one length are mostly no slots."""
    form = chance.choice([form for form in (1, 2, 129, 130, 128, 131) if form != welcome[5]])
    return welcome[:5] + bytes([form]) + welcome[6:]


def altered(chance, right):
    """A reply with another number in one of its fields."""
    if len(right) < 6:
        return right + b"\0"
    at = chance.randrange(5, min(len(right), 60))
    data = bytearray(right)
    data[at] = (data[at] + chance.choice((1, 255))) % 256
    return bytes(data)


def talked(stream, steps, parts, left):
    """Gives the pieces of the replies, each after the bytes that the client owes first; then ends the stream."""
    stream.settimeout(SECONDS)
    stream.setsockopt(socket.IPPROTO_TCP, socket.TCP_NODELAY, 1)
    for owed, piece in zip(steps, [*parts, b""]):
        got = b""
        while len(got) < len(owed) and (more := stream.recv(len(owed) - len(got))):
            got += more
        if got != owed:
            return f"sent: {compared(owed.hex(), got.hex())}"
        stream.sendall(piece)
    stream.shutdown(socket.SHUT_WR)
    rest = b""
    try:
        while more := stream.recv(65_536):
            rest += more
    except ConnectionResetError:
        pass
    return None if rest == left else f"sent at the end: {compared(left.hex(), rest.hex())}"


class Failure(Exception):
    """How a command failed: its line, and its status."""


class Conversation:
    """A command of the client against the pieces of a case: iterates over what it sends before each piece; then `end` is
    what it prints on both outputs, and its status. The pieces may be added to the case while it is iterated over."""

    def __init__(self, case):
        self.case, self.taken, self.end, self.left = case, 0, None, b""

    def __iter__(self):
        case = self.case
        seed, number = (bytes([0x11]) * 32, case["number"]) if case["command"] == "get" else (bytes(32), 0)
        client = Client(seed, number, case["wide"])
        try:
            key = READER if case["command"] == "get" else KEY
            yield from self.exchange(client, client.hello, key)
            if case["command"] == "get":
                yield from self.exchange(client, client.sync, ("simple", "double").index(case["scheme"]))
                yield from self.exchange(client, client.ask, case["index"])
                line = self.event
            elif case["command"] == "put":
                yield from self.exchange(client, client.edit, case["index"], case["record"])
                line = self.event
            elif case["command"] == "append":
                yield from self.exchange(client, client.append, case["record"])
                line = self.event
            else:
                yield from self.exchange(client, client.publish)
                line = self.event.replace("done", "published")
            self.end = (line + "\n", "", 0)
        except Failure as failure:
            line, status = failure.args
            self.end = ("", line + "\n", status)

    def exchange(self, client, call, *words):
        try:
            owed = self.left + call(*words)
        except CallRefused as refusal:
            raise Failure(f"fault: {refusal}", 3) from None
        while True:
            self.left = b""
            yield owed
            if self.taken == len(self.case["parts"]):
                raise Failure("fault: Ended", 3)
            owed, events, fault = client.feed(self.case["parts"][self.taken])
            self.taken += 1
            self.left = owed
            if events:
                break
            if fault:
                raise Failure(f"fault: {fault}", 3)
        self.event = events[0]
        if self.event.startswith("server refused"):
            raise Failure(self.event.removeprefix("server "), 1)
        if self.event.startswith(("stale", "unreadable")):
            raise Failure(self.event, 1)


def answered(stream, session, reply, goes_on):
    """Serves a stream by a session, but an ask for changed records by a given reply, after which it may be over. Answers the frames that came."""
    reader, frames, is_over = Reader(True), [], False
    stream.settimeout(SECONDS)
    stream.setsockopt(socket.IPPROTO_TCP, socket.TCP_NODELAY, 1)
    try:
        while piece := stream.recv(65_536):
            for kind, fields in reader.feed(piece):
                frames.append((kind, fields))
                if is_over:
                    continue
                stream.sendall(reply if kind == CHANGES_ASK else session.reply(kind, fields))
                if kind == CHANGES_ASK and not goes_on:
                    is_over = True
                    stream.shutdown(socket.SHUT_WR)
    except OSError:
        pass
    return frames


class Moves:
    """The hint that a folder keeps of a wide store, and right and wrong replies to the client's ask for the records that changed since: what
    the next retrieval prints, and which hint is kept then."""

    name = "moves"

    def case(self, chance):
        store = random_store(chance, hashlib.sha256(KEY).digest(), forms=(129, 130))
        opening, count, turns = file_of(store), store.layout.count, []
        for _ in range(chance.randint(1, 3)):
            turns.append([(chance.randrange(count + 1), random_record(chance, store.layout)) for _ in range(chance.choice((1, 1, 2, 4)))])
            published(store, turns[-1])
        index = chance.randrange(count)
        right = reply_of(store)
        kind, fields = right[4], fields_of(right[4], right[5:])
        wrong = self.wrong(chance, store, fields) if kind == CHANGES and chance.random() < 0.75 else None
        reply = wrong or (right if chance.random() < 0.6 else self.other(chance, store, right))
        return {"opening": opening, "turns": turns, "index": index, "parts": [reply]}

    def wrong(self, chance, store, fields):
        """Changes with something wrong, or other ones."""
        since, now, count, data = fields
        size = 4 + 2 * store.layout.record_len
        entries = [data[at : at + size] for at in range(0, len(data), size)]
        kind = chance.randrange(8)
        if kind == 0:
            since = near(chance, since + 1, U64)
        elif kind == 1:
            now = chance.choice((0, since - 1, since, now + 1, U64))
        elif kind == 2:
            count = chance.choice((0, 1, count - 1, count + 1, 32_768 * store.layout.groups, 32_768 * store.layout.groups + 1, U32))
        elif kind == 3:
            entries.append(chance.randbytes(chance.randrange(1, size)))
        elif kind == 4 and entries:
            entries[-1] = entries[-1][: chance.randrange(size)]
        elif kind == 5:
            entries += [chance.choice(entries)] if entries and chance.random() < 0.5 else []
            chance.shuffle(entries)
        elif kind == 6 and entries:
            at = chance.randrange(len(entries))
            index = chance.choice((0, count - 1, count, count + 1, U32))
            entries[at] = index.to_bytes(4, "little") + entries[at][4:]
        else:
            entries = self.other_entries(chance, store)
        return frame(CHANGES, since, now, count, rest=b"".join(entries))

    def other_entries(self, chance, store):
        """Whole entries of any records, of which some may have bytes that are none of a record."""
        layout = store.layout
        draw = lambda: chance.randbytes(layout.record_len) if chance.random() < 0.1 else layout.stored(random_record(chance, layout))  # noqa: E731
        return [entry_of(index, draw(), draw()) for index in range(layout.count) if chance.random() < 0.5]

    def other(self, chance, store, right):
        """A reply of another kind, or one that is damaged."""
        version, count = store.version(), store.layout.count
        return chance.choice((
            frame(NO_DELTA, version, count), frame(NO_DELTA, 0, count), frame(NO_DELTA, version, 0), frame(NO_DELTA, version + 1, count),
            frame(STALE, version, count), frame(DONE, version), frame(REFUSED, chance.choice((2, 12, 1))),
            frame(DELTA, store.first, version, count, store.n), frame(HINT_PART, SIMPLE, version, 0, rest=store.hints(version).words(SIMPLE)),
            damaged(chance, right), right[:-1], right[: chance.randrange(len(right))],
        ))  # fmt: skip

    def difference(self, case, programs):
        store, reply = store_of(case["opening"]), b"".join(case["parts"])
        index, first = case["index"], store.version()
        with tempfile.TemporaryDirectory() as room, socket.create_server(("127.0.0.1", 0)) as listener:
            listener.settimeout(SECONDS)
            got = self.gotten(programs[1], listener, room, index, Session(store), b"", True)[0]
            if fault := compared((0, self.line(store, index), ""), got):
                return fault
            before = self.kept(room, store)
            for turn in case["turns"]:
                published(store, turn)
            goes_on, wanted, hint = self.comes_of(store, reply, index)
            got, frames = self.gotten(programs[1], listener, room, index, Session(store), reply, goes_on)
            asked = [(HELLO, [2, READER]), (HELLO, [130, READER]), (CHANGES_ASK, [first])]
            return compared((wanted, hint or before, asked), (got, self.kept(room, store), frames[:3]))

    def line(self, store, index):
        return f"retrieved {index} {store.version()} {store.versions[-1][index].hex() or '-'}\n"

    def gotten(self, program, listener, room, index, session, reply, goes_on):
        """What a retrieval with the folder ends with and prints, and the frames that it sends."""
        words = ["get", "--state", f"{room}/state", "--port", str(listener.getsockname()[1]), "--scheme", "simple", "--least-dimension", "1", str(index)]
        asking = subprocess.Popen([program, *words], stdout=subprocess.PIPE, stderr=subprocess.PIPE, text=True)
        try:
            stream, _ = listener.accept()
            with stream:
                frames = answered(stream, session, reply, goes_on)
            said, told = asking.communicate(timeout=SECONDS)
        finally:
            asking.kill()
        return (asking.returncode, said, told), frames

    def kept(self, room, store):
        """The hint that is kept: the count and the version reported last, its version, and its words, all as the changes beside it have moved it."""
        name = next(it for it in os.listdir(f"{room}/state") if it.endswith(".hint"))
        with open(f"{room}/state/{name}", "rb") as file:
            data = file.read()
        words, version, reported = data[-4 * store.layout.rows * store.n :], data[62:70], data[49:61]
        if not os.path.exists(f"{room}/state/{name}.changes"):
            return reported, version, words
        with open(f"{room}/state/{name}.changes", "rb") as file:
            moves = file.read()
        ended = len(data) - len(words)
        if moves[:40] != b"PIRMOVE1" + data[ended - 32 : ended]:
            return reported, version, words
        return moved_by_file(store, reported, version, words, moves)

    def comes_of(self, store, reply, index):
        """Whether the server has more to say after a reply; what the command ends with and prints; and the hint kept then, or None if it
        is the one before. Changes to another version than that of the Welcome are not taken, but asked for once more."""
        version, count = store.version(), store.layout.count
        reader = Reader(True)
        found = list(reader.feed(reply))
        bad, ended = (False, (3, "", "fault: BadReply\n"), None), (False, (3, "", "fault: Ended\n"), None)
        if not found:
            return ended
        kind, fields = found[0]
        if len(found) > 1 or not reader.is_between_frames():
            return bad
        if kind == REFUSED:
            return False, (1, "", f"refused {fields[0]}\n"), None
        line = (0, self.line(store, index), "")
        if kind == NO_DELTA:
            return True, line, self.as_kept(store.hints(version).words(SIMPLE), version, count)
        if kind != CHANGES or not self.is_move(store, *fields):
            return bad
        if fields[1:3] != [version, count]:
            return ended
        first = store.hints(store.first).words(SIMPLE)
        words = moved_hint(store.layout, store.n, store.seed, first, entries_in(fields[3], store.layout.record_len))
        is_right = reply == reply_of(store)
        return is_right, line if is_right else ended[1], self.as_kept(words, version, count)

    def is_move(self, store, since, now, count, data):
        """Whether changes are since the version asked, to one that can be, and of its records, each once and ascending."""
        layout = store.layout
        changes = entries_in(data, layout.record_len)
        if since != store.first or now == 0 or changes is None or not is_layout(layout.width, layout.record_len, layout.groups, count, layout.form):
            return False
        if any(layout.content(data) is None for _, old, new in changes for data in (old, new)):
            return False
        numbers = [index for index, _, _ in changes]
        return numbers == sorted(set(numbers)) and all(number < count for number in numbers)

    def as_kept(self, words, version, count):
        number = version.to_bytes(8, "little")
        return count.to_bytes(4, "little") + number, number, bytes_of(words)


def moved_by_file(store, reported, version, words, moves):
    """What a hint's file has, after the whole blocks of the file of changes beside it."""
    link = hashlib.sha256(moves[:40]).digest()
    numbers = [int.from_bytes(words[at : at + 4], "little") for at in range(0, len(words), 4)]
    assert moves[40:72] == link
    at = 72
    while at < len(moves):
        body = moves[at : at + 24 + int.from_bytes(moves[at + 20 : at + 24], "little")]
        link = hashlib.sha256(link + body).digest()
        at += len(body) + 32
        if moves[at - 32 : at] != link or body[:8] != version:
            break
        version, reported = body[8:16], body[16:20] + body[8:16]
        numbers = moved_hint(store.layout, store.n, store.seed, numbers, entries_in(body[24:], store.layout.record_len))
    return reported, version, bytes_of(numbers)


def published(store, turn):
    """Publishes edits, and appends in the place after the last record."""
    for index, record in turn:
        store.edit(index, record) if index < len(store.draft) else store.append(record)
    store.publish()


def reply_of(store):
    """The right reply to who holds the first version's hint."""
    session = Session(store)
    session.standing = "reader"
    return session.changes_ask(store.first)


class Scripts:
    """Random scripts of a world, and damaged ones."""

    name = "scripts"

    def case(self, chance):
        store = random_store(chance, READER)
        layout = store.layout
        sizes = [near(chance, value, 300) if chance.random() < 0.1 else value for value in (layout.width, layout.record_len, layout.groups, store.n)]
        world = next(name for name, form in WORLDS.items() if form == layout.form)
        lines = [" ".join(map(str, [world, *sizes])), f"seed {store.seed.hex()}"]
        lines += [f"record {record.hex() or '-'}" for record in store.draft]
        clients = chance.randint(1, 3)
        lines += [f"client {chance.randbytes(1).hex() * 32}" for _ in range(clients)]
        for _ in range(chance.randint(0, 60)):
            lines += self.steps(chance, layout, clients)
        if chance.random() < 0.1:
            at = chance.randrange(len(lines))
            lines[at] = damaged(chance, lines[at].encode()).decode("latin-1")
        if chance.random() < 0.02:
            del lines[chance.randrange(len(lines))]
        return {"parts": [line.encode("latin-1") + b"\n" for line in lines]}

    def steps(self, chance, layout, clients):
        who = near(chance, chance.randrange(clients), 1 << 63) if chance.random() < 0.05 else chance.randrange(clients)
        index = chance.randrange(layout.count + 2) if chance.random() < 0.95 else near(chance, layout.count, (1 << 32) - 1)
        whole = [f"to-server {who} all", f"to-client {who} all"]
        kind = chance.randrange(13)
        if kind < 2:
            return [f"edit {index} {random_edit(chance, layout).hex() or '-'}"]
        if kind == 12:
            return [f"append {random_edit(chance, layout).hex() or '-'}"]
        if kind == 2:
            return ["publish"]
        if kind < 7:
            call = chance.choice((f"hello {who}", f"sync {who} simple", f"sync {who} double", f"ask {who} {index}", f"ask {who} {index}"))
            return [call, *whole] if chance.random() < 0.8 else [call]
        if kind < 9:
            return [f"hello {who}", *whole, f"sync {who} {chance.choice(('simple', 'double'))}", *whole, *whole]
        most = chance.choice(("all", str(chance.randrange(60))))
        return [f"{chance.choice(('to-server', 'to-client'))} {who} {most}"]

    def difference(self, case, programs):
        script = b"".join(case["parts"])
        done = subprocess.run([programs[1]], input=script, capture_output=True, timeout=SECONDS)
        return compared((*rehearse(script), b""), (done.stdout.decode(), done.returncode, done.stderr))
