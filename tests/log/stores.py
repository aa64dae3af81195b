"""Small stores with logs for tests: made and read by tests/model, served and judged by the programs, their calls noted, their clients
listened to."""
import concurrent.futures
import hashlib
import itertools
import os
import shutil
import socket
import struct
import subprocess
import sys
import tempfile
import threading
import types

ROOT = os.path.dirname(os.path.dirname(os.path.dirname(os.path.abspath(__file__))))
sys.path[:0] = [f"{ROOT}/tests/service", f"{ROOT}/tests/model"]
import formats
import logs
import server
import wire
from wire import Connection, Server

SEED, N = b"\x11" * 32, 1
KEY, OTHER_KEY = wire.KEY.hex(), wire.OTHER_KEY.hex()
RECORDS = [bytes([i, i, i]) for i in range(8)]
REACH = 16
NO_SPACE = "28"
WRITE_FAULT = (3, "fault: Write\n")
LANES = 4
counts = {"passed": 0, "failed": 0}
counting = threading.Lock()
numbers = itertools.count()
# The two programs, the folder in which all is done, and the two libraries that are loaded before
# the C library.
programs = types.SimpleNamespace(server=None, client=None, room=None, library=None, refuser=None)


def same(name, wanted, got):
    with counting:
        counts["passed" if wanted == got else "failed"] += 1
    if wanted != got:
        print(f"FAIL {name}: got {got!r}, wanted {wanted!r}", flush=True)


def side_by_side(act, items):
    """Does the same with each item, some at once."""
    with concurrent.futures.ThreadPoolExecutor(LANES) as lanes:
        for done in [lanes.submit(act, *item) for item in items]:
            done.result()


def run(program, *words, data=b"", more=None):
    """A command's status, and what it prints on standard output and on standard error; no status if it had to be ended."""
    try:
        done = subprocess.run([program, *words], input=data, capture_output=True, timeout=60, env={**os.environ, **(more or {})})
    except subprocess.TimeoutExpired:
        return None, "", "no end within a minute"
    return done.returncode, done.stdout.decode().strip(), done.stderr.decode().strip()


def bytes_in(name):
    with open(name, "rb") as file:
        return file.read()


def put_bytes(name, data):
    with open(name, "wb") as file:
        file.write(data)


def folder():
    """A new folder, and the name of a file in it."""
    return os.path.join(tempfile.mkdtemp(dir=programs.room), "store.pir")


def snapshot_of(records, form, size, version=1, n=N):
    layout = formats.Layout(8, size, 2, len(records), form)
    return formats.snapshot_bytes(layout, n, version, SEED, hashlib.sha256(wire.KEY).digest(), records)


def store(form=1, records=RECORDS, size=None, n=N):
    """A new file of a small store."""
    name = folder()
    put_bytes(name, snapshot_of(records, form, size or len(records[0]), n=n))
    return name


def log_of(name):
    return logs.log_name(name, bytes_in(name))


def with_log(publications, name=None):
    """A file, and the log of some publications that the model makes."""
    name = name or store()
    put_bytes(log_of(name), logs.log_bytes(bytes_in(name), publications))
    return name


def edits(count):
    """Publications of a record or two each, the last with one more."""
    return [{i % 8: bytes([100 + i] * 3), **({8: b"new"} if i == count - 1 else {})} for i in range(count)]


def versions(name, publications):
    """The records of each version, by its number."""
    records = logs.records_in(bytes_in(name))
    first = formats.header_of(bytes_in(name))[6]
    return dict(enumerate(itertools.accumulate(publications, logs.after, initial=records), first))


def modelled(name):
    """The last version and its records, as the model reads file and log."""
    snapshot = bytes_in(name)
    found = logs.read_log(snapshot, bytes_in(log_of(name)))[1] if os.path.exists(log_of(name)) else []
    last = versions(name, found)
    return max(last), last[max(last)]


def whole(name):
    """The last version and its records, as a copy that the program makes has them, and as the model reads them; else what is said."""
    copy = folder()
    status, out, errors = run(programs.server, "backup", "--file", name, "--out", copy)
    if status != 0:
        return errors
    snapshot = bytes_in(copy)
    fault = formats.snapshot_fault(snapshot)
    version, records = formats.header_of(snapshot)[6], logs.records_in(snapshot)
    if fault or out != f"backed up {len(records)} {version}" or shown(name) != version:
        return f"{fault}, {out}, shown {shown(name)}"
    by_model = modelled(name)
    return (version, records) if by_model == (version, records) else f"{(version, records)} is {by_model} to the model"


def shown(name):
    status, out, errors = run(programs.server, "show", "--file", name)
    return int(out.split()[1]) if status == 0 else errors


def log_line(name):
    """The last line of `show`, if it is about a log."""
    out = run(programs.server, "show", "--file", name)[1].splitlines()
    return out[-1] if out and out[-1].startswith("log ") else None


def beside(name):
    """What stands beside a file, but its lock and its own log."""
    own = {os.path.basename(it) for it in (name, f"{name}.lock", log_of(name))}
    return sorted(it for it in os.listdir(os.path.dirname(name)) if it not in own)


def running(name, *words, **more):
    return Server(programs.server, "run", "--file", name, "--listen", "127.0.0.1:0", *words, **more)


def serving(name, connections=1, **more):
    return Server(programs.server, "serve", "--file", name, "--port", "0", "--connections", str(connections), **more)


def version_of(connection):
    return struct.unpack("<Q", connection.welcome[1][11:19])[0]


def count_of(connection):
    return struct.unpack("<I", connection.welcome[1][7:11])[0]


def frames_of(changes, count):
    """The edits and appends that make a publication, of records that stand for themselves."""
    return b"".join(wire.edit(i, data) if i < count else wire.append(data) for i, data in sorted(changes.items()))


def published(port, changes, key=wire.KEY):
    """Publishes changes: the version, or None, or the code of a refusal of the publication."""
    try:
        with Connection(port, key) as it:
            if it.welcome is None or it.welcome[0] != wire.WELCOME:
                return None
            it.send(frames_of(changes, count_of(it)) + wire.PUBLISH)
            said = [it.reply() for _ in range(len(changes) + 1)][-1]
            return said and (struct.unpack("<Q", said[1])[0] if said[0] == wire.DONE else f"refused {said[1][0]}")
    except OSError:
        return None


# ---- hints


def rows_of(records):
    """The rows of the SimplePIR hint of some records of one length, from scratch."""
    layout = formats.Layout(8, len(records[0]), 2, len(records))
    return formats.Hints(layout, N, SEED, records).simple


def fetched(connection, version):
    """The rows of the hint that a new client is given."""
    kind, payload = connection.ask(wire.hint_ask(0, version, 0))
    return [[word] for word in formats.words_in(payload[13:])] if kind == wire.HINT_PART else kind


def moved(connection, rows, since):
    """The rows of a hint of some version after a Delta, or what came in its place."""
    kind, payload = connection.ask(wire.delta_ask(since))
    if kind != wire.DELTA:
        return kind
    rows = [list(row) for row in rows]
    for row, word in struct.iter_unpack("<II", payload[22:]):
        rows[row] = [word]
    return rows


def deltas(name, port, known, back=REACH):
    """A Delta from each version up to so many back gives the hint that is fetched, and from the one before no Delta comes."""
    last = max(known)
    with Connection(port, wire.READER) as it:
        same(f"{name}: version", last, version_of(it))
        now = fetched(it, last)
        same(f"{name}: the hint", rows_of(known[last]), now)
        for since in range(max(min(known), last - back), last + 1):
            same(f"{name}: a Delta since {since}", now, moved(it, rows_of(known[since]), since))
        if last - back - 1 in known:
            same(f"{name}: no Delta since {last - back - 1}", wire.NO_DELTA, it.ask(wire.delta_ask(last - back - 1))[0])


def changes_known(name, publications):
    """What the model has as the entries of the records that changed since each version of a wide store, None if they aren't given, by its number."""
    form, width, size, groups, count, n, first, _ = formats.header_of(bytes_in(name))
    records = logs.records_in(bytes_in(name))
    known = server.Store(formats.Layout(width, size, groups, count, form), n, first, SEED, bytes(32), records)
    for changes in publications:
        for place, data in sorted(changes.items()):
            known.edit(place, data) if place < len(known.draft) else known.append(data)
        known.publish()
    return {since: known.changes_since(since) for since in range(known.version() + 2)}


def changes_given(port, profile):
    """What a server gives as them."""
    with Connection(port) as it:
        kind, welcome = it.ask(wire.hello(wire.READER, profile))
        last = struct.unpack("<Q", welcome[11:19])[0]
        replies = {since: it.ask(wire.changes_ask(since)) for since in range(last + 2)}
    return {since: payload[20:] if kind == wire.CHANGES else None for since, (kind, payload) in replies.items()}


def got(port, index, state=None):
    """A retrieval by a new hint, or by a folder's."""
    own = ["--state", state] if state else ["--seed", SEED.hex(), "--number", str(next(numbers))]
    return run(programs.client, "get", "--port", str(port), "--scheme", "simple", "--least-dimension", "1", *own, str(index))


def version_at(port):
    if not port:
        return None
    # A connection to which memory is refused ends without a Welcome; the next one has it, unless
    # the server has ended.
    for _ in range(3):
        try:
            with Connection(port, wire.READER) as reader:
                if reader.welcome and reader.welcome[0] == wire.WELCOME:
                    return version_of(reader)
        except OSError:
            return None
    return None


def of_header(snapshot):
    seed_at = formats.header_of(snapshot)[-1]
    return formats.header_of(snapshot)[0], snapshot[seed_at + 32 : seed_at + 64]


def linked(snapshot, bodies):
    """A log of some bodies."""
    data = logs.log_header(snapshot)
    link = logs.digest(data)
    for body in bodies:
        data += logs.entry_of(link, body)
        link = data[-logs.LINK :]
    return data


def torn_log(publications, change):
    """A file with a log of some publications, and half of the entry of one more."""
    name = with_log(publications)
    cut = len(bytes_in(log_of(name)))
    long = logs.log_bytes(bytes_in(name), [*publications, change])
    put_bytes(log_of(name), long[: (cut + len(long)) // 2])
    return name


def of_a_file(name, copy):
    """Each command that reads a file with its log."""
    return [
        ["run", "--file", name, "--listen", "127.0.0.1:0"], ["serve", "--file", name, "--port", "0", "--connections", "1"],
        ["show", "--file", name], ["compact", "--file", name], ["rekey", "--file", name, "--key", KEY],
        ["migrate", "--file", name, "--out", copy], ["widen", "--file", name, "--out", copy, "--seed", KEY], ["backup", "--file", name, "--out", copy],
    ]  # fmt: skip


# ---- processes


class Traced:
    """A command whose calls below a folder are noted, and of which some fail or one kills."""

    def __init__(self, name, at=None, error=None):
        self.folder, self.file = os.path.dirname(name), tempfile.TemporaryFile(dir=programs.room)
        more = {"LD_PRELOAD": programs.library, "TRACE_UNDER": self.folder, "TRACE_TO": str(self.file.fileno())}
        more.update({key: str(value) for key, value in (("TRACE_AT", at), ("TRACE_ERROR", error)) if value is not None})
        self.more = {"more": more, "passed": (self.file.fileno(),)}

    def lines(self):
        # The process writes where the place that both share is: reading must not move it.
        file = self.file.fileno()
        return os.pread(file, os.fstat(file).st_size, 0).decode().replace(f"{self.folder}/", "").splitlines()

    def calls(self):
        """The calls on files."""
        return [line for line in self.lines() if line not in ("wait", "accept", "listen", "send")]

    def since_listening(self):
        """The calls on the log and what was sent, by their first words, once it listens."""
        lines = self.lines()
        return [line.split()[0] for line in lines[lines.index("listen") :] if line == "send" or ".log-" in line] if "listen" in lines else []

    def command(self, *words, data=b""):
        done = subprocess.run([programs.server, *words], input=data, capture_output=True, timeout=60, env={**os.environ, **self.more["more"]}, pass_fds=self.more["passed"])
        return done.returncode, done.stderr.decode().strip()


class Proxy:
    """Hands on what one client and a server say, and keeps the kinds of all frames."""

    def __init__(self, port):
        self.port, self.kinds = port, []
        self.listener = socket.create_server(("127.0.0.1", 0))
        self.listener.settimeout(20)
        self.own = self.listener.getsockname()[1]
        self.thread = threading.Thread(target=self.hand_on)
        self.thread.start()

    def hand_on(self):
        client, _ = self.listener.accept()
        server = socket.create_connection(("127.0.0.1", self.port))
        back = threading.Thread(target=self.copy, args=(server, client))
        back.start()
        self.copy(client, server)
        back.join()
        self.listener.close()

    def copy(self, source, sink):
        reader = formats.Reader(True)
        while piece := source.recv(1 << 16):
            self.kinds += [kind for kind, _ in reader.feed(piece)]
            sink.sendall(piece)
        sink.shutdown(socket.SHUT_WR)


def compiled(source):
    found = [shutil.which(it) for it in ("cc", "gcc", "clang")]
    compiler = next((it for it in found if it), None)
    if compiler is None:
        return None
    made = f"{programs.room}/{source}.so"
    subprocess.run([compiler, "-O1", "-shared", "-fPIC", "-nostdlib", "-o", made, f"{ROOT}/scripts/{source}.c"], check=True)
    return made
