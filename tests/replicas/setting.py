"""A publisher's folder, equal servers of its store, and what stands before them: HAProxy, or a forwarder of bytes where there is none."""
import hashlib
import itertools
import os
import random
import re
import shutil
import socket
import subprocess
import sys
import tempfile
import threading
import time
import types

ROOT = os.path.dirname(os.path.dirname(os.path.dirname(os.path.abspath(__file__))))
sys.path[:0] = [f"{ROOT}/tests/service", f"{ROOT}/tests/model"]
import formats
import logs
import wire
from forwarding import Forwarder

KEY, OTHER_KEY = wire.KEY.hex(), wire.OTHER_KEY.hex()
SEED, OTHER_SEED = "55" * 32, "66" * 32
SIZE = 4
# Of a secret.
WORDS = 4
RECORDS = [bytes([i, 255 - i, 7, i ^ 85]) for i in range(24)]
GROUPS = 4
SESSION = ("--draft", "session")
counts = {"passed": 0, "failed": 0}
counting = threading.Lock()
numbers = itertools.count()
# The three programs, and the folder in which all is done.
programs = types.SimpleNamespace(server=None, client=None, publisher=None, room=None)


def same(name, wanted, got):
    with counting:
        counts["passed" if wanted == got else "failed"] += 1
    if wanted != got:
        print(f"FAIL {name}: got {got!r}, wanted {wanted!r}", flush=True)


def holds(name, fact, shown=""):
    same(f"{name} {shown}".strip(), True, bool(fact))


def run(program, *words, data=b"", **more):
    """A command's status, and what it prints on standard output and on standard error; no status if it had to be ended."""
    try:
        done = subprocess.run([program, *map(str, words)], input=data, capture_output=True, timeout=60, **more)
    except subprocess.TimeoutExpired:
        return None, "", "no end within a minute"
    return done.returncode, done.stdout.decode().strip(), done.stderr.decode().strip()


def bytes_in(name):
    with open(name, "rb") as file:
        return file.read()


def free_port():
    """A port that nobody listens at, and none that the system gives to a client while the server is down that has it."""
    while True:
        port = random.randrange(10_000, 32_000)
        try:
            socket.create_server(("127.0.0.1", port)).close()
            return port
        except OSError:
            pass


def backup_of(file):
    """All that a file and its log have: the bytes of a copy."""
    copy = f"{programs.room}/copy{next(numbers)}"
    status, _, errors = run(programs.server, "backup", "--file", file, "--out", copy)
    if status != 0:
        return errors
    data = bytes_in(copy)
    os.remove(copy)
    return data


def content_of(file):
    """The version of a file with its log, and the records, as the model reads them; else the name of the fault."""
    snapshot = bytes_in(file)
    version, records, log = formats.header_of(snapshot)[6], logs.records_in(snapshot), logs.log_name(file, snapshot)
    fault, publications, _ = logs.read_log(snapshot, bytes_in(log)) if os.path.exists(log) else (None, [], 0)
    for changes in publications:
        records = logs.after(records, changes)
    return fault or (version + len(publications), records)


def pushed_in(out):
    """The lines of a push on servers that have the version, and not those on servers that it left as they are."""
    return sorted(line for line in out.splitlines() if not line.startswith("left "))


class Publisher:
    """A publisher's folder, and what each version of it has."""

    def __init__(self, seed=SEED, records=RECORDS):
        self.dir = f"{programs.room}/publisher{next(numbers)}"
        self.file, self.key_file = f"{self.dir}/records.pir", f"{self.dir}.key"
        with open(self.key_file, "w", encoding="ascii") as file:
            file.write(KEY + "\n")
        self.known, self.last, self.took = {1: list(records)}, 1, 0.02
        # As `init` makes it, but that secrets have fewer words, so that servers start and clients
        # ask in little time.
        layout = formats.Layout(8, SIZE, GROUPS, len(records))
        os.mkdir(self.dir, 0o700)
        with open(self.file, "wb") as file:
            file.write(formats.snapshot_bytes(layout, WORDS, 1, bytes.fromhex(seed), hashlib.sha256(wire.KEY).digest(), records))

    def done(self, command, *words, data=b""):
        """What a command comes to: once more while a push that goes on has the folder's lock, which it takes for a moment."""
        for _ in range(100):
            got = run(programs.publisher, command, "--dir", self.dir, *words, data=data)
            if got != (3, "", "fault: Locked"):
                break
            time.sleep(0.05)
        return got

    def publish(self, changes):
        """Makes a version of changes by their places: those past the last record are appended."""
        now = self.known[self.last]
        if len(changes) == 1 and min(changes) < len(now):
            ((place, data),) = changes.items()
            done = self.done("set", str(place), data.hex())
        else:
            lines = "".join(f"{place if place < len(now) else '+'} {data.hex()}\n" for place, data in sorted(changes.items()))
            done = self.done("import", data=lines.encode())
        same("draft", (0, f"drafted {len(changes)}", ""), done)
        self.known[self.last + 1] = logs.after(now, changes)
        self.last += 1
        same("publish", (0, f"published {self.last}", ""), self.done("publish"))

    def publish_some(self, chance):
        """Makes a version with a few other records, sometimes with one more."""
        count = len(self.known[self.last])
        places = chance.sample(range(count), chance.randrange(1, 4)) + ([count] if chance.random() < 0.2 else [])
        self.publish({place: chance.randbytes(SIZE) for place in places})

    def words_of_push(self, servers, key=None, more=()):
        to = [word for it in servers for word in ("--to", it.address)]
        return [programs.publisher, "push", "--dir", self.dir, "--key", f"@{key or self.key_file}", *more, *to]

    def push(self, *servers, key=None, more=()):
        """The status, which servers it says have the last version, and what it says on standard error."""
        begun = time.monotonic()
        status, out, errors = run(*self.words_of_push(servers, key, more))
        self.took = time.monotonic() - begun
        return status, pushed_in(out), errors

    def some_time(self, chance):
        """How long to wait so that a push is at any moment, or has just ended: by how long the last whole one took."""
        return 1.1 * self.took * chance.random()

    def lines(self, *servers):
        """What push prints of servers that have the last version."""
        return sorted(f"pushed {it.address} {self.last}" for it in servers)

    def pushed(self, name, *servers):
        """Pushes to servers, all of which have the last version then."""
        same(name, (0, self.lines(*servers), ""), self.push(*servers))

    def not_pushed(self, name, servers, others=(), **more):
        """Pushes to servers that it can't bring to the last version, and stay as they are, and others, which it can."""
        before = [it.content() for it in servers]
        status, out, errors = self.push(*servers, *others, **more)
        holds(f"{name}: a status that says so", status not in (0, None), status)
        same(f"{name}: who has the last version", self.lines(*others), out)
        holds(f"{name}: what is said", errors and KEY not in errors and OTHER_KEY not in errors, errors)
        same(f"{name}: those stay as they were", before, [it.content() for it in servers])
        return errors

    def copy(self, logged=True):
        """A file for a server: a copy of the snapshot, with that of its log, or alone."""
        name = f"{tempfile.mkdtemp(dir=programs.room)}/store.pir"
        shutil.copy(self.file, name)
        log = logs.log_name(self.file, bytes_in(self.file))
        if logged and os.path.exists(log):
            shutil.copy(log, logs.log_name(name, bytes_in(name)))
        return name

    def backup(self):
        """A file for a server: a copy of all that there is, in one file."""
        name = f"{tempfile.mkdtemp(dir=programs.room)}/store.pir"
        same("backup", 0, run(programs.server, "backup", "--file", self.file, "--out", name)[0])
        return name


class Replica:
    """A server with a file and ports of its own, which may be killed and started again."""

    def __init__(self, file, words=SESSION, **more):
        self.file, self.words, self.port, self.status_port, self.process = file, words, free_port(), free_port(), None
        self.address = f"127.0.0.1:{self.port}"
        self.start(**more)

    def start(self, **more):
        words = ["--file", self.file, "--listen", self.address, "--status", f"127.0.0.1:{self.status_port}", "--quiet", *self.words]
        self.process = wire.Server(programs.server, "run", *words, **more)
        if self.process.port != self.port:
            holds("a server starts", False, self.process.kill())

    def kill(self):
        self.process.kill()

    def content(self):
        """The version and the records that it has on its disk."""
        return content_of(self.file)

    def version(self):
        """The version that it serves."""
        with wire.Connection(self.port, wire.READER) as it:
            return int.from_bytes(it.welcome[1][11:19], "little")


class Replicas:
    """Several of them, which are ended in the end."""

    def __init__(self, publisher, count, words=SESSION):
        self.all = [Replica(publisher.copy(), words) for _ in range(count)]

    def __enter__(self):
        return self.all

    def __exit__(self, *_):
        for it in self.all:
            it.kill()


def are_equal(name, publisher, replicas):
    """All servers have the publisher's last version, and their copies are the same bytes as the publisher's."""
    copies = {hashlib.sha256(backup_of(it.file)).hexdigest() for it in replicas}
    same(f"{name}: one copy", {hashlib.sha256(backup_of(publisher.file)).hexdigest()}, copies)
    wanted = publisher.last, publisher.known[publisher.last]
    same(f"{name}: the last version", [wanted], [it.content() for it in replicas[:1]])
    same(f"{name}: what is served", {publisher.last}, {it.version() for it in replicas})


# ---- what stands before servers


class Haproxy:
    """HAProxy by the file of examples/replicas, with other ports."""

    kind = "HAProxy"

    def __init__(self, program, replicas):
        self.port = free_port()
        name = f"{programs.room}/haproxy{next(numbers)}"
        with open(f"{ROOT}/examples/replicas/haproxy.cfg", encoding="utf-8") as file:
            text = file.read().replace("/run/haproxy/pir.sock", f"{name}.sock").replace("bind 127.0.0.1:7000", f"bind 127.0.0.1:{self.port}")
        ours = iter(replicas)

        def put(line):
            it = next(ours, None)
            return f"{line[1]} {it.address} port {it.status_port}" if it else ""

        with open(f"{name}.cfg", "w", encoding="utf-8") as file:
            text = re.sub(r"(?m)^    (user|group) .*\n", "", text)
            file.write(re.sub(r"(?m)^(    server s\d+) 127.0.0.1:\d+ port \d+$", put, text))
        self.process = subprocess.Popen([program, "-db", "-f", f"{name}.cfg"], stdout=subprocess.DEVNULL, stderr=subprocess.DEVNULL)
        for _ in range(200):
            try:
                socket.create_connection(("127.0.0.1", self.port)).close()
                break
            except OSError:
                time.sleep(0.02)

    def close(self):
        self.process.kill()
        self.process.wait()


def balancer_before(replicas):
    program = shutil.which("haproxy", path=f"{os.environ.get('PATH', '')}:/usr/sbin:/usr/local/sbin")
    return Haproxy(program, replicas) if program else Forwarder(*(it.port for it in replicas))


def some_chance(name):
    """A source of chance, with the same numbers in each run."""
    return random.Random(name)
