"""Fetches of a hint that are cut, and go on where they were cut: what the file of the first parts is worth whatever has become of it."""
import os
import re
import resource
import shutil
import socket
import struct
import subprocess
import threading

# How many bytes a part's frame has before its words, and its kind.
HEAD, HINT_PART = 18, 0x83


class Cutter:
    """Passes on what goes between clients and the server of a port. A connection is closed once so many whole parts of a hint have
    gone to the client, and so many bytes of the next one; with `holds` it is left open and nothing more goes to the client. `at_query` is a kind of frame, and what is
    called before one goes to the server."""

    def __init__(self, port, parts, extra=0, holds=False, at_query=None):
        self.to, self.parts, self.extra, self.holds, self.at_query = port, parts, extra, holds, at_query
        self.is_held = threading.Event()
        self.listener = socket.create_server(("127.0.0.1", 0))
        self.port = self.listener.getsockname()[1]
        threading.Thread(target=self.listen, daemon=True).start()

    def listen(self):
        while True:
            stream, _ = self.listener.accept()
            server = socket.create_connection(("127.0.0.1", self.to))
            threading.Thread(target=self.asks, args=(stream, server), daemon=True).start()
            threading.Thread(target=self.replies, args=(stream, server), daemon=True).start()

    def asks(self, stream, server):
        try:
            while piece := stream.recv(65_536):
                if self.at_query:
                    query, act = self.at_query
                    if piece[4] == query:
                        act()
                server.sendall(piece)
            server.shutdown(socket.SHUT_WR)
        except OSError:
            pass

    def replies(self, stream, server):
        reader, left = server.makefile("rb"), self.parts
        try:
            while len(prefix := reader.read(5)) == 5:
                frame = prefix + reader.read(int.from_bytes(prefix[:4], "little"))
                if prefix[4] == HINT_PART and left == 0:
                    stream.sendall(frame[: self.extra])
                    if self.holds:
                        self.is_held.set()
                        return
                    break
                left -= prefix[4] == HINT_PART
                stream.sendall(frame)
            # The client's end is closed for good, though the other thread reads of it.
            stream.shutdown(socket.SHUT_RDWR)
        except OSError:
            pass


def parts_asked(t, server, at=-1):
    """The parts that a connection asked for, in their order."""
    return [fields[2] for kind, fields in server.connections[at] if kind == t.HINT_ASK]


def partial_in(folder):
    return [name for name in os.listdir(folder) if name.endswith(".part")]


def wide_apart(t, scheme):
    """A server whose hint has several parts, how many, and its records."""
    if scheme == "simple":
        records = [bytes([i, 255 - i]) for i in range(160)]
        return t.Server(records, n=1000, groups=160), 5, records
    return t.Server(n=300), 6, t.RECORDS


def cut_fetches_go_on(t):
    for scheme in ("simple", "double"):
        server, parts, records = wide_apart(t, scheme)
        name, whole = t.hint_name(server, scheme), f"whole {scheme}"
        t.same("fetched whole", (0, t.retrieved(5, 1, records), ""), t.get(whole, server.port, 5, scheme=scheme))
        t.same("its parts", list(range(parts)), parts_asked(t, server))
        if scheme == "simple":
            t.same("the hint described", t.hint_file(server, 1), t.read(whole, name))
        for cut, extra in ((0, 0), (0, 30), (1, 0), (2, HEAD), (3, 100_000), (parts - 1, 50_000)):
            folder = f"cut {scheme} {cut} {extra}"
            got = t.get(folder, Cutter(server.port, cut, extra).port, 5, scheme=scheme)
            t.same(f"{scheme}, cut after {cut} parts and {extra} bytes", (3, "", "fault: Ended\n"), got)
            t.same("no hint is kept", (0, "hint none\n", ""), t.client("state", "--state", folder))
            t.same("but its first parts", [f"{name}.part"], partial_in(folder))
            t.same("goes on", (0, t.retrieved(5, 1, records), ""), t.get(folder, server.port, 5, scheme=scheme))
            t.same("with the next part", list(range(cut, parts)), parts_asked(t, server))
            t.same("to the hint fetched whole", t.read(whole, name), t.read(folder, name))
            t.same("and the parts are gone", [], partial_in(folder))
            t.same("mode", 0o600, os.stat(f"{folder}/{name}").st_mode & 0o777)
        folder = f"cut {scheme} often"
        for cut in range(parts):
            t.get(folder, Cutter(server.port, 1).port, 5, scheme=scheme)
            t.same(f"cut again, {cut}", [cut, cut + 1][: parts - cut], parts_asked(t, server))
        t.same("and whole", t.read(whole, name), t.read(folder, name))


def killed_runs_leave_their_parts(t):
    server, parts, records = wide_apart(t, "simple")
    folder, name = "killed in a fetch", t.hint_name(server)
    for cut in (1, 2):
        cutter = Cutter(server.port, 1, 1000, holds=True)
        quiet = {"stdout": subprocess.DEVNULL, "stderr": subprocess.DEVNULL}
        process = subprocess.Popen(t.words_of_get(folder, cutter.port, 5), **quiet)
        t.holds("it came so far", cutter.is_held.wait(30))
        if cut == 2:
            # Another run meanwhile fetches the hint by itself, and neither waits nor adds to the
            # parts.
            before = t.read(folder, f"{name}.part")
            t.same("another run", (0, t.retrieved(7, 1, records), ""), t.get(folder, server.port, 7))
            t.same("fetches all parts", list(range(parts)), parts_asked(t, server))
            t.same("and leaves those of the other", before, t.read(folder, f"{name}.part"))
            os.remove(f"{folder}/{name}")
        process.kill()
        process.wait()
    t.same("after the killed runs", (0, t.retrieved(5, 1, records), ""), t.get(folder, server.port, 5))
    t.same("it goes on", list(range(2, parts)), parts_asked(t, server))
    t.same("to the hint", t.hint_file(server, 1), t.read(folder, name))


def publications_start_anew(t):
    server, parts, records = wide_apart(t, "simple")
    folder, name = "published between", t.hint_name(server)
    t.get(folder, Cutter(server.port, 3).port, 5)
    server.change(7, b"\1\2")
    records = records[:7] + [b"\1\2"] + records[8:]
    t.same("another version", (0, t.retrieved(7, 2, records), ""), t.get(folder, server.port, 7))
    t.same("is fetched from the start", list(range(parts)), parts_asked(t, server))
    t.same("to its hint", t.hint_file(server, 2), t.read(folder, name))
    t.same("and the parts are gone", [], partial_in(folder))
    # Now there is a hint, and no delta since it: the server knows those of sixteen publications.
    for _ in range(17):
        server.change(0, records[0])
    t.same("no delta, and cut", 3, t.get(folder, Cutter(server.port, 2).port, 7)[0])
    t.same("again", (0, t.retrieved(7, 19, records), ""), t.get(folder, server.port, 7))
    t.same("its frames", [t.HELLO, t.DELTA_ASK] + (parts - 2) * [t.HINT_ASK] + [t.QUERY], server.last())
    t.same("its parts", list(range(2, parts)), parts_asked(t, server))
    t.same("the hint of the last version", t.hint_file(server, 19), t.read(folder, name))
    # A publication while the parts come: the next part's ask is stale.
    seen = []

    def before(store, kind):
        seen.append(kind)
        if seen.count(t.HINT_ASK) == 3 and kind == t.HINT_ASK:
            store.edit(7, b"\1\2")
            store.publish()

    server = t.Server(records, n=1000, groups=160, before=before)
    folder = "published meanwhile"
    t.same("a publication meanwhile", (0, t.retrieved(7, 2, records), ""), t.get(folder, server.port, 7))
    t.same("its parts", [0, 1, 2, 0, *range(parts)], parts_asked(t, server))
    t.same("the hint of the later version", t.hint_file(server, 2), t.read(folder, name))
    # A hint that moves by delta leaves no parts of an earlier version.
    shutil.copy(f"{folder}/{name}", "kept")
    data = t.read(folder, name)
    t.write(folder, f"{name}.part", b"PIRPART1" + data[8:])
    server.change(9, records[9])
    t.same("moved by delta", (0, t.retrieved(7, 3, records), ""), t.get(folder, server.port, 7))
    t.same("and the parts are gone", [], partial_in(folder))


def damaged_parts_are_fetched_anew(t):
    server, parts, records = wide_apart(t, "simple")
    folder, name = "damaged parts", t.hint_name(server)
    t.get(folder, Cutter(server.port, 4).port, 5)
    part, whole = t.read(folder, f"{name}.part"), t.hint_file(server, 1)
    end = 118 + 32 * parts
    fields, words = whole[8:86], whole[end:]
    digests = whole[86 : 86 + 32 * 4]
    t.same("the file described", b"PIRPART1" + fields + digests + bytes(64) + words[: 4 * t.PART], part)
    other_version = struct.pack("<Q", 2)
    cases = {
        "as it is": (part, 4),
        "all parts": (b"PIRPART1" + whole[8:], parts),
        "bytes after the parts": (part + bytes(2_000_000), 4),
        "no byte": (b"", 0),
        "a whole hint": (whole, 0),
        "another version": (part[:62] + other_version + part[70:], 0),
        "another scheme": (part[:61] + b"\1" + part[62:], 0),
        "another count": (part[:49] + struct.pack("<I", 159) + part[53:], 0),
        "another public seed": (part[:17] + b"\1" + part[18:], 0),
        "two parts in the place of one another": (part[:end] + words[t.PART : 2 * t.PART] + words[: t.PART] + part[end + 2 * t.PART :], 0),
    }
    for at, taken in ((0, 0), (7, 0), (8, 0), (85, 0), (86, 0), (86 + 40, 1), (86 + 127, 3), (86 + 128, 4), (end, 0), (end + t.PART - 1, 0),
                      (end + t.PART, 1), (end + 3 * t.PART + 7, 3), (len(part) - 1, 3)):  # fmt: skip
        cases[f"byte {at}"] = (t.changed(part, at), taken)
    for length, taken in ((50, 0), (86, 0), (86 + 64, 0), (end + 10, 0), (end + t.PART, 1), (end + 2 * t.PART + 1, 2), (len(part) - 1, 3)):
        cases[f"cut to {length} bytes"] = (part[:length], taken)
    for case, (data, taken) in cases.items():
        if os.path.exists(f"{folder}/{name}"):
            os.remove(f"{folder}/{name}")
        t.write(folder, f"{name}.part", data)
        t.same(case, (0, t.retrieved(5, 1, records), ""), t.get(folder, server.port, 5))
        t.same(f"{case}: its parts", list(range(taken, parts)), parts_asked(t, server))
        t.same(f"{case}: the hint", whole, t.read(folder, name))
    os.remove(f"{folder}/{name}")
    os.symlink("/dev/null", f"{folder}/{name}.part")
    t.same("a link", (0, t.retrieved(5, 1, records), ""), t.get(folder, server.port, 5))
    t.same("is not followed, and the hint is kept", whole, t.read(folder, name))
    t.same("forget", (0, "forgotten\n", ""), t.client("forget", "--state", folder))
    t.same("nothing stays", [], os.listdir(folder))
    folder = "full in a fetch"

    def full():
        resource.setrlimit(resource.RLIMIT_FSIZE, (400_000, 400_000))

    got = t.get(folder, server.port, 5, preexec_fn=full, restore_signals=False)
    t.same("no room for the parts", (0, t.retrieved(5, 1, records), "warning: the hint can't be kept\n"), got)
    t.same("no part stays", [], partial_in(folder))


def progress_is_said(t):
    server, parts, records = wide_apart(t, "simple")
    status, out, err = t.get("progress", Cutter(server.port, 2).port, 5, "--progress")
    t.same("cut", (3, ""), (status, out))
    t.holds(f"lines: {err!r}", re.fullmatch(r"hint: 1 of 5 parts, \d+ s left\n(hint: 2 of 5 parts, \d+ s left\n)?fault: Ended\n", err))
    status, out, err = t.get("progress", server.port, 5, "--progress")
    t.same("done", (0, t.retrieved(5, 1, records)), (status, out))
    t.holds(f"lines: {err!r}", re.fullmatch(r"hint: 3 of 5 parts, \d+ s left\n(hint: 4 of 5 parts, \d+ s left\n)?hint: 5 of 5 parts, 0 s left\n", err))
    t.same("nothing to fetch", (0, t.retrieved(5, 1, records), ""), t.get("progress", server.port, 5, "--progress"))


def memory_is_that_of_the_hint(t):
    words = ["make", "--out", "large", "--width", "8", "--record", "2", "--groups", "5", "--seed", "0" * 64, "--key", "01" * 32]
    subprocess.run([t.SERVER, *words], input=bytes(range(100)), stdout=subprocess.DEVNULL, check=True)
    server = subprocess.Popen([t.SERVER, "serve", "--file", "large", "--port", "0", "--connections", "2"], stdout=subprocess.PIPE, text=True)
    port, seen, process = int(server.stdout.readline().split()[1]), [], []

    def at_query():
        with open(f"/proc/{process[0].pid}/status") as file:
            seen.append(int(re.search(r"VmHWM:\s+(\d+) kB", file.read())[1]))

    cutter = Cutter(port, 1000, at_query=(t.QUERY, at_query))
    for scheme in ("simple", "double"):
        words = ["get", "--state", "memory", "--port", str(cutter.port), "--scheme", scheme, "7"]
        process[:] = [subprocess.Popen([t.CLIENT, *words], stdout=subprocess.DEVNULL)]
        t.same(f"{scheme} is done", 0, process[0].wait(timeout=120))
    # The hint of DoublePIR has 4 rows for each word of a secret.
    hint = 4 * 4 * 1024 * 1024 // 1024
    t.holds(f"a hint of {hint} KiB takes {seen[1] - seen[0]} more than a small one", hint // 2 <= seen[1] - seen[0] <= hint + 16 * 1024)
    server.stdout.close()
    t.same("the server ends", 0, server.wait(timeout=20))


TESTS = (
    cut_fetches_go_on, killed_runs_leave_their_parts, publications_start_anew, damaged_parts_are_fetched_anew, progress_is_said,
    memory_is_that_of_the_hint,
)  # fmt: skip
