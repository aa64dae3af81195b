"""What a server with `--status` says of itself over HTTP. `tests` takes the module with the checks: `same`, `holds`, `make`, `running`, `get`."""
import json
import re
import shutil
import socket
import struct
import subprocess
import threading
import time

import operators
import wire
from wire import Connection

STATUS = ("--status", "127.0.0.1:0")
NAME = r"[a-zA-Z_:][a-zA-Z0-9_:]*"
SAMPLE = re.compile(rf'({NAME})(\{{{NAME}="[^"\\\n]*"\}})? (\+Inf|[0-9]+(?:e-6)?)')
TYPES = ("counter", "gauge", "histogram")


def status_port(server):
    """The port of the line after `listening`."""
    line = server.process.stdout.readline().decode().strip()
    return int(line.rsplit(":", 1)[-1]) if line.startswith("status 127.0.0.1:") else 0


def ask(port, sent, timeout=10):
    """All that comes of some bytes until the end of the connection."""
    with socket.create_connection(("127.0.0.1", port), timeout=timeout) as it:
        it.sendall(sent)
        return rest_of(it)


def rest_of(it):
    came = b""
    try:
        while piece := it.recv(65536):
            came += piece
    except ConnectionError:
        pass
    return came


def page(port, target, method="GET"):
    """A page's status, fields and content."""
    return parted(ask(port, f"{method} {target} HTTP/1.1\r\nHost: x\r\n\r\n".encode()))


def parted(came):
    head, _, content = came.partition(b"\r\n\r\n")
    first, *lines = head.decode().split("\r\n")
    fields = dict(line.split(": ", 1) for line in lines if ": " in line)
    return first.partition(" ")[2], fields, content.decode()


def samples(t, text):
    """The values of a text of metrics, whose form is checked: each family has one HELP, one TYPE, and then its samples and no others."""
    found, family, kind, seen = {}, None, None, set()
    t.holds("metrics: the text ends with a line", text.endswith("\n"))
    for line in text[:-1].split("\n"):
        if line.startswith("# HELP "):
            family, kind = line.split(" ")[2], None
            t.holds(f"metrics: {family} comes once, with a help", family not in seen and len(line.split(" ")) > 4, line)
            seen.add(family)
        elif line.startswith("# TYPE "):
            _, _, name, kind = line.split(" ")
            t.holds(f"metrics: the type of {name}", name == family and kind in TYPES, line)
        else:
            match = SAMPLE.fullmatch(line)
            t.holds("metrics: a sample's form", match and kind, line)
            name, labels, value = match.groups()
            ends = ("_bucket", "_sum", "_count") if kind == "histogram" else ("",)
            t.holds("metrics: a sample is of its family", name in [family + it for it in ends] and name.startswith("vulandrai_"), line)
            t.holds("metrics: a counter's name", (kind == "counter") == name.endswith("_total"), line)
            t.holds("metrics: a sample comes once", name + (labels or "") not in found, line)
            found[name + (labels or "")] = float(value)
    return found


def metrics(t, port):
    status, fields, content = page(port, "/metrics")
    t.same("metrics: status and fields", ("200 OK", "text/plain; version=0.0.4; charset=utf-8", "close", str(len(content))),
           (status, fields.get("Content-Type"), fields.get("Connection"), fields.get("Content-Length")))
    found = samples(t, content)
    for name in ("vulandrai_answer_seconds", "vulandrai_wait_seconds"):
        bins = [value for key, value in found.items() if key.startswith(name + "_bucket")]
        t.same(f"{name}: bins", (13, sorted(bins), found[name + "_count"]), (len(bins), bins, bins[-1]))
    return found, content


def is_linted(t, content):
    """What Prometheus' own tool says of the text, where it is installed."""
    tool = shutil.which("promtool")
    if tool is None:
        print("promtool is not there: skipped", flush=True)
        return
    done = subprocess.run([tool, "check", "metrics"], input=content.encode(), capture_output=True, timeout=60, check=False)
    t.same("promtool", (0, b"", b""), (done.returncode, done.stdout, done.stderr))


def says_health(t):
    with t.running("status.pir", *STATUS) as it:
        port = status_port(it)
        t.holds("it says where", port)
        status, fields, content = page(port, "/health")
        t.same("health", ("200 OK", "application/json", "close", {"version": 1, "records": 2, "draft": "publication"}),
               (status, fields.get("Content-Type"), fields.get("Connection"), json.loads(content)))
        t.same("published", 2, t.publish(it.port, b"\x07"))
        t.same("health after a publication", {"version": 2, "records": 2, "draft": "publication"}, json.loads(page(port, "/health")[2]))
        for target in ("/", "/healthz", "/metrics/", "/metrics?x=1", "*"):
            t.same(f"no page {target}", "404 Not Found", page(port, target)[0])
        for method in ("POST", "HEAD", "PUT", "DELETE", "get"):
            status, fields, _ = page(port, "/health", method)
            t.same(f"no method {method}", ("405 Method Not Allowed", "GET"), (status, fields.get("Allow")))
        t.same("a body is not read", "405 Method Not Allowed", parted(ask(port, b"POST /metrics HTTP/1.1\r\nContent-Length: 9000\r\n\r\n" + b"x" * 9000))[0])
        for bad in (b"\x00\x01\x02\r\n\r\n", b"GET\r\n\r\n", b"GET /health HTTP/1.1\r\nno colon\r\n\r\n", b"GET /health\r\n\r\n", b"GET /health HTTP/3.0\r\n\r\n", wire.hello()):
            t.same(f"a bad head {bad[:20]}", "400 Bad Request", parted(ask(port, bad))[0])
        long = b"GET /health HTTP/1.1\r\nA: " + b"x" * 5000 + b"\r\n\r\n"
        t.same("a head too long", "400 Bad Request", parted(ask(port, long))[0])
        for length, wanted in ((4096, "200 OK"), (4097, "400 Bad Request")):
            sent = b"GET /health HTTP/1.1\r\nA: " + b"x" * (length - 29) + b"\r\n\r\n"
            t.same(f"a head of {length} bytes", (length, wanted), (len(sent), parted(ask(port, sent))[0]))
        many = b"GET /health HTTP/1.1\r\n" + b"A: b\r\n" * 65 + b"\r\n"
        t.same("too many fields", "400 Bad Request", parted(ask(port, many))[0])
        with socket.create_connection(("127.0.0.1", port), timeout=10) as slow:
            for byte in b"GET /health HTTP/1.0\r\n\r\n":
                slow.sendall(bytes([byte]))
                time.sleep(0.01)
            t.same("byte by byte", "200 OK", parted(rest_of(slow))[0])
        t.same("nothing on standard error", "", it.kill())
    with t.running("status.pir") as it:
        t.same("without the option one line", b"", (it.process.kill(), it.process.stdout.read())[1])


def counts_what_happens(t):
    t.make("counts.pir")
    with t.running("counts.pir", *STATUS, "--most-per-peer", "3") as it:
        port = status_port(it)
        before, content = metrics(t, port)
        is_linted(t, content)
        t.same("nothing has happened", {0.0}, {value for key, value in before.items() if key.endswith("_total") or "_total{" in key})
        with Connection(it.port, wire.READER) as simple:
            for _ in range(5):
                t.same("an answer", wire.ANSWER, simple.ask(wire.query(0, 1, [1, 2]))[0])
            t.same("by DoublePIR", wire.ANSWER, simple.ask(wire.query(1, 1, [1, 2, 3]))[0])
            stale = simple.ask(wire.query(0, 9, [1, 2]))
            t.same("stale", 0x86, stale[0])
            t.same("another count of words", (wire.REFUSED, b"\x0b"), simple.ask(wire.query(0, 1, [1])))
            t.same("no such scheme", (wire.REFUSED, b"\x0d"), simple.ask(wire.query(7, 1, [1, 2])))
            one, two, three = Connection(it.port), Connection(it.port), Connection(it.port)
            three.seconds_until_closed(5)
            now, _ = metrics(t, port)
            t.same("open", 3.0, now["vulandrai_connections_open"])
            t.same("closed for its peer", 1.0, now['vulandrai_connections_closed_total{cause="TooMany"}'])
            for other in (one, two, three):
                other.close()
        # The places of those that were closed are free again by then.
        time.sleep(0.5)
        t.same("a publication", 2, t.publish(it.port, b"\x09"))
        time.sleep(0.3)
        now, content = metrics(t, port)
        is_linted(t, content)
        wanted = {
            "connections_accepted_total": 4, 'connections_closed_total{cause="End"}': 4, 'connections_closed_total{cause="TooMany"}': 1,
            'connections_closed_total{cause="Idle"}': 0, "connections_open": 0, 'frames_total{kind="hello"}': 2, 'frames_total{kind="query"}': 9,
            'frames_total{kind="edit"}': 1, 'frames_total{kind="publish"}': 1, 'answers_total{scheme="simple"}': 5, 'answers_total{scheme="double"}': 1,
            "stale_total": 1, 'refused_total{code="11"}': 1, 'refused_total{code="13"}': 1, 'refused_total{code="12"}': 0, 'replies_total{kind="welcome"}': 2,
            'replies_total{kind="done"}': 2, "answer_seconds_count": 6, "wait_seconds_count": 13, "version": 2, "records": 2, "stopping": 0,
            "unfinished_bytes": 0, "owed_bytes": 0, "log_lines_left_out_total": 0,
        }
        t.same("what was counted", wanted, {name: now["vulandrai_" + name] for name in wanted})
        t.holds("when it was published", abs(now["vulandrai_publication_timestamp_seconds"] - time.time()) < 60)
        t.holds("how long it took", 0 < now["vulandrai_publication_saved_seconds"] < 5 and 0 < now["vulandrai_publication_prepared_seconds"] < 5, str(now))
        sent = 2 * len(wire.hello()) + 7 * len(wire.query(0, 1, [1, 2])) + len(wire.query(1, 1, [1, 2, 3])) + len(wire.query(0, 1, [1])) + len(wire.edit(0, b"\x09")) + len(wire.PUBLISH)
        t.same("bytes in", float(sent), now["vulandrai_received_bytes_total"])
        t.holds("bytes out", now["vulandrai_sent_bytes_total"] > 100)
        with Connection(it.port, wire.READER) as begun:
            begun.send(wire.query(0, 2, [1, 2])[:9])
            time.sleep(0.2)
            t.same("of an unfinished frame", 9.0, metrics(t, port)[0]["vulandrai_unfinished_bytes"])


def counts_changed_records(t):
    """Only a wide store is asked which records changed since a version. To an ordinary one the fifth byte of such a frame is that of no kind."""
    words = ["--wide", "--width", "8", "--record", "1", "--groups", "1", "--seed", t.ZEROS, "--key", t.KEY]
    t.same("make a wide store", (0, "made 2 1", ""), t.run(t.SERVER, "make", "--out", "wide.pir", *words, data=b"\x0a\xc8"))
    with t.running("wide.pir", *STATUS) as it:
        port = status_port(it)
        with Connection(it.port) as other:
            t.same("before a greeting", (wire.REFUSED, b"\x02"), other.ask(wire.changes_ask(1)))
            t.same("a publisher's greeting", wire.WELCOME, other.ask(wire.hello(wire.KEY, 129))[0])
            t.same("nothing since", (wire.CHANGES, changed(1, 1, 2)), other.ask(wire.changes_ask(1)))
            for version, record in ((2, b"\x07"), (3, b"\x09")):
                t.same("an edit", wire.DONE, other.ask(wire.edit(1, record))[0])
                t.same("a publication", (wire.DONE, version.to_bytes(8, "little")), other.ask(wire.PUBLISH))
            t.same("since the first version", (wire.CHANGES, changed(1, 3, 2) + b"\1\0\0\0\xc8\x09"), other.ask(wire.changes_ask(1)))
            t.same("since the second", (wire.CHANGES, changed(2, 3, 2) + b"\1\0\0\0\x07\x09"), other.ask(wire.changes_ask(2)))
            t.same("since none that there is", (wire.NO_DELTA, struct.pack("<QI", 3, 2)), other.ask(wire.changes_ask(4)))
            t.same("rows are given, too", wire.DELTA, other.ask(wire.delta_ask(2))[0])
            time.sleep(0.2)
            now, _ = metrics(t, port)
        wanted = {
            'frames_total{kind="changes_ask"}': 5, 'replies_total{kind="changes"}': 3, 'replies_total{kind="no_delta"}': 1,
            'frames_total{kind="delta_ask"}': 1, 'replies_total{kind="delta"}': 1, 'refused_total{code="2"}': 1, 'frames_total{kind="other"}': 0,
        }  # fmt: skip
        t.same("what was counted", wanted, {name: now["vulandrai_" + name] for name in wanted})
    with t.running("status.pir", *STATUS) as it:
        port = status_port(it)
        with Connection(it.port, wire.READER) as other:
            other.send(wire.changes_ask(1)[:4])
            time.sleep(0.2)
            t.same("four bytes of such a frame", True, wire.is_connected(it.port, other.socket))
            other.send(wire.changes_ask(1)[4:5])
            t.same("an ordinary store", ((wire.REFUSED, b"\x01"), None), (other.reply(), other.reply()))
        now, _ = metrics(t, port)
        t.same("and no frame", (0.0, 0.0), tuple(now[f"vulandrai_{it}"] for it in ('frames_total{kind="changes_ask"}', 'replies_total{kind="changes"}')))


def changed(since, now, count):
    """What Changes have before their entries."""
    return struct.pack("<QQI", since, now, count)


def bounds_visitors(t):
    """A visitor is cut off after five seconds, also one that sends a byte now and then; a ninth waits for a place."""
    with t.running("status.pir", *STATUS) as it:
        port = status_port(it)
        begun = time.monotonic()
        slow = [socket.create_connection(("127.0.0.1", port), timeout=20) for _ in range(8)]
        for other in slow:
            other.sendall(b"GET /hea")
        ninth = socket.create_connection(("127.0.0.1", port), timeout=20)
        ninth.sendall(b"GET /health HTTP/1.1\r\n\r\n")
        dripping = threading.Thread(target=drip, args=(slow[0],))
        dripping.start()
        ninth.settimeout(0.5)
        try:
            came = ninth.recv(10)
        except socket.timeout:
            came = None
        t.same("a ninth waits", None, came)
        t.same("clients don't", (0, "retrieved 1 1 c8", ""), t.get(it.port, 1))
        ninth.settimeout(20)
        t.same("and has its turn", "200 OK", parted(rest_of(ninth))[0])
        took = time.monotonic() - begun
        t.holds("once the others are cut off", 4 < took < 7.5, f"after {took} seconds")
        t.same("they got nothing", {b""}, {rest_of(other) for other in slow})
        dripping.join()
        with socket.create_connection(("127.0.0.1", port), timeout=20) as unread:
            begun = time.monotonic()
            unread.sendall(b"GET /metrics HTTP/1.1\r\n\r\n")
            time.sleep(0.3)
            t.holds("one whose peer does not close is closed", rest_of(unread).startswith(b"HTTP/1.1 200"))
            while wire.is_connected(port, unread) and time.monotonic() - begun < 9:
                time.sleep(0.1)
            t.holds("soon", time.monotonic() - begun < 3)
        for other in [*slow, ninth]:
            other.close()


def drip(it):
    try:
        for _ in range(80):
            it.sendall(b"x")
            time.sleep(0.1)
    except OSError:
        pass


def holds_nobody_up(t):
    """Clients get their records beside many who ask."""
    with t.running("status.pir", *STATUS) as it:
        port = status_port(it)
        ends = threading.Event()
        statuses = []

        def scrape():
            while not ends.is_set():
                statuses.append(page(port, "/metrics")[0])

        scraping = [threading.Thread(target=scrape) for _ in range(6)]
        for other in scraping:
            other.start()
        got = {t.get(it.port, 1, scheme) for scheme in ("simple", "double") for _ in range(10)}
        ends.set()
        for other in scraping:
            other.join()
        t.same("clients beside many who ask", {(0, "retrieved 1 1 c8", "")}, got)
        t.same("those who ask", {"200 OK"}, set(statuses))
        t.holds("many of them", len(statuses) > 20, str(len(statuses)))


def says_that_it_stops(t):
    with operators.stopping(t, "status.pir", *STATUS, "--grace", "3") as it, Connection(it.port, wire.READER) as begun:
        port = status_port(it)
        begun.send(wire.query(0, 1, [1, 2])[:7])
        time.sleep(0.2)
        t.same("before", "200 OK", page(port, "/health")[0])
        operators.close_input(it)
        time.sleep(0.3)
        status, _, content = page(port, "/health")
        t.same("while it stops", ("503 Service Unavailable", {"version": 1, "records": 2, "draft": "publication"}), (status, json.loads(content)))
        now, _ = metrics(t, port)
        t.same("and is counted", (1.0, 1.0), (now["vulandrai_stopping"], now["vulandrai_connections_open"]))
        operators.ended_within(t, "it ends", it, 1, 4)
    t.holds("and with it the listener", operators.is_refused(port))


def wants_its_address(t):
    with socket.create_server(("127.0.0.1", 0)) as taken:
        address = "127.0.0.1:%d" % taken.getsockname()[1]
        words = ["run", "--file", "status.pir", "--listen", "127.0.0.1:0", "--status", address, "--verbose"]
        status, out, errors = t.run(t.SERVER, *words)
        t.same("an address in use", (3, "", True), (status, out, errors.startswith(f"fault: Connect\ncause: {address}: ")))


def tests(t):
    t.make("status.pir")
    says_health(t)
    t.make("status.pir")
    counts_what_happens(t)
    counts_changed_records(t)
    bounds_visitors(t)
    holds_nobody_up(t)
    says_that_it_stops(t)
    wants_its_address(t)
