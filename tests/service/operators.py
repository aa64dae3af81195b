"""How operators stop a server, bound and see it. `tests` takes the module with the checks: `same`, `holds`, `make`, `running`, `run`."""
import datetime
import json
import os
import socket
import subprocess
import threading
import time

import wire
from wire import Connection


def stopping(t, name, *words):
    """A server that stops at the end of its standard input, which is a pipe."""
    return t.running(name, "--until-eof", *words, stdin=subprocess.PIPE)


def ended_within(t, label, server, least, most):
    """How a server ends whose standard input has ended: well, and so soon."""
    begun = time.monotonic()
    try:
        t.same(label, (0, ""), server.ended())
    except subprocess.TimeoutExpired:
        t.same(f"{label}: an end", True, False)
    took = time.monotonic() - begun
    t.holds(f"{label}: when", least <= took < most, f"after {took} seconds")


def is_refused(port):
    try:
        socket.create_connection(("127.0.0.1", port), timeout=5).close()
    except ConnectionRefusedError:
        return True
    return False


def stops_with_nothing_to_do(t):
    """No connection, and one that sends nothing: both for a pipe that is closed with and without something in it."""
    for sent in (b"", b"some\nwords\n" * 1000):
        with stopping(t, "stop.pir") as it:
            it.process.stdin.write(sent)
            it.process.stdin.flush()
            t.same("served before the end of the input", (0, "retrieved 1 1 c8", ""), t.get(it.port, 1))
            it.process.stdin.close()
            it.process.stdin = None
            ended_within(t, "nothing to do", it, 0, 2)
    with stopping(t, "stop.pir") as it, Connection(it.port) as idle:
        close_input(it)
        t.same("an idle connection gets the end", b"", idle.socket.recv(1))
        t.holds("nothing more is accepted", is_refused(it.port))
        idle.close()
        ended_within(t, "one idle connection", it, 0, 2)
    with stopping(t, "stop.pir") as it, Connection(it.port, wire.READER) as idle:
        close_input(it)
        ended_within(t, "one that is not closed", it, 1, 4)


def close_input(server):
    server.process.stdin.close()
    server.process.stdin = None


def serves_what_was_begun(t):
    """A frame in part is served once it is whole, and its reply is written to its last byte; at the end of the grace it is not."""
    with stopping(t, "stop.pir") as it, Connection(it.port, wire.READER) as begun:
        ask = wire.query(0, 1, [1, 2])
        begun.send(ask[:7])
        time.sleep(0.3)
        close_input(it)
        time.sleep(0.5)
        t.holds("nothing more is accepted", is_refused(it.port))
        t.same("it goes on", None, it.process.poll())
        begun.send(ask[7:])
        t.same("the frame that was begun", wire.ANSWER, begun.reply()[0])
        t.same("then the end", None, begun.reply())
        begun.close()
        ended_within(t, "what was begun is served", it, 0, 2)
    with stopping(t, "stop.pir", "--grace", "2") as it, Connection(it.port, wire.READER) as begun:
        begun.send(wire.query(0, 1, [1, 2])[:7])
        time.sleep(1.5)
        close_input(it)
        ended_within(t, "what is not ended in time", it, 1.5, 3)
    with stopping(t, "stop.pir") as it, Connection(it.port, wire.READER) as begun:
        begun.send(wire.query(0, 1, [1, 2]) * 2000)
        close_input(it)
        t.same("all that had come is served", {wire.ANSWER}, {begun.reply()[0] for _ in range(2000)})
        t.same("and then the end", None, begun.reply())
        begun.close()
        ended_within(t, "many frames", it, 0, 3)


def gets_answer_in_the_middle(t):
    """A client in the middle of a DoublePIR answer when standard input ends gets its record."""
    t.make("double.pir", records=bytes(range(256)) * 400, groups=250)
    for wait in (0.0, 0.005, 0.02):
        with stopping(t, "double.pir") as it, Connection(it.port, wire.READER) as client:
            # A word for each of 410 columns, and one for each of 250 rows of digits.
            client.send(wire.query(1, 1, [7] * 660) * 15)
            time.sleep(wait)
            close_input(it)
            t.same(f"answers after {wait}", {wire.ANSWER}, {client.reply()[0] for _ in range(15)})
            t.same(f"the end after {wait}", None, client.reply())
            client.close()
            ended_within(t, "in the middle of answers", it, 0, 3)
    with stopping(t, "double.pir") as it:
        got = []
        asking = threading.Thread(target=lambda: got.append(t.get(it.port, 300, "double")))
        asking.start()
        asking.join()
        t.same("by DoublePIR before the end", (0, f"retrieved 300 1 {300 % 256:02x}", ""), got[0])
        close_input(it)
        ended_within(t, "after DoublePIR", it, 0, 2)


def wants_what_can_be_waited_for(t):
    """A file, the null device and a closed descriptor can't be waited for."""
    with open("words", "w", encoding="utf-8") as it:
        it.write("words")
    words = ["run", "--file", "stop.pir", "--listen", "127.0.0.1:0", "--until-eof"]
    for name in ("words", os.devnull):
        with open(name, "rb") as given:
            done = subprocess.run([t.SERVER, *words], stdin=given, capture_output=True, timeout=60, check=False)
        t.same(f"standard input {name}", (3, b"", b"fault: Input\n"), (done.returncode, done.stdout, done.stderr))
    done = subprocess.run([t.SERVER, *words], capture_output=True, timeout=60, check=False, preexec_fn=lambda: os.close(0))
    t.same("standard input closed", (3, b"", b"fault: Input\n"), (done.returncode, done.stdout, done.stderr))
    fifo = "fifo"
    os.mkfifo(fifo)
    reader = os.open(fifo, os.O_RDWR)
    with t.running("stop.pir", "--until-eof", stdin=reader) as it:
        t.same("a FIFO: served", (0, "retrieved 1 1 c8", ""), t.get(it.port, 1))
        t.same("a FIFO that has a writer", None, it.process.poll())
    os.close(reader)


def bounds_each_peer(t):
    """A second connection of an IP address past its bound is closed at once, and those of another are not counted with it."""
    with t.running("stop.pir", "--most-per-peer", "2") as it:
        first, second = Connection(it.port, wire.READER), Connection(it.port, wire.READER)
        third = Connection(it.port)
        t.same("a third is closed at once", True, (third.seconds_until_closed(5) or 9) < 1)
        third.close()
        t.same("the first two are served", {wire.ANSWER}, {c.ask(wire.query(0, 1, [1, 2]))[0] for c in (first, second)})
        second.close()
        time.sleep(0.3)
        t.same("one that is over makes room", (0, "retrieved 1 1 c8", ""), t.get(it.port, 1))
        first.close()
        t.same("it is said", "connection: TooMany\n", it.kill())
    with t.running("stop.pir", "--most-per-peer", "1") as it:
        here = Connection(it.port, wire.READER)
        there = socket.create_connection(("127.0.0.1", it.port), timeout=5, source_address=("127.0.0.2", 0))
        there.sendall(wire.hello())
        t.holds("another address has its own bound", there.recv(5) != b"")
        again = Connection(it.port)
        t.same("this one has none left", True, (again.seconds_until_closed(5) or 9) < 1)
        for other in (here, there, again):
            other.close()
        it.kill()


LEVELS = {"listening": "info", "accepted": "info", "published": "info", "stopping": "info", "stopped": "info", "refused": "warn"}


def has_time(text):
    """Whether a text is a moment as RFC 3339 has it, in UTC with milliseconds, of this minute."""
    try:
        moment = datetime.datetime.strptime(text, "%Y-%m-%dT%H:%M:%S.%fZ").replace(tzinfo=datetime.timezone.utc)
    except ValueError:
        return False
    return len(text) == 24 and abs((datetime.datetime.now(datetime.timezone.utc) - moment).total_seconds()) < 60


def says_what_happens(t):
    """Each line of the log is an object of JSON, or the same in words, and names neither keys nor what is asked for."""
    for form in ("json", "text"):
        t.make("log.pir")
        with stopping(t, "log.pir", "--log", form) as it:
            port = it.port
            t.same("published", 2, t.publish(port, b"\x05"))
            with Connection(port) as other:
                other.send(wire.query(0, 1, [1, 2]))
                t.same("refused", (wire.REFUSED, b"\x02"), other.reply())
                own = other.socket.getsockname()[1]
            with Connection(port) as bad:
                bad.send(b"\xff" * 8)
                t.same("bad bytes", (wire.REFUSED, b"\x01"), bad.reply())
            time.sleep(0.3)
            close_input(it)
            status, errors = it.ended()
        t.same(f"{form}: the end", 0, status)
        if form == "json":
            entries = [json.loads(line) for line in errors.splitlines()]
        else:
            entries = [in_words(line) for line in errors.splitlines()]
        events = [entry["event"] for entry in entries]
        t.same(f"{form}: first and last", ("listening", ["stopping", "stopped"]), (events[0], events[-2:]))
        t.same(f"{form}: each comes", {"listening", "accepted", "closed", "refused", "published", "stopping", "stopped"}, set(events))
        t.same(f"{form}: times", [], [entry["time"] for entry in entries if not has_time(entry["time"])])
        t.same(f"{form}: levels", [], [e for e in entries if e["level"] != LEVELS.get(e["event"], "warn" if "what" in e else "info")])
        t.same(f"{form}: where it listens", f"127.0.0.1:{port}", entries[0]["peer"])
        of_session = [e for e in entries if e["event"] in ("accepted", "closed", "refused", "published")]
        t.same(f"{form}: sessions and peers", [], [e for e in of_session if "session" not in e or not e["peer"].startswith("127.0.0.1:")])
        t.same(f"{form}: the published version", ["2"], [str(e["code"]) for e in entries if e["event"] == "published"])
        refused = [(e["peer"].rsplit(":")[-1], str(e["code"])) for e in entries if e["event"] == "refused"]
        t.same(f"{form}: the codes of refusals", ["2", "1"], [code for _, code in refused])
        t.same(f"{form}: whose they are", str(own), refused[0][0])
        sessions = [str(e["session"]) for e in entries if e["event"] == "accepted"]
        t.same(f"{form}: the numbers of sessions", ["0", "1", "2"], sessions)
        t.holds(f"{form}: no key", wire.KEY.hex() not in errors and t.ZEROS not in errors, errors)
    with t.running("stop.pir", "--log", "json", "--quiet") as it:
        with Connection(it.port) as other:
            other.send(wire.query(0, 1, [1, 2]))
            other.reply()
        time.sleep(0.2)
        t.same("quiet: nothing of connections", ["listening"], [json.loads(line)["event"] for line in it.kill().splitlines()])
    with t.running("stop.pir", "--log", "json") as it:
        for _ in range(200):
            Connection(it.port).close()
        time.sleep(1.5)
        Connection(it.port).close()
        time.sleep(0.5)
        entries = [json.loads(line) for line in it.kill().splitlines()]
        left = [e["code"] for e in entries if e["event"] == "left_out"]
        t.holds("lines left out are counted", len(left) >= 1 and len(entries) - len(left) + sum(left) >= 390, f"{left} {len(entries)}")
        t.holds("a second has 20 lines at most", len(entries) <= 80, f"{len(entries)}")


def in_words(line):
    """A line of words as an object: its time, level and event, and then its fields."""
    when, level, event, *fields = line.split(" ")
    return {"time": when, "level": level, "event": event, **dict(field.split("=", 1) for field in fields)}


def tests(t):
    t.make("stop.pir")
    stops_with_nothing_to_do(t)
    serves_what_was_begun(t)
    gets_answer_in_the_middle(t)
    wants_what_can_be_waited_for(t)
    bounds_each_peer(t)
    says_what_happens(t)
