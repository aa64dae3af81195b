"""What a server does for others while it makes long answers, which it makes in steps. `tests` takes the module with the checks: `same`, `holds`, `run`,
`running`, `publish`."""
import random
import statistics
import struct
import threading
import time

import wire
from wire import Connection

# 64 digits to a record.
RECORD, WIDTH = 80, 10
DIGITS = RECORD * 8 // WIDTH


class Asking:
    """How several clients ask for long answers of a scheme, of a store with so many records to a column."""

    def __init__(self, scheme, groups, columns, clients, times):
        self.scheme, self.groups, self.columns, self.clients, self.times = scheme, groups, columns, clients, times
        self.count = groups * columns
        self.words = columns if scheme == 0 else columns + DIGITS * groups * DIGITS

    def query(self, number, version=1):
        """A query: the server answers any words."""
        return wire.query(self.scheme, version, struct.unpack(f"<{self.words}I", random.Random(number).randbytes(4 * self.words)))


# By DoublePIR each digit of a record has a part of the query, and a pass over 2,048 rows, for itself. By SimplePIR an answer
# takes two steps, since it is made of more than 2^23 digits, and up to four clients have theirs in the same ones.
DOUBLE = Asking(scheme=1, groups=32, columns=64, clients=4, times=3)
SIMPLE = Asking(scheme=0, groups=64, columns=2100, clients=7, times=20)


def connected(port):
    return Connection(port, wire.READER, timeout=60)


def made(t, asking, name):
    words = ["--width", str(WIDTH), "--record", str(RECORD), "--groups", str(asking.groups), "--seed", t.ZEROS, "--key", t.KEY]
    records = random.Random(0).randbytes(asking.count * RECORD)
    t.same("make a store with long answers", (0, f"made {asking.count} 1", ""), t.run(t.SERVER, "make", "--out", name, *words, data=records))


def one_at_a_time(t, asking, port):
    """The replies to one query of each client, asked one after another, and how long a whole one took."""
    replies, took = [], []
    with connected(port) as it:
        for number in range(asking.clients):
            begun = time.monotonic()
            replies.append(it.ask(asking.query(number)))
            took.append(time.monotonic() - begun)
    t.same("they are answers", [wire.ANSWER] * asking.clients, [reply and reply[0] for reply in replies])
    return replies, statistics.median(took)


def asks_again(port, asking, number, wanted, found):
    """Asks a query again and again: how many replies are those that are wanted."""
    query = asking.query(number)
    with connected(port) as it:
        found[number] = sum(it.ask(query) == wanted for _ in range(asking.times))


def threads_of(asking, port, alone, found):
    return [threading.Thread(target=asks_again, args=(port, asking, number, alone[number], found)) for number in range(asking.clients)]


def answers_together(t, asking, port, alone):
    """Several ask at once again and again, and each gets the answers that it got alone."""
    found = {}
    threads = threads_of(asking, port, alone, found)
    for thread in threads:
        thread.start()
    for thread in threads:
        thread.join()
    t.same("the same answers at once", [asking.times] * asking.clients, [found.get(number) for number in range(asking.clients)])


def waits_for_a_step(t, asking, port, alone, whole):
    """Several ask for long answers at once, and one for a part of a hint again and again: that one waits for a step of an answer, and not for all of it."""
    found = {}
    threads = threads_of(asking, port, alone, found)
    with connected(port) as it:
        part, took, same = it.ask(wire.hint_ask(0, 1, 0)), [], True
        for thread in threads:
            thread.start()
        while any(thread.is_alive() for thread in threads):
            begun = time.monotonic()
            same = it.ask(wire.hint_ask(0, 1, 0)) == part and same
            took.append(time.monotonic() - begun)
    for thread in threads:
        thread.join()
    t.same("the same answers at once", [asking.times] * asking.clients, [found.get(number) for number in range(asking.clients)])
    t.holds("the same parts meanwhile", same and part and part[0] == wire.HINT_PART)
    median, longest = statistics.median(took), sorted(took)[-2:]
    times = f"a long answer takes {whole:.3f} s, a part of a hint beside {asking.clients} of them {median:.3f}, and at the longest {longest[-1]:.3f} and {longest[0]:.3f}"
    print(times, flush=True)
    t.holds("a part waits for less than half an answer", median < whole / 2, times)
    # One may be held up by the machine.
    t.holds("it waits for no whole one", longest[0] < whole, times)


def is_hindered_by_nobody(t, asking, port, alone):
    """A query whose last byte never comes, one whose client goes away before that, and one whose client goes away before its answer."""
    query = asking.query(0)
    with connected(port) as late:
        late.send(query[:-1])
        for sent in (query[:-1], query):
            gone = connected(port)
            gone.send(sent)
            time.sleep(0.05)
            gone.close()
        with connected(port) as it:
            t.same("an answer beside those that are cut", alone[1], it.ask(asking.query(1)))
        t.same("the query whose last byte came late", alone[0], late.ask(query[-1:]))


def publishes_meanwhile(t, asking, port, alone):
    """A publication while long answers are made: each query gets its answer or is stale, and each one after it is stale."""
    stale = (wire.STALE, struct.pack("<QI", 2, asking.count))
    several = [connected(port) for _ in range(asking.clients)]
    senders = [threading.Thread(target=it.send, args=(asking.query(number),)) for number, it in enumerate(several)]
    for thread in senders:
        thread.start()
    for thread in senders:
        thread.join()
    t.same("published meanwhile", 2, t.publish(port, bytes(RECORD)))
    replies = [it.reply() for it in several]
    t.same("what became of the queries", [], [reply[0] for reply, wanted in zip(replies, alone) if reply not in (wanted, stale)])
    t.same("the queries after it", [stale] * asking.clients, [it.ask(asking.query(number)) for number, it in enumerate(several)])
    one = several[0].ask(asking.query(0, 2))
    t.same("a query of the new version", (wire.ANSWER, struct.pack("<BQ", asking.scheme, 2)), (one[0], one[1][:9]))
    t.holds("its answer is another", one[1][9:] != alone[0][1][9:])
    for it in several:
        it.close()


def tests(t):
    made(t, DOUBLE, "long.pir")
    with t.running("long.pir") as it:
        alone, whole = one_at_a_time(t, DOUBLE, it.port)
        waits_for_a_step(t, DOUBLE, it.port, alone, whole)
        is_hindered_by_nobody(t, DOUBLE, it.port, alone)
        publishes_meanwhile(t, DOUBLE, it.port, alone)
        t.same("nothing is reported", [], [line for line in it.kill().splitlines() if line not in ("connection: Read", "connection: Write")])
    made(t, SIMPLE, "together.pir")
    with t.running("together.pir") as it:
        alone, _ = one_at_a_time(t, SIMPLE, it.port)
        answers_together(t, SIMPLE, it.port, alone)
        is_hindered_by_nobody(t, SIMPLE, it.port, alone)
        publishes_meanwhile(t, SIMPLE, it.port, alone)
        t.same("nothing is reported there", [], [line for line in it.kill().splitlines() if line not in ("connection: Read", "connection: Write")])
