"""Several equal servers behind HAProxy against one, in turn in the same run: the part of scripts/load that --replicas asks for. HAProxy's file is that of
examples/replicas, and tests/replicas/setting.py starts it and the servers."""

import contextlib
import os
import shutil
import statistics
import subprocess
import sys
import tempfile
import time

import full_store as store
import side_by_side

sys.path.insert(0, os.path.join(side_by_side.ROOT, "tests", "replicas"))
import setting

# For each server.
CLIENTS = 16
SECONDS = 3
# In each round.
PUBLICATIONS = 5
WORDS = ("--draft", "session", "--most", "1024", "--idle", "3600")


class Balanced:
    """HAProxy before servers: where clients connect, and whose time is counted."""

    def __init__(self, program, replicas):
        self.haproxy = setting.Haproxy(program, replicas)
        self.port, self.servers = self.haproxy.port, [it.process for it in replicas]

    def close(self):
        self.haproxy.close()


class Folder:
    """A publisher's folder of the store."""

    def __init__(self, room, file):
        self.dir, self.key, self.turn = os.path.join(room, "publisher"), os.path.join(room, "key"), 0
        os.mkdir(self.dir, 0o700)
        shutil.copy(file, os.path.join(self.dir, "records.pir"))
        with open(self.key, "w", encoding="ascii") as text:
            text.write(store.PUBLISHER.hex() + "\n")

    def done(self, command, *words):
        done = subprocess.run([setting.programs.publisher, command, "--dir", self.dir, *words], capture_output=True, text=True)
        if done.returncode != 0:
            side_by_side.stop(f"pir_publisher {command} failed: {done.stderr.strip()}")

    def publish(self):
        """Makes a version with another record."""
        self.turn += 1
        self.done("set", str(self.turn * 4099 % store.RECORDS), os.urandom(store.RECORD).hex())
        self.done("publish")

    def push(self, replicas):
        """How many milliseconds a push takes, from the start of the command to its end."""
        begun = time.perf_counter()
        self.done("push", "--key", f"@{self.key}", *(word for it in replicas for word in ("--to", it.address)))
        return (time.perf_counter() - begun) * 1000


def pushes(folder, replicas, rounds):
    """The milliseconds of pushes of one record to one server, and to all, in turn. All servers have the version before at each of them."""
    one, all_of_them = [], []
    for _ in range(rounds * PUBLICATIONS):
        folder.publish()
        one.append(folder.push(replicas[:1]))
        folder.push(replicas)
        folder.publish()
        all_of_them.append(folder.push(replicas))
    return one, all_of_them


def in_turn(balanced, rounds, measured):
    """The runs with 16 clients a server, by how many servers there are."""
    runs = {number: [] for number in balanced}
    for _ in range(rounds):
        for number, it in balanced.items():
            runs[number].append(measured(it, CLIENTS * number, SECONDS))
    return runs


def measure(count, rounds, measured, row, percentile):
    """Prints the tables and the wanted figures."""
    program = shutil.which("haproxy", path=f"{os.environ.get('PATH', '')}:/usr/sbin:/usr/local/sbin")
    if program is None:
        side_by_side.stop("there is no haproxy")
    setting.programs.server, setting.programs.publisher = side_by_side.in_out("pir_server"), side_by_side.in_out("pir_publisher")
    print(f"scripts/load --replicas {count} --rounds {rounds}, commit {side_by_side.commit()}, {side_by_side.machine()}, load {os.getloadavg()[0]:.1f}\n")
    with tempfile.TemporaryDirectory() as room, contextlib.ExitStack() as ends:
        setting.programs.room = room
        file, _ = store.made(setting.programs.server, room)
        folder, replicas = Folder(room, file), []
        for at in range(count):
            copy = shutil.copy(file, os.path.join(room, f"server{at}.pir"))
            replicas.append(setting.Replica(copy, WORDS))
            ends.callback(replicas[-1].kill)
        balanced = {number: Balanced(program, replicas[:number]) for number in (1, count)}
        for it in balanced.values():
            ends.callback(it.close)
        runs = in_turn(balanced, rounds, measured)
        one, all_of_them = pushes(folder, replicas, rounds)
    print("| Servers, clients | queries a second | median, ms | 99th percentile, ms | the servers' own time for one, ms |\n|---|---|---|---|---|")
    for number, found in runs.items():
        row(f"{number}, {CLIENTS * number}", found)
    print("\n| A publication of one record, pushed | median, ms | longest, ms |\n|---|---|---|")
    for name, found in (("to one", one), (f"to {count}", all_of_them)):
        print(f"| {name} | {statistics.median(found):.1f} | {max(found):.1f} |")
    print_wanted(count, runs, statistics.median(all_of_them) / statistics.median(one), percentile)


def print_wanted(count, runs, pushed, percentile):
    """Prints what is wanted of several servers, and what was found."""
    rates = [several.rate / single.rate for several, single in zip(runs[count], runs[1])]
    slow = [percentile(sum((run.took for run in runs[number]), []), 0.99) for number in (count, 1)]
    print("\n| What | wanted | found |\n|---|---|---|")
    print(f"| queries a second of {count} servers, of those of one, median of the rounds | at least {0.8 * count:.1f} | {statistics.median(rates):.2f} |")
    print(f"| the same, round by round | | {', '.join(f'{rate:.2f}' for rate in rates)} |")
    print(f"| 99th percentile with {CLIENTS} clients for each of {count} servers, of that with one | at most 1.20 | {slow[0] / slow[1]:.2f} |")
    print(f"| a publication pushed to {count}, of one pushed to one, medians | at most 1.50 | {pushed:.2f} |", flush=True)
