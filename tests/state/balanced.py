"""Servers of several versions of one store behind a balancer: what a folder that has seen a later version makes of an earlier one.
`TESTS` takes the module with the checks: `same`, `get`, `client`, `Server`."""
import os
import socket

from forwarding import Forwarder


def content(folder):
    """Each file of a folder, with its bytes and when it was written."""
    found = {}
    for name in sorted(os.listdir(folder)):
        with open(f"{folder}/{name}", "rb") as file:
            found[name] = (file.read(), os.stat(f"{folder}/{name}").st_mtime_ns)
    return found


def two_versions(t, folder, form):
    """A server of version 1 and one of version 2 of the same store, and a folder that has seen version 2."""
    records = [bytes([0, i, i]) for i in range(12)] if form == 129 else t.RECORDS
    older, newer = (t.Server(records, groups=3, form=form) for _ in range(2))
    newer.change(0, b"\1" * len(records[0]))
    wanted = t.retrieved(1, 2, records)
    t.same(f"{folder}: version 2", (0, wanted, ""), t.get(folder, newer.port, 1))
    return older, newer, records


def without_the_flag(t, folder, form):
    """The record of version 1, with a warning; and what was kept of version 2 stays."""
    older, newer, records = two_versions(t, folder, form)
    before, balancer = content(folder), Forwarder(older.port, newer.port)
    warning = "warning: version 1 after 2\n"
    for turn in range(2):
        t.same(f"{folder}, {turn}: version 1", (0, t.retrieved(1, 1, records), warning), t.get(folder, balancer.port, 1))
        t.same(f"{folder}, {turn}: one connection", 2 * turn + 1, balancer.count)
        kept = content(folder)
        t.same(f"{folder}, {turn}: the later hint stays", before, {name: kept.get(name) for name in before})
        t.same(f"{folder}, {turn}: version 2", (0, t.retrieved(1, 2, records), ""), t.get(folder, balancer.port, 1))


def with_the_flag(t, folder, form, scheme="simple"):
    """Four connections to servers of version 1 are a fault, and write nothing; of a server of version 2 among them the record is got."""
    older, newer, records = two_versions(t, folder, form)
    words = ["get", "--state", folder, "--scheme", scheme, "--least-dimension", "4", "--no-older", "--verbose", "--port"]
    greetings = 1 + (form == 129)
    before, alone = content(folder), Forwarder(older.port)
    asked = len(older.connections)
    cause = "fault: Older\ncause: 4 connections: version 1 after 2\n"
    t.same(f"{folder}: none but older ones", (3, "", cause), t.client(*words, alone.port, 1))
    t.same(f"{folder}: four connections", 4, alone.count)
    t.same(f"{folder}: greetings alone", [greetings] * 4, [len(frames) for frames in older.connections[asked:]])
    t.same(f"{folder}: nothing was written", before, content(folder))
    wanted = (0, t.retrieved(1, 2, records), "")
    for ports, count in (((1, 2), 2), ((1, 1, 2), 3), ((1, 1, 1, 2), 4), ((2, 1), 1)):
        balancer = Forwarder(*(older.port if version == 1 else newer.port for version in ports))
        t.same(f"{folder}, {ports}", wanted, t.client(*words, balancer.port, 1))
        t.same(f"{folder}, {ports}: connections", count, balancer.count)
    late = Forwarder(older.port, older.port, older.port, older.port, newer.port)
    t.same(f"{folder}: the fifth is not tried", (3, "", cause), t.client(*words, late.port, 1))
    t.same(f"{folder}: nor connected to", 4, late.count)


def beside_the_other_scheme(t, folder):
    """What one scheme has seen counts for the other."""
    older, _, records = two_versions(t, folder, 1)
    words = ["get", "--state", folder, "--least-dimension", "4", "--no-older", "--scheme"]
    t.same(f"{folder}: refused", (3, "", "fault: Older\n"), t.client(*words, "double", "--port", older.port, 1))
    fresh = f"{folder} fresh"
    got = t.client("get", "--state", fresh, "--least-dimension", "4", "--no-older", "--scheme", "double", "--port", older.port, 1)
    t.same(f"{folder}: who has seen nothing is served", (0, t.retrieved(1, 1, records), ""), got)


def gone_servers(t, folder):
    """A server that is gone is no older one: the command fails as it does without the flag."""
    older, newer, _ = two_versions(t, folder, 1)
    with socket.create_server(("127.0.0.1", 0)) as listener:
        port = listener.getsockname()[1]
    words = ["get", "--state", folder, "--scheme", "simple", "--least-dimension", "4", "--no-older", "--port"]
    t.same(f"{folder}: nobody listens", (3, "", "fault: Connect\n"), t.client(*words, port, 1))
    t.same(f"{folder}: and then", (0, t.retrieved(1, 2), ""), t.client(*words, Forwarder(older.port, newer.port).port, 1))


def older_ones_behind_a_balancer(t):
    for form in (1, 129):
        without_the_flag(t, f"balanced {form}", form)
        with_the_flag(t, f"none older {form}", form)
    with_the_flag(t, "none older, auto", 1, "auto")
    beside_the_other_scheme(t, "seen by another scheme")
    gone_servers(t, "gone servers")


TESTS = (older_ones_behind_a_balancer,)
