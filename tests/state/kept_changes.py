"""The file of changes beside a kept hint of a wide store: its bytes, what a `get` makes of it, and what becomes of it when it is cut, damaged, held, or
of another hint."""
import fcntl
import hashlib
import os
import random
import shutil
import struct
import subprocess
import time

GROUPS = 120
HEAD = 72


def records_of(count):
    return [bytes([i % 256, 99 - i % 100, i // 256 + 1]) for i in range(count)]


def wide_server(t, count=300):
    """A wide store of three columns, and its records. An eighth of its hint has some hundreds of bytes."""
    return t.Server(records_of(count), n=4, groups=GROUPS, form=129)


def name_of(t, server):
    return f"{t.hint_name(server)}.changes"


def current(server):
    return server.store.versions[-1]


def records_at(server, version):
    return server.store.stored(version)


def entries_between(server, old, new):
    """The entries of a frame Changes, by the records of two versions alone."""
    before, after = records_at(server, old), records_at(server, new)
    blank = bytes(len(after[0]))
    entries = b""
    for i, data in enumerate(after):
        was = before[i] if i < len(before) else blank
        if was != data:
            entries += struct.pack("<I", i) + was + data
    return entries


def changes_file(t, server, hint_version, versions):
    """The file of changes beside the file of the hint of a version, moved from each of these versions to the next."""
    front, _ = t.hint_fields(server, hint_version)
    front = front[:41] + struct.pack("<I", len(records_at(server, hint_version))) + front[45:]
    digest = hashlib.sha256(b"PIRHINT3" + front).digest()
    link = hashlib.sha256(b"PIRMOVE1" + digest).digest()
    data = b"PIRMOVE1" + digest + link
    for old, new in zip([hint_version, *versions], versions):
        entries = entries_between(server, old, new)
        body = struct.pack("<QQII", old, new, len(records_at(server, new)), len(entries)) + entries
        link = hashlib.sha256(link + body).digest()
        data += body + link
    return data


def wanted(server, *indices):
    version = server.store.version()
    return "".join(f"retrieved {i} {version} {records_at(server, version)[i].hex()}\n" for i in indices)


def change(server, changes, appended=()):
    for index, data in changes.items():
        server.store.edit(index, data)
    for data in appended:
        server.store.append(data)
    server.store.publish()


def changes_are_added_beside_the_hint(t):
    server, folder = wide_server(t), "beside"
    same, moved, again = t.same, [t.HELLO, t.HELLO, t.CHANGES_ASK, t.QUERY], [t.HELLO, t.HELLO, t.QUERY]
    t.get(folder, server.port, 5)
    hint, versions = t.read(folder, t.hint_name(server)), []
    # Record 5 shares its rows with records 125 and 245, and 6 with none of these.
    for changes, appended in (
        ({5: b"one"}, ()), ({125: b"two", 6: b"six"}, ()), ({}, (b"new", b"end")), ({300: b"ed!"}, ()), ({300: b"ed!"}, ()), ({5: b"1st"}, ()),
    ):  # fmt: skip
        change(server, changes, appended)
        versions.append(server.store.version())
        for index in (5, 125, 245, 6, 7, len(current(server)) - 1):
            same(f"record {index} in version {versions[-1]}", (0, wanted(server, index), ""), t.get(folder, server.port, index))
            same(f"frames of {index}", moved if index == 5 else again, server.last())
        same(f"the hint at {versions[-1]}", hint, t.read(folder, t.hint_name(server)))
        same(f"the changes at {versions[-1]}", changes_file(t, server, 1, versions), t.read(folder, name_of(t, server)))
    same("mode", 0o600, os.stat(f"{folder}/{name_of(t, server)}").st_mode & 0o777)
    count = len(current(server))
    lines = f"hint simple {versions[-1]}\nversion {versions[-1]}\nrecords {count}\ndimension 4\n"
    same("state", (0, lines, ""), t.client("state", "--state", folder))
    same("several", (0, wanted(server, 5, 301, 0), ""), t.get(folder, server.port, 5, 301, 0))
    same("no such record", (3, "", "fault: BadIndex\n"), t.get(folder, server.port, count))
    same("its frames", [t.HELLO, t.HELLO], server.last())
    same("forget", (0, "forgotten\n", ""), t.client("forget", "--state", folder))
    same("nothing is left", [], os.listdir(folder))


def long_changes_are_folded(t):
    server, folder = wide_server(t), "folded"
    t.get(folder, server.port, 5)
    most = HEAD + 4 * 4 * server.store.layout.rows // 8
    random.seed(7)
    base, versions = 1, []
    for turn in range(30):
        change(server, {random.randrange(300): bytes([turn, 1, k]) for k in range(5)})
        version = server.store.version()
        versions.append(version)
        folds = len(changes_file(t, server, base, versions)) > most
        t.same(f"turn {turn}", (0, wanted(server, 8), ""), t.get(folder, server.port, 8))
        t.same(f"turn {turn}: frames", [t.HELLO, t.HELLO, t.CHANGES_ASK, t.QUERY], server.last())
        if folds:
            base, versions = version, []
        t.same(f"turn {turn}: the hint", t.hint_file(server, base), t.read(folder, t.hint_name(server)))
        there = os.path.exists(f"{folder}/{name_of(t, server)}")
        t.same(f"turn {turn}: changes beside it", not folds, there)
        if there:
            t.same(f"turn {turn}: the changes", changes_file(t, server, base, versions), t.read(folder, name_of(t, server)))
    t.holds("some were folded", base > 1)


def old_hints_are_fetched_anew(t):
    server, folder = wide_server(t), "old"
    t.get(folder, server.port, 5)
    for turn in range(16):
        change(server, {9: bytes([turn, 2, 3])})
    t.same("16 publications", (0, wanted(server, 9), ""), t.get(folder, server.port, 9))
    t.same("its frames", [t.HELLO, t.HELLO, t.CHANGES_ASK, t.QUERY], server.last())
    t.same("its changes", changes_file(t, server, 1, [17]), t.read(folder, name_of(t, server)))
    for turn in range(17):
        change(server, {9: bytes([turn, 3, 4])})
    t.same("17 publications", (0, wanted(server, 9), ""), t.get(folder, server.port, 9))
    t.same("its frames", [t.HELLO, t.HELLO, t.CHANGES_ASK, t.HINT_ASK, t.QUERY], server.last())
    t.same("its hint", t.hint_file(server, 34), t.read(folder, t.hint_name(server)))
    t.same("no changes beside it", False, os.path.exists(f"{folder}/{name_of(t, server)}"))


def moved_folder(t, server, folder):
    """A folder with two blocks of changes beside its hint."""
    t.get(folder, server.port, 5)
    for data in (b"one", b"two"):
        change(server, {5: data, 7: data})
        t.get(folder, server.port, 5)
    return t.read(folder, name_of(t, server))


def damaged_changes_are_asked_for_again(t):
    server, folder = wide_server(t), "damaged changes"
    whole = moved_folder(t, server, folder)
    first = len(changes_file(t, server, 1, [2]))
    moved = [t.HELLO, t.HELLO, t.CHANGES_ASK, t.QUERY]
    # A cut or a changed byte leaves the blocks before it; the rest is asked for as one block.
    spoilt = [(f"cut at {n}", whole[:n], n) for n in range(len(whole))]
    spoilt += [(f"byte {n}", t.changed(whole, n), n) for n in range(len(whole))]
    for label, data, n in spoilt:
        t.write(folder, name_of(t, server), data)
        t.same(label, (0, wanted(server, 5), ""), t.get(folder, server.port, 5))
        t.same(f"{label}: frames", moved, server.last())
        t.same(f"{label}: since", (2 if n >= first else 1,), tuple(server.connections[-1][2][1]))
        t.same(f"{label}: after it", changes_file(t, server, 1, [2, 3] if n >= first else [3]), t.read(folder, name_of(t, server)))
    for label, more in (("more bytes", b"\0" * 100), ("a block twice", whole[first:])):
        t.write(folder, name_of(t, server), whole + more)
        t.same(label, (0, wanted(server, 5), ""), t.get(folder, server.port, 5))
        t.same(f"{label}: frames", [t.HELLO, t.HELLO, t.QUERY], server.last())


def changes_of_another_hint_move_nothing(t):
    server, folder = wide_server(t), "another hint"
    whole = moved_folder(t, server, folder)
    os.rename(f"{folder}/{t.hint_name(server)}", "hint of version 1")
    os.remove(f"{folder}/{name_of(t, server)}")
    t.get(folder, server.port, 5)
    t.write(folder, name_of(t, server), whole)
    t.same("beside a later hint", (0, wanted(server, 5), ""), t.get(folder, server.port, 5))
    t.same("its frames", [t.HELLO, t.HELLO, t.QUERY], server.last())
    change(server, {5: b"six"})
    t.same("moved on", (0, wanted(server, 5), ""), t.get(folder, server.port, 5))
    t.same("its changes", changes_file(t, server, 3, [4]), t.read(folder, name_of(t, server)))
    # A hint put back is of its own version again.
    os.rename("hint of version 1", f"{folder}/{t.hint_name(server)}")
    t.same("the hint of before", (0, wanted(server, 5), ""), t.get(folder, server.port, 5))
    t.same("its frames", [t.HELLO, t.HELLO, t.CHANGES_ASK, t.QUERY], server.last())
    t.same("its changes", changes_file(t, server, 1, [4]), t.read(folder, name_of(t, server)))


def changes_that_cannot_be_kept(t):
    server, folder = wide_server(t), "not kept"
    whole = moved_folder(t, server, folder)
    file = f"{folder}/{name_of(t, server)}"
    with open(f"{file}.lock", "w") as held:
        fcntl.flock(held, fcntl.LOCK_EX)
        change(server, {5: b"abc"})
        t.same("while another run adds", (0, wanted(server, 5), ""), t.get(folder, server.port, 5))
        t.same("nothing is added", whole, t.read(folder, name_of(t, server)))
    os.remove(file)
    os.mkdir(file)
    warning = "warning: the hint can't be kept\n"
    t.same("a folder in its place", (0, wanted(server, 5), warning), t.get(folder, server.port, 5))
    os.rmdir(file)
    t.same("and then none", (0, wanted(server, 5), ""), t.get(folder, server.port, 5))
    t.same("its changes", changes_file(t, server, 1, [4]), t.read(folder, name_of(t, server)))


def damaged_rows_are_asked_over(t):
    server, folder = wide_server(t), "damaged rows"
    moved_folder(t, server, folder)
    name = t.hint_name(server)
    t.write(folder, name, t.changed(t.read(folder, name), 118 + 32 + 5))
    said = t.get(folder, server.port, 5)
    t.same("damaged rows", (3, ""), said[:2])
    t.holds("its fault", said[2].startswith("fault: Damaged"))
    t.same("its frames", [t.HELLO, t.HELLO, t.QUERY], server.last())
    t.same("both files are dropped", [], [file for file in os.listdir(folder) if not file.endswith(".lock")])
    t.same("and fetched anew", (0, wanted(server, 5), ""), t.get(folder, server.port, 5))


def killed_runs_leave_a_hint(t):
    """A run that is killed at any moment, while it adds or folds, leaves what the next one moves on."""
    server, folder = wide_server(t), "killed folding"
    t.get(folder, server.port, 5)
    random.seed(11)
    for turn in range(60):
        change(server, {random.randrange(300): bytes([turn, 5, k]) for k in range(6)})
        run = subprocess.Popen(
            [t.CLIENT, "get", "--state", folder, "--port", str(server.port), "--scheme", "simple", "--least-dimension", "4", "5"],
            stdout=subprocess.DEVNULL, stderr=subprocess.DEVNULL,
        )  # fmt: skip
        time.sleep(random.random() * 0.012)
        run.kill()
        run.wait()
        if turn % 2:
            index = random.randrange(300)
            t.same(f"after kill {turn}", (0, wanted(server, index), ""), t.get(folder, server.port, index))


def stale_answers_move_the_kept_hint(t):
    """A publication between the greeting and a query: the kept hint is moved once more in the same run, by an edit or an appended record."""
    due = []

    def before(store, kind):
        if kind == t.QUERY and due:
            due.pop()(store)
            store.publish()

    server, folder = t.Server(records_of(300), n=4, groups=GROUPS, form=129, before=before), "stale kept"
    t.get(folder, server.port, 5)
    versions = []
    for label, act in (("edited", lambda store: store.edit(5, b"one")), ("appended", lambda store: store.append(b"new"))):
        due.append(act)
        done = t.get(folder, server.port, 5, 7)
        versions.append(server.store.version())
        t.same(f"{label} meanwhile", (0, wanted(server, 5, 7), ""), done)
        t.same(f"{label}: frames", [t.HELLO, t.HELLO, t.QUERY, t.CHANGES_ASK, t.QUERY, t.QUERY], server.last())
        t.same(f"{label}: the changes", changes_file(t, server, 1, versions), t.read(folder, name_of(t, server)))
    t.same("the appended record", (0, wanted(server, 300), ""), t.get(folder, server.port, 300))


def other_schemes_and_stores_have_no_changes(t):
    """DoublePIR's hint, and those of ordinary stores, are replaced whole."""
    server = wide_server(t)
    t.get("double", server.port, 5, scheme="double")
    change(server, {5: b"two"})
    t.same("by DoublePIR", (0, wanted(server, 5), ""), t.get("double", server.port, 5, scheme="double"))
    t.same("its frames", [t.HELLO, t.HELLO, t.HINT_ASK, t.QUERY], server.last())
    ordinary = t.Server(records_of(300), n=4, groups=GROUPS)
    t.get("ordinary", ordinary.port, 5)
    change(ordinary, {5: b"two"})
    t.same("of an ordinary store", (0, wanted(ordinary, 5), ""), t.get("ordinary", ordinary.port, 5))
    t.same("its frames", [t.HELLO, t.DELTA_ASK, t.QUERY], ordinary.last())
    for folder in ("double", "ordinary"):
        t.same(f"{folder}: no changes", [], [name for name in os.listdir(folder) if "changes" in name])


def runs_side_by_side_keep_one_chain(t):
    server, folder = wide_server(t), "side by side"
    t.get(folder, server.port, 5)
    for turn in range(12):
        change(server, {5: bytes([turn, 6, 6])})
        words = [t.CLIENT, "get", "--state", folder, "--port", str(server.port), "--scheme", "simple", "--least-dimension", "4", "5"]
        runs = [subprocess.Popen(words, stdout=subprocess.PIPE, stderr=subprocess.STDOUT, text=True) for _ in range(4)]
        t.same(f"turn {turn}", {wanted(server, 5)}, {run.communicate(timeout=60)[0] for run in runs})
        t.same(f"turn {turn}: and then", (0, wanted(server, 5), ""), t.get(folder, server.port, 5))
        t.same(f"turn {turn}: frames", [t.HELLO, t.HELLO, t.QUERY], server.last())
    shutil.copytree(folder, "copied")
    t.same("a copy", (0, wanted(server, 9), ""), t.get("copied", server.port, 9))


TESTS = (
    changes_are_added_beside_the_hint, long_changes_are_folded, old_hints_are_fetched_anew, damaged_changes_are_asked_for_again,
    changes_of_another_hint_move_nothing, changes_that_cannot_be_kept, damaged_rows_are_asked_over, killed_runs_leave_a_hint,
    stale_answers_move_the_kept_hint, other_schemes_and_stores_have_no_changes, runs_side_by_side_keep_one_chain,
)  # fmt: skip
