"""With what a draft ends: with its publication, or with the last session that edited it. `tests` takes the module with the checks: `same`, `make`, `running`."""
import struct
import time

import wire
from wire import Connection

NOTHING = (wire.REFUSED, b"\x08")
SESSION = ("--draft", "session")


def done(version):
    return (wire.DONE, struct.pack("<Q", version))


def published_by_another(port):
    """What a publisher that edits nothing is replied that publishes."""
    with Connection(port, wire.KEY) as other:
        return other.ask(wire.PUBLISH)


def rests(server):
    """A moment in which the server sees which connections have ended."""
    time.sleep(0.2)


def stays_by_default(t):
    for words in ((), ("--draft", "publication")):
        t.make("draft.pir")
        with t.running("draft.pir", *words) as it:
            with Connection(it.port, wire.KEY) as editor:
                t.same("an edit", done(1), editor.ask(wire.edit(0, b"\x63")))
            rests(it)
            t.same(f"{words}: the draft of a session that is over is published", done(2), published_by_another(it.port))


def ends_with_its_editor(t):
    t.make("draft.pir")
    with t.running("draft.pir", *SESSION) as it:
        for label, last in (("its end", b""), ("Bye", wire.BYE), ("bytes that are none", b"\xff" * 8)):
            with Connection(it.port, wire.KEY) as editor:
                t.same("an edit", done(1), editor.ask(wire.edit(0, b"\x63")))
                editor.send(last)
                if last:
                    editor.reply()
            rests(it)
            t.same(f"{label}: nothing is left to publish", NOTHING, published_by_another(it.port))
        with Connection(it.port, wire.KEY) as editor:
            t.same("an append", done(1), editor.ask(wire.append(b"\x64")))
        rests(it)
        t.same("nothing is left of an append", NOTHING, published_by_another(it.port))
        with Connection(it.port, wire.KEY) as editor:
            t.same("an edit of the appended record", (wire.REFUSED, b"\x06"), editor.ask(wire.edit(2, b"\x65")))


def ends_with_the_last_editor(t):
    t.make("draft.pir")
    with t.running("draft.pir", *SESSION) as it, Connection(it.port, wire.KEY) as watcher:
        first, second = Connection(it.port, wire.KEY), Connection(it.port, wire.KEY)
        t.same("the first's edit", done(1), first.ask(wire.edit(0, b"\x63")))
        t.same("the second's edit", done(1), second.ask(wire.edit(1, b"\x64")))
        first.close()
        rests(it)
        t.same("while the second is there the first's edit is", done(2), second.ask(wire.PUBLISH))
        with Connection(it.port, wire.READER) as reader:
            t.same("a reader sees the version", 2, struct.unpack("<Q", reader.welcome[1][11:19])[0])
        t.same("the second's next edit", done(2), second.ask(wire.edit(1, b"\x65")))
        second.close()
        rests(it)
        t.same("who edited nothing keeps no draft", NOTHING, watcher.ask(wire.PUBLISH))


def counts_what_was_accepted(t):
    t.make("draft.pir")
    with t.running("draft.pir", *SESSION) as it, Connection(it.port, wire.KEY) as refused:
        with Connection(it.port, wire.KEY) as editor:
            t.same("an edit", done(1), editor.ask(wire.edit(0, b"\x63")))
            t.same("one that is refused", (wire.REFUSED, b"\x06"), refused.ask(wire.edit(9, b"\x63")))
        rests(it)
        t.same("a session whose edit was refused keeps no draft", NOTHING, refused.ask(wire.PUBLISH))
        t.same("an edit after that", done(1), refused.ask(wire.edit(0, b"\x66")))
        t.same("and its publication", done(2), refused.ask(wire.PUBLISH))
    rests(it)


def ends_with_a_silent_editor(t):
    t.make("draft.pir")
    with t.running("draft.pir", *SESSION, "--idle", "1", "--quiet") as it:
        with Connection(it.port, wire.KEY) as editor:
            t.same("an edit", done(1), editor.ask(wire.edit(0, b"\x63")))
            t.same("who publishes beside it has its edit", done(2), published_by_another(it.port))
            t.same("another edit", done(2), editor.ask(wire.edit(0, b"\x64")))
            editor.seconds_until_closed(5)
            t.same("one that is closed as idle keeps no draft", NOTHING, published_by_another(it.port))


def tests(t):
    stays_by_default(t)
    ends_with_its_editor(t)
    ends_with_the_last_editor(t)
    counts_what_was_accepted(t)
    ends_with_a_silent_editor(t)
