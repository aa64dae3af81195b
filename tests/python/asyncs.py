"""The tests of `vulandrai.AsyncClient`, which tests/python/run calls, with what that has for all tests."""
import asyncio
import os
import socket
import threading
import time

import __main__ as tools
from __main__ import KEY, Proxy, Running, made, same


async def raises(name, fault, awaited):
    try:
        await awaited
    except fault:
        same(name, fault.__name__, fault.__name__)
    except BaseException as other:  # any other is a failure, and is named
        same(name, fault.__name__, type(other).__name__)
    else:
        same(name, fault.__name__, "nothing raised")


async def gets_and_publishes(vulandrai, port, scheme):
    faults = vulandrai.faults
    async with vulandrai.AsyncClient("127.0.0.1", port, key=KEY, scheme=scheme) as client:
        same("known", vulandrai.Known(1, 2, 1, 1, 1024), client.known)
        same("get", b"\xc8", await client.get(1))
        same("retrieve", vulandrai.Record(0, 1, b"\x0a"), await client.retrieve(0))
        same("next_number", 2, client.next_number)
        await client.edit(1, b"d")
        await client.append(b"\x05")
        same("publish", 2, await client.publish())
        same("after a stale query", vulandrai.Record(1, 2, b"d"), await client.retrieve(1))
        same("what was appended", b"\x05", await client.get(2))
        same("sync", 2, await client.sync())
        await raises("an index too large", faults.BadIndex, client.get(3))
        await raises("nothing to publish", faults.Refused, client.publish())
        same("it goes on after a refusal", b"\x0a", await client.get(0))
    await raises("a closed client", faults.Closed, client.get(0))
    client = await vulandrai.AsyncClient("127.0.0.1", port)
    same("connected without a block", b"d", await client.get(1))
    await client.close()
    await client.close()
    client = vulandrai.AsyncClient("127.0.0.1", port)
    same("connected by its first call", b"d", await client.get(1))
    await client.close()


async def shares(vulandrai, proxy, records):
    """Tasks that share a client, and the loop goes on meanwhile."""
    turns = 0

    async def turning():
        nonlocal turns
        while True:
            turns += 1
            await asyncio.sleep(0)

    beside = asyncio.ensure_future(turning())
    async with vulandrai.AsyncClient("127.0.0.1", proxy.port) as client:
        got = await asyncio.gather(*(client.get(7 * turn % len(records)) for turn in range(40)))
    beside.cancel()
    same("each task's record", [records[7 * turn % len(records)] for turn in range(40)], [it[0] for it in got])
    same("all were asked for", 40, len(proxy.queries()))
    same("no two queries of tasks are alike", 40, len({query[0] for query in proxy.queries()}))
    same("the loop went on", True, turns > 40)


async def fails(vulandrai, proxy, port):
    faults = vulandrai.faults
    with socket.create_server(("127.0.0.1", 0)) as silent:
        begun = time.monotonic()
        at = silent.getsockname()[1]
        await raises("a silent server", TimeoutError, vulandrai.AsyncClient("127.0.0.1", at, timeout=0.2)._connected())
        same("in time", True, time.monotonic() - begun < 5)
    client = await vulandrai.AsyncClient("127.0.0.1", proxy.port)
    await client.get(1)
    proxy.is_silent = True
    waiting = asyncio.ensure_future(client.get(0))
    await asyncio.sleep(0.2)
    waiting.cancel()
    await raises("a call that is cancelled", asyncio.CancelledError, waiting)
    await raises("closes the client", faults.Closed, client.get(0))
    proxy.is_silent = False
    await raises("no server", OSError, vulandrai.AsyncClient("127.0.0.1", 1)._connected())
    client = await vulandrai.AsyncClient("127.0.0.1", port)

    def used():
        try:
            client.get(0).send(None)
        except StopIteration:
            pass

    same("a client after a fork", 0, tools.forked(used, faults.Forked))
    same("is closed there at once", 0, tools.forked(lambda: asyncio.new_event_loop().run_until_complete(client.close())))
    same("its maker goes on", b"\x0a", (await client.get(0))[:1])
    await client.close()


async def keeps_hints(vulandrai, room, port, before):
    """A folder of hints, progress in the loop's thread, and a server of an older version."""
    folder, come, threads = f"{room}/asyncs", [], set()

    def told(*it):
        come.append(it)
        threads.add(threading.get_ident())

    words = {"hints": folder, "key": KEY, "progress": told}
    async with vulandrai.AsyncClient("127.0.0.1", port, **words) as client:
        await client.edit(0, b"\x0b")
        await client.publish()
        same("get", b"\x0b", await client.get(0))
    same("all of a hint came", True, come[-1][0] == come[-1][1] and sorted(come) == come)
    same("in the loop's thread", {threading.get_ident()}, threads)
    come.clear()
    async with vulandrai.AsyncClient("127.0.0.1", port, **words) as client:
        same("get with the hint kept", b"\x0b", await client.get(0))
    same("nothing came", [], come)
    with Running(before) as other:
        proxy = Proxy(other)
        client = vulandrai.AsyncClient("127.0.0.1", proxy.port, hints=folder, no_older=True)
        await raises("an older server", vulandrai.faults.Older, client._connected())
        same("after four connections", 4, len(proxy.frames))


def all_of_them(vulandrai, room):
    records = bytes(range(100, 120))
    for scheme in vulandrai.Scheme:
        with Running(made(f"{room}/async{scheme}.pir", 1, b"\x0a\xc8")) as port:
            asyncio.run(gets_and_publishes(vulandrai, port, scheme))
    with Running(made(f"{room}/shared.pir", 1, records)) as port:
        asyncio.run(shares(vulandrai, Proxy(port), records))
    with Running(f"{room}/two.pir") as port:
        asyncio.run(fails(vulandrai, Proxy(port), port))
    file, before = made(f"{room}/kept.pir", 1, b"\x0a\xc8"), f"{room}/kept before.pir"
    with open(file, "rb") as first, open(before, "wb") as second:
        second.write(first.read())
    with Running(file) as port:
        asyncio.run(keeps_hints(vulandrai, room, port, before))
    same("a folder with two files", 2, len(os.listdir(f"{room}/asyncs")))
