"""Private information retrieval: a client gets a record without the server learning which.

The client and the server are proved, and called from here through their C interface: `Client` over
a socket, `AsyncClient` over a connection of asyncio, `ServerCore` over bytes. Nothing of this
package itself is proved. Each refusal is an exception with a name of its own, in
`vulandrai.faults`, which says what to do.

    with Client("127.0.0.1", 7000, hints="hints") as client:
        print(client.get(5))

    async with AsyncClient("127.0.0.1", 7000, hints="hints") as client:
        print(await client.get(5))

`python -m vulandrai --help` has the same as commands.
"""
from . import faults
from ._library import library_version
from .async_client import AsyncClient
from .client import Client
from ._session import Known, Record, Scheme
from .faults import VulandraiError
from .server import ServerCore

__version__ = "0.2.0"
__all__ = ["AsyncClient", "Client", "Known", "Record", "Scheme", "ServerCore", "VulandraiError", "faults", "library_version"]
