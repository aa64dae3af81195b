"""A forwarder before servers, for tests without a balancer."""
import contextlib
import socket
import threading


class Forwarder:
    """Passes on bytes between clients and the servers of these ports, which it takes in turn, over those that are down. `count` is how many it took."""

    kind = "a forwarder"

    def __init__(self, *ports):
        self.ports, self.count = ports, 0
        self.listener = socket.create_server(("127.0.0.1", 0), backlog=256)
        self.port = self.listener.getsockname()[1]
        threading.Thread(target=self.listen, daemon=True).start()

    def listen(self):
        while True:
            try:
                stream, _ = self.listener.accept()
            except OSError:
                return
            server = self.next_server()
            if server is None:
                stream.close()
                continue
            for source, sink in ((stream, server), (server, stream)):
                threading.Thread(target=pump, args=(source, sink), daemon=True).start()

    def next_server(self):
        """A connection to the next server that is there; None if none is."""
        for _ in self.ports:
            port = self.ports[self.count % len(self.ports)]
            self.count += 1
            try:
                return socket.create_connection(("127.0.0.1", port))
            except OSError:
                pass
        return None

    def close(self):
        self.listener.close()


def pump(source, sink):
    try:
        while piece := source.recv(65_536):
            sink.sendall(piece)
        sink.shutdown(socket.SHUT_WR)
    except OSError:
        # One end is gone, of a server that was killed with bytes unread, say: the other one must
        # not wait for it.
        for end in (source, sink):
            with contextlib.suppress(OSError):
                end.shutdown(socket.SHUT_RDWR)
