"""A server's process and its connections, frame by frame, for tests and load."""
import os
import resource
import signal
import socket
from socket import SO_LINGER, SO_RCVBUF, SOL_SOCKET
import struct
import subprocess
import time

KEY, OTHER_KEY, READER = bytes([1]) * 32, bytes([2]) * 32, bytes(32)
PUBLISH, BYE = struct.pack("<IB", 0, 0x07), struct.pack("<IB", 0, 0x08)
WELCOME, HINT_PART, DELTA, ANSWER, STALE, DONE, NO_DELTA, CHANGES, REFUSED = 0x82, 0x83, 0x84, 0x85, 0x86, 0x87, 0x88, 0x8A, 0x8F


def frame(kind, payload):
    return struct.pack("<IB", len(payload), kind) + payload


def hello(key=READER, profile=1):
    return frame(0x02, struct.pack("<H32s", profile, key))


def hint_ask(scheme, version, part):
    return frame(0x03, struct.pack("<BQI", scheme, version, part))


def delta_ask(since):
    return frame(0x04, struct.pack("<Q", since))


def changes_ask(since):
    return frame(0x0A, struct.pack("<Q", since))


def query(scheme, version, words):
    return frame(0x05, struct.pack(f"<BQ{len(words)}I", scheme, version, *words))


def edit(index, record):
    return frame(0x06, struct.pack("<I", index) + record)


def append(record):
    return frame(0x09, record)


class Connection:
    """One connection to a server."""

    def __init__(self, port, key=None, host="127.0.0.1", timeout=20.0):
        self.socket = socket.create_connection((host, port), timeout=timeout)
        self.socket.setsockopt(socket.IPPROTO_TCP, socket.TCP_NODELAY, 1)
        self.welcome = None
        if key is not None:
            self.welcome = self.ask(hello(key))

    def __enter__(self):
        return self

    def __exit__(self, *_):
        self.close()

    def close(self):
        self.socket.close()

    def send(self, data):
        self.socket.sendall(data)

    def exactly(self, count):
        """So many bytes, or those until the end."""
        got = bytearray()
        while len(got) < count:
            more = self.socket.recv(min(count - len(got), 1 << 20))
            if not more:
                break
            got += more
        return bytes(got)

    def reply(self):
        """The next frame's kind and payload; None at the end, in whatever way it comes."""
        try:
            head = self.exactly(5)
            if len(head) < 5:
                return None
            count, kind = struct.unpack("<IB", head)
            payload = self.exactly(count)
        except (ConnectionError, BrokenPipeError):
            return None
        return (kind, payload) if len(payload) == count else None

    def ask(self, data):
        self.send(data)
        return self.reply()

    def seconds_until_closed(self, most):
        """How long the server keeps the connection, of which nothing is read before; None where it is open at the end."""
        begun = time.monotonic()
        self.socket.settimeout(most)
        try:
            while self.socket.recv(1 << 16):
                if time.monotonic() - begun > most:
                    return None
        except socket.timeout:
            return None
        except OSError:
            pass
        return time.monotonic() - begun


class Server:
    """A server's process, which listens."""

    def __init__(self, program, *words, prepare=None, keep_signals=False, errors=subprocess.PIPE, more=None, passed=(), stdin=subprocess.DEVNULL):
        self.process = subprocess.Popen(
            [program, *words],
            stdin=stdin,
            stdout=subprocess.PIPE,
            stderr=errors,
            preexec_fn=prepare,
            pass_fds=passed,
            env={**os.environ, **(more or {})},
            # Python ignores SIGXFSZ, and a process that is to see that a file is too large needs it
            # ignored, too.
            restore_signals=not keep_signals,
        )
        self.line = self.process.stdout.readline().decode().strip()
        self.port = int(self.line.rsplit(":", 1)[-1].split()[-1]) if self.line.startswith("listening ") else 0

    def __enter__(self):
        return self

    def __exit__(self, *_):
        self.kill()

    def kill(self):
        """Ends it at once, and answers what it printed on standard error."""
        if self.process.poll() is None:
            self.process.send_signal(signal.SIGKILL)
        return self.ended()[1]

    def ended(self, seconds=30):
        """Waits for its end: the status, and what it printed on standard error."""
        if self.process.stdout.closed:
            return self.process.returncode, ""
        _, errors = self.process.communicate(timeout=seconds)
        self.process.stdout.close()
        if self.process.stderr:
            self.process.stderr.close()
        return self.process.returncode, (errors or b"").decode()

    def memory(self, name="VmHWM"):
        """Bytes of memory: VmHWM is the most that it had, VmRSS what it has."""
        with open(f"/proc/{self.process.pid}/status", encoding="utf-8") as lines:
            for line in lines:
                if line.startswith(name + ":"):
                    return int(line.split()[1]) * 1024
        return 0


def files_limited_to(count):
    """What a process does before it begins so that its files have at most so many bytes, until `let_have_more`."""

    def prepare():
        resource.setrlimit(resource.RLIMIT_FSIZE, (count, resource.getrlimit(resource.RLIMIT_FSIZE)[1]))

    return prepare


def let_have_more(process):
    """Takes the limit of `files_limited_to` from a process."""
    most = resource.prlimit(process.pid, resource.RLIMIT_FSIZE)[1]
    resource.prlimit(process.pid, resource.RLIMIT_FSIZE, (most, most))


def descriptors_limited_to(count):
    """What a process does before it begins so that it may have at most so many descriptors, or as many as the system lets it."""

    def prepare():
        _, hard = resource.getrlimit(resource.RLIMIT_NOFILE)
        most = count if hard == resource.RLIM_INFINITY else min(count, hard)
        resource.setrlimit(resource.RLIMIT_NOFILE, (most, hard))

    return prepare


def is_connected(port, connection):
    """Whether a server still has its end of a connection, as the system says it."""
    local = f":{port:04X}"
    own = f":{connection.getsockname()[1]:04X}"
    with open("/proc/net/tcp", encoding="ascii") as lines:
        for line in list(lines)[1:]:
            _, here, there, state = line.split()[:4]
            if here.endswith(local) and there.endswith(own):
                return state == "01"
    return False


def as_nobody():
    """What a process does before it begins to be a user who may write nowhere else, where this one is root."""
    if os.geteuid() == 0:
        os.setgroups([])
        os.setgid(65534)
        os.setuid(65534)
