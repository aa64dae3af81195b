"""Scripts of a world by docs/FORMATS.md: what `rehearse` prints, and its status."""
import re

from client import CallRefused, Client
from formats import DOUBLE, SIMPLE, Layout, fits, is_layout, is_wide
from server import Session, Store

MOST_SCRIPT = 1_048_576
MOST_CLIENTS = 16


class BadLine(Exception):
    """A line that doesn't fit its place."""


class RefusedWorld(Exception):
    """A world that can't be opened."""


def number(text, bits):
    if not re.fullmatch("[0-9]+", text) or int(text) >> bits:
        raise BadLine
    return int(text)


def hex_bytes(text):
    if not re.fullmatch("(?:[0-9a-fA-F]{2})+", text):
        raise BadLine
    return bytes.fromhex(text)


def seed_bytes(text):
    if len(text) != 64:
        raise BadLine
    return hex_bytes(text)


def record_bytes(text):
    return b"" if text == "-" else hex_bytes(text)


def most(text):
    return None if text == "all" else number(text, 64)


def scheme(text):
    if text not in ("simple", "double"):
        raise BadLine
    return SIMPLE if text == "simple" else DOUBLE


def client(text):
    return number(text, 64)


# What the words of each step are.
STEPS = {
    "edit": (lambda text: number(text, 32), record_bytes), "append": (record_bytes,), "publish": (), "hello": (client,),
    "sync": (client, scheme), "ask": (client, lambda text: number(text, 32)), "to-server": (client, most), "to-client": (client, most),
}  # fmt: skip


# The form of a world by the name of its first line.
WORLDS = {"world": 1, "world2": 2, "wide": 129, "wide2": 130}
# How many words follow the name of a line of the header.
HEADER = {**dict.fromkeys(WORLDS, 4), "seed": 1, "record": 1, "client": 1}


class World:
    def __init__(self, form, sizes, seed, records, clients):
        width, record_len, groups, n = sizes
        if not is_layout(width, record_len, groups, len(records), form) or not 1 <= n <= 1024:
            raise RefusedWorld("BadLayout")
        self.store = Store(Layout(width, record_len, groups, len(records), form), n, 1, seed, bytes(32), records)
        self.links = [[Client(seed, wide=is_wide(form)), Session(self.store), b"", b""] for seed in clients]

    def step(self, name, words):
        """The lines that come of a step."""
        if name == "edit":
            refusal = self.store.edit(*words)
            return [f"edit {words[0]}: {'refused ' + refusal if refusal else 'accepted'}"]
        if name == "append":
            refusal = self.store.append(*words)
            return [f"append: {'refused ' + refusal if refusal else 'accepted'}"]
        if name == "publish":
            refusal = self.store.publish()
            return [f"publish: {'refused ' + refusal if refusal else f'version {self.store.version()}'}"]
        who = words[0]
        if who >= len(self.links):
            return [f"client {who}: none"]
        return [f"client {who}: {line}" for line in getattr(self, name.replace("-", "_"))(self.links[who], *words[1:])]

    def call(self, link, name, *words):
        try:
            link[2] += getattr(link[0], name)(*words)
        except CallRefused as refusal:
            return [f"call refused {refusal}"]
        return []

    def hello(self, link):
        return self.call(link, "hello")

    def sync(self, link, scheme):
        return self.call(link, "sync", scheme)

    def ask(self, link, index):
        return self.call(link, "ask", index)

    def to_server(self, link, most):
        piece, link[2] = link[2][:most], b"" if most is None else link[2][most:]
        link[3] += link[1].feed(piece)
        return []

    def to_client(self, link, most):
        piece, link[3] = link[3][:most], b"" if most is None else link[3][most:]
        out, events, fault = link[0].feed(piece)
        link[2] += out
        return events + ([f"failed {fault}"] if fault else [])


class Script:
    def __init__(self):
        self.form, self.sizes, self.seed, self.records, self.clients, self.world = None, None, None, [], [], None

    def take(self, line):
        """The lines that come of a line."""
        if any(byte > 0x7F for byte in line):
            raise BadLine
        name, *words = line.decode("ascii").split(" ")
        if name in STEPS:
            if len(words) != len(STEPS[name]):
                raise BadLine
            words = [read(word) for read, word in zip(STEPS[name], words)]
            self.open()
            return self.world.step(name, words)
        if name not in HEADER or self.world or len(words) != HEADER[name]:
            raise BadLine
        if name in WORLDS:
            self.take_world(WORLDS[name], words)
        else:
            getattr(self, f"take_{name}")(*words)
        return []

    def take_world(self, form, words):
        if self.sizes:
            raise BadLine
        self.form = form
        self.sizes = [number(word, bits) for word, bits in zip(words, (8, 16, 16, 16))]

    def take_seed(self, word):
        if not self.sizes or self.seed:
            raise BadLine
        self.seed = seed_bytes(word)

    def take_record(self, word):
        if not self.seed or self.clients:
            raise BadLine
        record = record_bytes(word)
        if not fits(self.form, self.sizes[1], record):
            raise BadLine
        self.records.append(record)

    def take_client(self, word):
        if not self.records or len(self.clients) == MOST_CLIENTS:
            raise BadLine
        self.clients.append(seed_bytes(word))

    def open(self):
        if not self.clients:
            raise BadLine
        self.world = self.world or World(self.form, self.sizes, self.seed, self.records, self.clients)


def rehearse(script):
    """What is printed for a script, and the status."""
    if len(script) > MOST_SCRIPT:
        return "script: too long\n", 3
    lines = script.split(b"\n")
    if lines[-1] == b"":
        lines.pop()
    played, printed = Script(), ""
    try:
        for at, line in enumerate(lines + [None], 1):
            if line is None:
                played.open()
            elif line and not line.startswith(b"#"):
                printed += "".join(f"{text}\n" for text in played.take(line))
    except BadLine:
        return printed + f"line {at}: bad\n", 3
    except RefusedWorld as refusal:
        return printed + f"world: refused {refusal}\n", 3
    return printed, 0
