"""The log of publications beside a snapshot, by docs/FORMATS.md: its name, its bytes, and what a reader makes of some bytes."""
import hashlib
import struct

from formats import Layout, header_of

LINK = 32


def digest(data):
    return hashlib.sha256(data).digest()


def log_name(name, snapshot):
    return f"{name}.log-{snapshot[-32:].hex()[:16]}"


def log_header(snapshot):
    """What the log of a snapshot begins with."""
    form, *_, version, seed_at = header_of(snapshot)
    return b"PIRLOG01" + bytes([form]) + snapshot[-32:] + struct.pack("<Q", version) + snapshot[seed_at : seed_at + 32]


def body_of(version, changes):
    """A publication's bytes, of the records that differ, by their places: of each its bytes alone, also where it has a slot."""
    return struct.pack("<Q", version) + b"".join(struct.pack("<IH", place, len(data)) + data for place, data in sorted(changes.items()))


def changes_in(body):
    """The changes of a body; None if it is no publication's."""
    changes, at, low = {}, 8, 0
    if len(body) < at:
        return None
    while at < len(body):
        if len(body) < at + 6:
            return None
        place, size = struct.unpack("<IH", body[at : at + 6])
        if place < low or len(body) < at + 6 + size:
            return None
        changes[place] = body[at + 6 : at + 6 + size]
        low, at = place + 1, at + 6 + size
    return changes


def lengths_of(body):
    return struct.pack("<II", len(body), 0xFFFFFFFF - len(body))


def entry_of(link, body):
    return lengths_of(body) + body + digest(link + lengths_of(body) + body)


def log_bytes(snapshot, publications):
    """The log after the publications of some changes each, one after another."""
    data = log_header(snapshot)
    link, version = digest(data), header_of(snapshot)[6]
    for changes in publications:
        version += 1
        entry = entry_of(link, body_of(version, changes))
        data, link = data + entry, entry[-LINK:]
    return data


def length_at(data, at):
    """The length of a body whose entry begins here; None if no two lengths that fit each other are here."""
    if len(data) < at + 8:
        return None
    length, other = struct.unpack("<II", data[at : at + 8])
    return length if length + other == 0xFFFFFFFF else None


def frame_at(data, at):
    """The body and the end of an entry, whatever link it has; None if none is whole here."""
    length = length_at(data, at)
    if length is None or len(data) < at + 8 + length + LINK:
        return None
    return data[at + 8 : at + 8 + length], at + 8 + length + LINK


def entry_at(link, data, at):
    """The body and the end of an entry that goes on from a link; None if none is here."""
    found = frame_at(data, at)
    return found if found and data[at : found[1]] == entry_of(link, found[0]) else None


def has_later(link, data, at):
    """Whether a whole entry is in the rest from here on, after what it begins with."""
    length = length_at(data, at)
    begin = at if length is None else at + 8 + length
    if any(entry_at(data[i : i + LINK], data, i + LINK) for i in range(begin, len(data) - LINK)):
        return True
    found = frame_at(data, at)
    return bool(found and entry_at(entry_of(link, found[0])[-LINK:], data, found[1]))


def read_log(snapshot, data):
    """The name of the fault, or None; the changes of each publication; how many bytes are a torn end."""
    at = len(log_header(snapshot))
    if data[:at] != log_header(snapshot):
        return "OtherSnapshot", [], 0
    link, version, found = digest(data[:at]), header_of(snapshot)[6], []
    while entry := entry_at(link, data, at):
        body, end = entry
        changes = changes_in(body)
        if changes is None:
            return "BadBody", found, 0
        version += 1
        if struct.unpack("<Q", body[:8])[0] != version:
            return "BadVersion", found, 0
        found.append(changes)
        link, at = data[end - LINK : end], end
    return ("Damaged", found, 0) if has_later(link, data, at) else (None, found, len(data) - at)


def after(records, changes):
    """The records after a publication."""
    now = list(records)
    for place, data in sorted(changes.items()):
        if place < len(now):
            now[place] = data
        else:
            now.append(data)
    return now


def records_in(snapshot):
    """The records of a snapshot."""
    form, width, size, groups, count, _, _, seed_at = header_of(snapshot)
    layout, begin = Layout(width, size, groups, count, form), seed_at + 64
    return [layout.content(snapshot[i : i + size]) for i in range(begin, begin + count * size, size)]
