"""The journals of a node's folder, read by docs/FORMATS.md ("Byte formats") and apart from the program: for the marks,
tools/verify_node, the tools that print keys, and the benches.
"""
import collections
import errno
import os
import stat

NOTES, LEAVES = "notes.journal", "leaves.journal"
JOURNALS = (NOTES, LEAVES)
HEAD, GATE, SHUT, LONGEST = b"PGJ1", 0xA5, 0x00, 1 << 24
# The record that stands between the two forms of a leaf's record.
MARKER = b"PGL2"
# How many leaves the key of an LMS type has.
LEAVES_OF = {5: 32, 6: 1024}
OTHER_TYPES = (5, 4)

# A record: the place of its gate, and its bytes.
Record = collections.namedtuple("Record", "place bytes")
# Who a node is: its role, its first record; and then its tag, account, types and seed, where its role has them.
Identity = collections.namedtuple("Identity", "role record tag account types seed")
# A leaf that is bound: the place of its record, its number (of a signer j and q), and the message.
Leaf = collections.namedtuple("Leaf", "place number message")


class Unfit(Exception):
    """Bytes aren't what they have to be: the place where that shows, and why."""

    def __init__(self, place, why):
        super().__init__(f"byte {place}: {why}")
        self.place, self.why = place, why


class Journal:
    """The records of a journal, the place of its end byte, and all of its bytes."""

    def __init__(self, image):
        self.image, self.records = image, []
        if image[: len(HEAD)] != HEAD:
            raise Unfit(0, "no journal begins so")
        place = len(HEAD)
        while place < len(image) and image[place] == GATE:
            record = record_at(image, place)
            self.records.append(record)
            place += 5 + len(record.bytes)
        if place >= len(image):
            raise Unfit(place, "there is no end behind the last record")
        self.end = place

    def behind(self):
        """How many bytes stand behind the end, which no run looks at."""
        return len(self.image) - self.end - 1


def record_at(image, place):
    """The record whose gate is at this place, whatever the gate is."""
    if len(image) < place + 5:
        raise Unfit(place, "a record is cut off")
    length = int.from_bytes(image[place + 1 : place + 5], "big")
    if length > LONGEST:
        raise Unfit(place, "a record is longer than one may be")
    if len(image) < place + 5 + length:
        raise Unfit(place, "a record is cut off")
    return Record(place, bytes(image[place + 5 : place + 5 + length]))


def count_in(records):
    """How many records these bytes spell, which begin with a gate; a marker isn't counted."""
    return sum(it.bytes != MARKER for it in Journal(HEAD + bytes(records) + bytes([SHUT])).records)


def hidden(journal):
    """Whole records behind the journal's end, each behind a gate that isn't open: the first one's gate is the end. One
    behind a gate of nought is what a run left that was stopped there."""
    found, place = [], journal.end
    while True:
        try:
            record = record_at(journal.image, place)
        except Unfit:
            return found
        # (nothing, or noughts, spell no record)
        if not record.bytes:
            return found
        found.append(record)
        place += 5 + len(record.bytes)


def image_of(folder, name):
    """A file's bytes; None where no plain file is there. A link isn't followed, as the program follows none."""
    try:
        held = os.open(os.path.join(folder, name), os.O_RDONLY | os.O_NOFOLLOW | os.O_NONBLOCK)
    except OSError as error:
        if error.errno in (errno.ENOENT, errno.ELOOP, errno.ENXIO, errno.ENOTDIR):
            return None
        raise
    with open(held, "rb") as file:
        return file.read() if stat.S_ISREG(os.fstat(held).st_mode) else None


def number(data):
    return int.from_bytes(data, "big")


def identity_of(record):
    """Who a node is by its first record."""
    kind, rest = record[:1], record[1:]
    if kind == b"\x31" and len(rest) == 32:
        return Identity("signer", record, None, None, OTHER_TYPES, rest)
    types = OTHER_TYPES
    if kind == b"\x04" and len(rest) == 80:
        types, rest = (number(rest[:4]), number(rest[4:8])), rest[8:]
        if types[0] not in LEAVES_OF or types[1] not in (3, 4):
            raise Unfit(5, "a key has no such types")
        kind = b"\x01"
    roles = {b"\x01": ("wallet", 72), b"\x11": ("watcher", 40), b"\x21": ("operator", 40), b"\x26": ("operator", 72)}
    role, length = roles.get(kind, (None, None))
    if length != len(rest):
        raise Unfit(5, "the first record is no node's identity")
    seed = rest[40:] or None
    return Identity(role, record, rest[:32], number(rest[32:40]), types if seed else None, seed)


def identity_in(image):
    """Who a node is by its notes, also where a later record is wrong."""
    if not image or image[: len(HEAD)] != HEAD or image[len(HEAD) : len(HEAD) + 1] != bytes([GATE]):
        raise Unfit(0, "it doesn't begin as the notes of a node")
    return identity_of(record_at(image, len(HEAD)).bytes)


def identity_bytes(role, tag, account, types, seed):
    """The first record of a node's notes."""
    rest = b"" if role == "signer" else tag + account.to_bytes(8, "big")
    if role == "wallet" and types != OTHER_TYPES:
        return b"\x04" + b"".join(it.to_bytes(4, "big") for it in types) + rest + seed
    kinds = {"wallet": b"\x01", "watcher": b"\x11", "operator": b"\x26" if seed else b"\x21", "signer": b"\x31"}
    return kinds[role] + rest + (seed or b"")


def spelled(*records):
    """A journal of these records."""
    frames = (bytes([GATE]) + len(it).to_bytes(4, "big") + it for it in records)
    return HEAD + b"".join(frames) + bytes([SHUT])


def leaves_of(journal, identity):
    """The leaves that are bound, in their order. A record that is none is Unfit at its place."""
    if identity.role == "signer":
        return signed_by_two_levels(journal)
    most, found, marked = LEAVES_OF[identity.types[0]], [], False
    for place, record in journal.records:
        if record == MARKER and not marked:
            marked = True
            continue
        leaf = number(record[:4]) if marked else len(found)
        message = record[4:] if marked else record
        if not marked and (len(message) != 116 or identity.role == "operator"):
            raise Unfit(place, "in front of the marker stands no transfer")
        if marked and not 1 <= len(message) <= 128:
            raise Unfit(place, "it is no record of a leaf")
        if leaf != len(found):
            raise Unfit(place, f"it has the number {leaf}, and is the record of leaf {len(found)}")
        if leaf >= most:
            raise Unfit(place, f"the key has {most} leaves")
        found.append(Leaf(place, leaf, message))
    return found


def signed_by_two_levels(journal):
    """The leaves of a signer's bottom keys."""
    found, key, count = [], -1, 0
    for place, record in journal.records:
        if record[:1] == b"\x01" and len(record) == 61 and number(record[1:5]) == key + 1 < 32:
            key, count = key + 1, 0
        elif record[:1] == b"\x02" and number(record[1:5]) == key and number(record[5:9]) == count < 32:
            if not 1 <= len(record) - 9 <= 128:
                raise Unfit(place, "it is no record of a leaf")
            found.append(Leaf(place, (key, count), record[9:]))
            count += 1
        else:
            raise Unfit(place, "it is no next record of a signer")
    return found


def is_marked(journal):
    """Whether the journal of a key's leaves has the marker."""
    return any(it.bytes == MARKER for it in journal.records)
