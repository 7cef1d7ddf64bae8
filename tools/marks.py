"""Marks: what a node's last run left in its folder, kept elsewhere. For the launcher, tools/mark, tools/burn_leaves.

Nothing in a journal tells that it is an old copy, or that a byte of it changed. So behind each run the launcher writes
down, by the node's identity, how far each journal goes and the SHA-256 up to there; and in front of the next run both
have to go on from that, byte for byte. A mark is written to a new file, synced, renamed, and its folder is synced.

A node with a key has one mark, wherever its folder is. One without a key has a mark for each folder, since two
watchers may have one account; a copy in another folder is taken where it goes on from the one mark that there is, or
ends where one of them does.
"""
import collections
import contextlib
import fcntl
import hashlib
import json
import os
import time
import zlib

import node_files
from node_files import JOURNALS, LEAVES, NOTES

# The first line of a mark, and how many earlier ends it keeps.
FORM, EARLIER = "plasma mark 1", 40
# A mark has at most so many checks of parts of a journal, by which it is told where a byte changed.
PARTS = 4096
OFF = "none"
# The beginnings of the two journals that were looked at last, where they are large, each with the state of its SHA-256.
KNOWN, LARGE = collections.deque(maxlen=2), 1 << 20

# How far a journal goes, the SHA-256 of its bytes up to there, and checks of its parts, each of so many bytes.
End = collections.namedtuple("End", "place sum size checks")
# A mark: the node, its folder, the ends by journal, the leaves that are used, the time, and the ends of earlier marks,
# each with its time.
Mark = collections.namedtuple("Mark", "node folder ends used time earlier")
# What stands in a folder: who the node is, the images and the places of their ends.
Found = collections.namedtuple("Found", "identity images ends")


class Refused(Exception):
    """No run may be made: what it looks like, and what to do, as lines."""


def folder_of_marks(environment=os.environ):
    """Where marks are kept; None where they are turned off."""
    named = environment.get("PLASMA_MARKS", "")
    if named == OFF:
        return None
    if named:
        if not named.startswith("/"):
            raise Refused([f"PLASMA_MARKS is {named!r}: it takes a folder that begins with /, or {OFF}"])
        return named
    state = environment.get("XDG_STATE_HOME") or ""
    if not state.startswith("/"):
        home = environment.get("HOME") or ""
        if not home.startswith("/"):
            raise Refused(["there is no HOME, so there is no place for marks: PLASMA_MARKS=FOLDER names one"])
        state = f"{home}/.local/state"
    return f"{state}/plasma/marks"


def now():
    return time.strftime("%Y-%m-%dT%H:%M:%SZ", time.gmtime())


def key_of(record):
    """The name of an identity. (It shows nothing of a seed of 32 random bytes.)"""
    return hashlib.sha256(b"plasma mark of " + record).hexdigest()[:40]


def called(identity):
    """A node as a person knows it."""
    account = "" if identity.account is None else f" of account {identity.account}"
    return f"{identity.role}{account}"


# ---- the ends of journals

def size_for(count):
    size = 32
    while size * PARTS < count:
        size *= 2
    return size


def state_at(image, place):
    """The SHA-256 of a journal up to this place, to go on with. Where it begins as one whose sum was made before, as in
    front of a run, the rest alone is put to that."""
    known, state = max((it for it in KNOWN if len(it[0]) <= place and image.startswith(it[0])),
                       key=lambda it: len(it[0]), default=(b"", hashlib.sha256()))
    state = state.copy()
    state.update(memoryview(image)[len(known) : place])
    if place - len(known) >= LARGE:
        KNOWN.append((bytes(memoryview(image)[:place]), state))
    return state


def sum_at(image, place):
    return state_at(image, place).hexdigest()


def end_at(image, place):
    """The end of a journal that goes to this place."""
    view = memoryview(image)[:place]
    size = size_for(place)
    checks = [zlib.crc32(view[at : at + size]) for at in range(0, place, size)]
    return End(place, sum_at(image, place), size, checks)


def goes_on(image, end):
    """Where a journal ends that begins with the marked bytes; None where it doesn't. Unfit where what follows them is
    no record."""
    if len(image) <= end.place or sum_at(image, end.place) != end.sum:
        return None
    place = end.place
    while image[place : place + 1] == bytes([node_files.GATE]):
        place += 5 + len(node_files.record_at(image, place).bytes)
    if place >= len(image):
        raise node_files.Unfit(place, "there is no end behind the last record")
    return place


# ---- marks as files

def written(mark):
    """A mark as text."""
    lines = [FORM, f"node {mark.node}", f"folder {json.dumps(mark.folder)}", f"time {mark.time}", f"leaves {mark.used}"]
    for name, end in mark.ends.items():
        lines.append(f"{name} {end.place} {end.sum} {end.size} {''.join(f'{it:08x}' for it in end.checks)}")
    for when, name, place, total in mark.earlier[-EARLIER:]:
        lines.append(f"earlier {when} {name} {place} {total}")
    text = "".join(f"{line}\n" for line in lines)
    return text + f"sum {hashlib.sha256(text.encode()).hexdigest()}\n"


def read(text):
    """A text as a mark; ValueError where it is none."""
    body, _, last = text.rpartition("sum ")
    if last.strip() != hashlib.sha256(body.encode()).hexdigest() or not body.startswith(FORM + "\n"):
        raise ValueError("the mark is damaged")
    fields, ends, earlier = {}, {}, []
    for line in body.splitlines()[1:]:
        word, _, rest = line.partition(" ")
        if word in JOURNALS:
            place, total, size, checks = f"{rest} ".split(" ")[:4]
            parts = [int(checks[at : at + 8], 16) for at in range(0, len(checks), 8)]
            ends[word] = End(int(place), total, int(size), parts)
        elif word == "earlier":
            when, name, place, total = rest.split()
            earlier.append((when, name, int(place), total))
        else:
            fields[word] = rest
    return Mark(fields["node"], json.loads(fields["folder"]), ends, int(fields["leaves"]), fields["time"], earlier)


def sync_folder(path):
    """Lets the names in a folder last."""
    held = os.open(path, os.O_RDONLY | os.O_DIRECTORY)
    try:
        os.fsync(held)
    finally:
        os.close(held)


class Marks:
    """The marks of a folder, which is made where it is missing."""

    def __init__(self, folder):
        self.folder = folder
        missing = []
        while not os.path.isdir(folder):
            missing.append(folder)
            folder = os.path.dirname(folder)
        for made in reversed(missing):
            os.mkdir(made, 0o700)
            sync_folder(os.path.dirname(made))
        if os.stat(self.folder).st_uid not in (os.geteuid(), 0) or os.stat(self.folder).st_mode & 0o022:
            raise Refused([f"{self.folder}, where marks are kept, may be written by others: chmod 700 it"])

    @contextlib.contextmanager
    def alone(self):
        """No other run reads or writes a mark meanwhile."""
        with open(f"{self.folder}/lock", "a", encoding="utf-8") as file:
            fcntl.flock(file, fcntl.LOCK_EX)
            yield

    def path(self, identity, folder):
        """Where the mark of a node is kept."""
        at = "" if identity.seed else "-" + hashlib.sha256(os.fsencode(folder)).hexdigest()[:16]
        return f"{self.folder}/{key_of(identity.record)}{at}"

    def all(self):
        """Each mark with its path; None for one that is damaged."""
        for name in sorted(os.listdir(self.folder)):
            if "." not in name and name != "lock":
                yield f"{self.folder}/{name}", self.at(f"{self.folder}/{name}", quiet=True)

    def at(self, path, quiet=False):
        """The mark at a path; None where there is none."""
        try:
            with open(path, encoding="utf-8") as file:
                return read(file.read())
        except FileNotFoundError:
            return None
        except (ValueError, KeyError) as error:
            if quiet:
                return None
            raise Refused([f"{path} is damaged ({error}), so nobody knows what the last run left",
                           "keep the folder as it is for reading; 'plasma-mark adopt' asks before it marks anew"]
                          ) from error

    def put(self, path, mark):
        """Writes a mark so that it is whole, or the one before."""
        with open(path + ".new", "w", encoding="utf-8") as file:
            os.chmod(path + ".new", 0o600)
            file.write(written(mark))
            file.flush()
            os.fsync(file.fileno())
        os.rename(path + ".new", path)
        sync_folder(self.folder)

    def moved(self, path, to):
        """The mark of a folder that is there no more is none: the node was moved, and has its mark as it is now."""
        if path != to and os.path.exists(path):
            os.remove(path)
            sync_folder(self.folder)

    def of_folder(self, folder, without=None):
        """The mark that names this folder, of another node than the one at a path."""
        named = [mark for path, mark in self.all() if mark and mark.folder == folder and path != without]
        return max(named, key=lambda it: it.time, default=None)

    def leave(self, folder, without):
        """Other marks name this folder no more: a new node is in it."""
        for path, mark in list(self.all()):
            if mark and mark.folder == folder and path != without:
                self.put(path, mark._replace(folder="-"))


# ---- what stands in a folder

def images_in(folder):
    """The bytes of a folder's journals; those that are there."""
    images = {name: node_files.image_of(folder, name) for name in JOURNALS}
    return {name: image for name, image in images.items() if image is not None}


def names_of(identity):
    """The journals that a node has."""
    return JOURNALS if identity.seed else (NOTES,)


def used_in(images, identity):
    """How many leaves are used, of a node with a key whose journal can be read."""
    try:
        return len(node_files.leaves_of(node_files.Journal(images[LEAVES]), identity)) if identity.seed else 0
    except (KeyError, node_files.Unfit):
        return 0


def mark_of(found, folder, before=None):
    """The mark of what stands in a folder, behind an earlier one."""
    ends = {name: end_at(found.images[name], place) for name, place in found.ends.items()}
    earlier = list(before.earlier) if before else []
    for name, end in (before.ends if before else {}).items():
        if name in ends and end.place != ends[name].place:
            earlier.append((before.time, name, end.place, end.sum))
    used = used_in(found.images, found.identity)
    return Mark(called(found.identity), folder, ends, used, now(), earlier)


def found_in(folder):
    """What stands in a folder, read from its beginning. Unfit where it isn't a node's."""
    images = images_in(folder)
    identity = node_files.identity_in(images.get(NOTES))
    ends = {}
    for name in names_of(identity):
        if name not in images:
            raise node_files.Unfit(0, f"{name} isn't there")
        ends[name] = node_files.Journal(images[name]).end
    return Found(identity, images, ends)
