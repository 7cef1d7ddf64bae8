"""What a power cut may leave of a folder of journals, by the disk model; and a reader of a journal's format."""
import collections
import re

from nodes import JOURNALS

LINE = re.compile(r"^\d+ +(\w+)\((.*)\) += (-?\d+|\?)(.*)$")
HEX = re.compile(r'"((?:\\x[0-9a-f]{2})*)"(\.\.\.)?')
# Calls on a journal that change nothing of it.
HARMLESS = {"statx", "close", "flock", "fadvise64", "pread64", "preadv", "fchmod"}

# A call: make, write, sync, folder or answer; the file; where and what; whether it succeeded; its name and number.
Op = collections.namedtuple("Op", "kind file place bytes ok call")
# A moment: which call is next, how many bytes of answers stand, and the state of each file.
Moment = collections.namedtuple("Moment", "number next answered files")


class Unknown(Exception):
    """A call on a journal of which it isn't known what it does."""


def text(word):
    return bytes.fromhex(word.replace("\\x", ""))


def journal_of(path):
    return next((name for name in JOURNALS if path == name or path.endswith("/" + name)), None)


def ops_of(trace):
    """The calls of a trace, in order. Where a write goes is known from what lseek, read and write returned."""
    at, found, seen = {}, [], collections.Counter()
    with open(trace, encoding="utf-8", errors="replace") as file:
        for line in file:
            match = LINE.match(line)
            if match:
                seen[match[1]] += 1
                found += op_of(match, at, (match[1], seen[match[1]]))
            elif "\\x2e\\x6a\\x6f\\x75\\x72\\x6e\\x61\\x6c" in line and "killed by" not in line and "= ?" not in line:
                raise Unknown(line)
    return found


def op_of(match, at, call):
    """What one call is, as a list of none or one."""
    name, words, value, _ = match.groups()
    if value == "?":
        # (the run was killed before the call was made)
        return []
    value = int(value)
    begin = re.match(r"(\d+)<((?:\\x[0-9a-f]{2})*)>", words)
    path = text(begin[2]).decode(errors="replace") if begin else ""
    file, key = journal_of(path), (begin[1] if begin else None, journal_of(path))
    if name in ("open", "openat", "creat"):
        named = HEX.search(words)
        made = journal_of(text(named[1]).decode(errors="replace")) if named else None
        if not made or value < 0:
            return []
        if "O_TRUNC" in words or name == "creat":
            raise Unknown(match[0])
        at[str(value), made] = 0
        return [Op("make", made, 0, b"", True, call)] if "O_CREAT" in words else []
    if file is None:
        if begin and begin[1] == "1" and name in ("write", "writev") and value > 0:
            return [Op("answer", None, 0, text(HEX.search(words)[1])[:value], True, call)]
        is_folder = name in ("fsync", "fdatasync")
        return [Op("folder", None, 0, b"", value == 0, call)] if is_folder else []
    if name in ("write", "pwrite64"):
        return [written(name, words, value, file, key, at, call)]
    if name in ("fsync", "fdatasync"):
        return [Op("sync", file, 0, b"", value == 0, call)]
    if name == "lseek":
        at[key] = value if value >= 0 else at[key]
    elif name == "read":
        at[key] = at.get(key, 0) + max(value, 0)
    elif name == "fcntl" and "F_DUPFD" in words and value >= 0:
        at[str(value), file] = at.get(key, 0)
    elif name not in HARMLESS and name != "fcntl":
        raise Unknown(match[0])
    return []


def written(name, words, value, file, key, at, call):
    """A write on a journal. One that failed counts as written, whole."""
    data = HEX.search(words)
    if data[2]:
        raise Unknown("strace cut the bytes of a write")
    place = int(words.rsplit(", ", 1)[1]) if name == "pwrite64" else at.get(key, 0)
    whole = text(data[1])
    if name == "write":
        at[key] = place + max(value, 0)
    return Op("write", file, place, whole if value < 0 else whole[:value], value >= 0, call)


class State:
    """A file: the bytes as of the last sync (None where it isn't there), the bytes now, the places that were written
    since, those of them that a failed sync left, and whether the folder keeps its name."""

    def __init__(self, synced):
        self.synced, self.now, self.touched, self.left, self.named = synced, synced, set(), set(), synced is not None

    def copy(self):
        other = State(None)
        other.synced, other.now, other.named = self.synced, self.now, self.named
        other.touched, other.left = set(self.touched), set(self.left)
        return other

    def write(self, place, data):
        now = bytearray(self.now or b"")
        now += b"\0" * (place - len(now))
        now[place : place + len(data)] = data
        self.now = bytes(now)
        places = range(place, place + len(data))
        self.touched.update(places)
        self.left.difference_update(places)

    def sync(self, ok, keeps_left):
        if not ok:
            if keeps_left:
                self.left |= self.touched
            return
        old, was = self.synced or b"", self.now
        # (what a failed sync left stays as it was on the disk, and the length that it had there is settled)
        synced = bytearray(was)
        for place in self.left:
            synced[place] = old[place] if place < len(old) else 0
        self.synced, self.touched = bytes(synced), set(self.left)


def moments(ops, files, keeps_left=False):
    """The moments of a run over these files, which end as they are after it."""
    answered, found = 0, []

    def note(number, kind):
        found.append(Moment(number, kind, answered, {name: it.copy() for name, it in files.items()}))

    for number, op in enumerate(ops):
        if op.kind in ("sync", "folder", "answer"):
            note(number, op.kind)
        if op.kind == "make" and files[op.file].now is None:
            files[op.file].now = b""
        elif op.kind == "write":
            files[op.file].write(op.place, op.bytes)
        elif op.kind == "sync" and files[op.file].now is not None:
            files[op.file].sync(op.ok, keeps_left)
        elif op.kind == "folder" and op.ok:
            for it in files.values():
                it.named = it.named or it.now is not None
        elif op.kind == "answer":
            answered += len(op.bytes)
    note(len(ops), "end")
    return found


def noise_of(count, chance):
    """Random bytes."""
    return chance.getrandbits(8 * count).to_bytes(count, "big") if count else b""


def some(low, high, chance, most):
    """Numbers from one to another: all, or the first and last nine, those about each 512th, and others."""
    every = range(low, high + 1)
    if len(every) <= most:
        return list(every)
    edges = {*range(low, low + 9), *range(high - 8, high + 1)}
    about = [place + by for place in range(low // 512 * 512, high + 1, 512) for by in (-1, 0, 1)]
    edges |= set(chance.sample(about, min(len(about), most)))
    edges = {place for place in edges if low <= place <= high}
    return sorted(edges | set(chance.sample(every, max(0, most - len(edges)))))


def images(state, chance, most):
    """Images that a cut may leave of a file, each with a name; None where the file is missing."""
    if state.now is None or not state.named:
        yield "absent", None
    if state.now is None:
        return
    old, new = state.synced or b"", state.now
    places = sorted(state.touched | set(range(len(old), len(new))))
    if not places:
        yield "synced", old
    elif len(places) == 1 and len(old) == len(new):
        (place,) = places
        for value in range(256):
            yield f"byte {place} is {value:02x}", old[:place] + bytes([value]) + old[place + 1 :]
    else:
        yield from torn(old, new, places, chance, most)


def torn(old, new, places, chance, most):
    """Images where several bytes may be anything."""
    count, base = len(places), old + b"\0" * (len(new) - len(old))
    cuts = some(0, count, chance, most)
    kinds = [("old", lambda i, p: base[p]), ("new", lambda i, p: new[p])]
    kinds += [(f"new to {k}", lambda i, p, k=k: new[p] if i < k else base[p]) for k in cuts]
    kinds += [(f"new from {k}", lambda i, p, k=k: new[p] if i >= k else base[p]) for k in cuts]
    kinds += [(f"one bit at {k}", lambda i, p, k=k: new[p] ^ (1 << k % 8) if i == k else new[p]) for k in cuts]
    kinds += [(f"all {value:02x}", lambda i, p, value=value: value) for value in (0, 0xA5, 0xFF)]
    for number in range(8):
        noise = noise_of(count, chance)
        kinds.append((f"noise {number}", lambda i, p, noise=noise: noise[i]))
        kept = [chance.randrange(2) for _ in range(len(new) // 512 + 1)]
        kinds.append((f"sectors {number}", lambda i, p, kept=kept: new[p] if kept[p // 512] else base[p]))

    def mixed(pick):
        image = bytearray(base)
        for index, place in enumerate(places):
            image[place] = pick(index, place)
        return bytes(image)

    for name, pick in kinds:
        yield name, mixed(pick)
    ends = [mixed(pick) for _, pick in (kinds[0], kinds[1])]
    ends += [mixed(lambda i, p: 0xA5), mixed(lambda i, p, noise=noise_of(count, chance): noise[i])]
    for length in some(len(old), len(new), chance, most):
        for name, image in zip(("old", "new", "all a5", "noise"), ends):
            yield f"{name}, {length} bytes", image[:length]


def folders(moment, chance, most, pairs=600):
    """What a cut at a moment may leave of both files: a name, and the images."""
    seen = set()
    for first, notes in images(moment.files[JOURNALS[0]], chance, most):
        for second, leaves in images(moment.files[JOURNALS[1]], chance, most):
            if (notes, leaves) not in seen:
                seen.add((notes, leaves))
                yield f"{first} / {second}", dict(zip(JOURNALS, (notes, leaves)))
            if len(seen) >= pairs and notes is not None and leaves is not None and len(moment_files(moment)) > 1:
                return


def moment_files(moment):
    """The files of which a cut at this moment may leave more than one image."""
    return [name for name, it in moment.files.items() if it.touched or it.now is not None and not it.named]


def read(image):
    """The records of an image; None where it is no journal."""
    if image is None or image[:4] != b"PGJ1":
        return None
    place, found = 4, []
    while place < len(image) and image[place] == 0xA5:
        size = int.from_bytes(image[place + 1 : place + 5], "big")
        if size > 1 << 24 or place + 5 + size > len(image):
            return None
        found.append(image[place + 5 : place + 5 + size])
        place += 5 + size
    return found if place < len(image) else None
