"""The byte strings of docs/FORMATS.md, made apart from the program: keys and signatures (RFC 8554), transfers, trees,
openings, bundles, receipts and journals. For bench/agree and release/vectors.
"""
import functools
import hashlib
from collections import namedtuple

TAG = (1).to_bytes(32, "big")
# Of each one-time type: the chains, the bits of a digit, and the digits and the shift of the checksum.
ONE_TIME = {3: (67, 4, 3, 4), 4: (34, 8, 2, 0)}
HEIGHT = {5: 5, 6: 10}
DEPTH = 64
MARK, RECORD = b"PGJ1", b"\xa5"
MARKER = b"PGL2"

Signer = namedtuple("Signer", "name seed lms ots")


def u32(number):
    return number.to_bytes(4, "big")


def u64(number):
    return number.to_bytes(8, "big")


def sha(*parts):
    return hashlib.sha256(b"".join(parts)).digest()


def hexed(content):
    return "0x" + content.hex()


# ---- keys and signatures

def seed_of(number):
    """The seed of a schedule's line that has this number."""
    return bytes(24) + u64(number)


def signer(number, lms=5, ots=4):
    """The key of a schedule's line."""
    seed = seed_of(number)
    return Signer(sha(seed)[:16], seed, lms, ots)


def chain(place, index, value, begin, end):
    at = place + index.to_bytes(2, "big")
    for step in range(begin, end):
        value = hashlib.sha256(at + bytes((step,)) + value).digest()
    return value


def first_of_chain(key, place, index):
    return sha(place, index.to_bytes(2, "big"), b"\xff", key.seed)


@functools.lru_cache(None)
def nodes(key):
    """The nodes of a key's tree, from number 1, the root; those of leaves begin in the middle."""
    chains, bits, _, _ = ONE_TIME[key.ots]
    count = 1 << HEIGHT[key.lms]
    made = [b""] * (2 * count)
    for number in range(count):
        place = key.name + u32(number)
        ends = [chain(place, i, first_of_chain(key, place, i), 0, (1 << bits) - 1) for i in range(chains)]
        made[count + number] = sha(key.name, u32(count + number), b"\x82\x82", sha(place, b"\x80\x80", *ends))
    for number in range(count - 1, 0, -1):
        made[number] = sha(key.name, u32(number), b"\x83\x83", made[2 * number], made[2 * number + 1])
    return made


def public_key(key):
    return u32(key.lms) + u32(key.ots) + key.name + nodes(key)[1]


def digits(key, digest):
    """The digits of a digest and of its checksum."""
    chains, bits, extra, shift = ONE_TIME[key.ots]
    per_byte, most = 8 // bits, (1 << bits) - 1

    def split(content):
        return [byte >> 8 - bits * (i + 1) & most for byte in content for i in range(per_byte)]

    found = split(digest)
    total = sum(most - digit for digit in found) << shift
    return found + split(total.to_bytes(2, "big"))[:extra]


def signature(key, leaf, message, random=None):
    """The signature of a message by a leaf; by other randomness than the program's, where it is given."""
    place = key.name + u32(leaf)
    random = random or sha(place, b"\xff\xfd\xff", key.seed)
    digest = sha(place, b"\x81\x81", random, message)
    shown = [chain(place, i, first_of_chain(key, place, i), 0, d) for i, d in enumerate(digits(key, digest))]
    tree, at = nodes(key), (1 << HEIGHT[key.lms]) + leaf
    path = []
    while at > 1:
        path.append(tree[at ^ 1])
        at //= 2
    return b"".join([u32(leaf), u32(key.ots), random, *shown, u32(key.lms), *path])


def bottom_key(top, number):
    """The bottom key of a signer of two levels that has this number."""
    place = top.name + u32(number)
    return Signer(sha(place, b"\xff\xfc\xff", top.seed)[:16], sha(place, b"\xff\xfb\xff", top.seed), 5, 4)


def levels_key(top, levels=2):
    return u32(levels) + public_key(top)


def levels_signature(keys, leaves, message):
    """The signature of a message by keys of several levels, the top one first, each by a leaf."""
    parts = [u32(len(keys) - 1)]
    for key, leaf, below in zip(keys, leaves, keys[1:]):
        parts += [signature(key, leaf, public_key(below)), public_key(below)]
    return b"".join([*parts, signature(keys[-1], leaves[-1], message)])


# ---- transfers, trees, openings and bundles

def owner(account, key):
    return u64(account) + (key if isinstance(key, bytes) else public_key(key))


def body(coin, parent, to, last=None, tag=TAG):
    if last is None:
        return b"PCT1" + tag + u64(coin) + u64(parent) + to
    return b"PCT2" + tag + u64(coin) + u64(parent) + to + u64(last)


def transfer(key, leaf, *of, **more):
    """A signed transfer: the words behind the leaf are those of a body."""
    text = body(*of, **more)
    return text + signature(key, leaf, text)


def leaf_digest(leaf):
    return sha(b"\x01", leaf) if leaf else sha(b"\x00")


def defaults():
    made = [sha(b"\x00")]
    for _ in range(DEPTH):
        made.append(sha(b"\x02", made[-1], made[-1]))
    return made


DEFAULTS = defaults()


class Tree:
    """A block's tree, of the leaves by coin."""

    def __init__(self, leaves):
        self.leaves = {coin: leaf for coin, leaf in leaves.items() if leaf}
        self.levels = [{coin: leaf_digest(leaf) for coin, leaf in self.leaves.items()}]
        for level in range(DEPTH):
            below, above = self.levels[-1], {}
            for place in {at >> 1 for at in below}:
                left, right = (below.get(2 * place + side, DEFAULTS[level]) for side in (0, 1))
                above[place] = sha(b"\x02", left, right)
            self.levels.append(above)
        self.root = self.levels[DEPTH].get(0, DEFAULTS[DEPTH])

    def siblings(self, coin):
        """The siblings that aren't a default, by level."""
        places = ((level, (coin >> level) ^ 1) for level in range(DEPTH))
        return {level: self.levels[level][at] for level, at in places if at in self.levels[level]}

    def opening(self, coin):
        return opening(self.leaves.get(coin, b""), self.siblings(coin))


def proof(siblings):
    return u64(sum(1 << level for level in siblings)) + b"".join(siblings[level] for level in sorted(siblings))


def opening(leaf, siblings):
    return u32(len(leaf)) + leaf + proof(siblings)


def bundle(coin, tip, items):
    """A bundle of pairs of a block and an opening."""
    listed = b"".join(u64(block) + u32(len(shown)) + shown for block, shown in items)
    return u64(coin) + u64(tip) + u32(len(items)) + listed


def promise(coin, parent, signed, issued, due, tag=TAG, mark=b"PCR1"):
    return mark + tag + u64(coin) + u64(parent) + sha(signed) + u64(issued) + u64(due)


# ---- journals

def record(content):
    return RECORD + u32(len(content)) + content


def journal(*contents, end=b"\x00"):
    return MARK + b"".join(record(content) for content in contents) + end


def records(content):
    """The records of a journal that is one, and what stands behind them."""
    found, at = [], len(MARK)
    while content[at : at + 1] == RECORD:
        length = int.from_bytes(content[at + 1 : at + 5], "big")
        found.append(content[at + 5 : at + 5 + length])
        at += 5 + length
    return found, content[at:]


def identity(role, account, seed=None, lms=5, ots=4, tag=TAG):
    """A node's first record."""
    if role == "wallet":
        types = b"\x01" if (lms, ots) == (5, 4) else b"\x04" + u32(lms) + u32(ots)
        return types + tag + u64(account) + seed
    if role == "watcher":
        return b"\x11" + tag + u64(account)
    return b"\x21" + tag + u64(account) if seed is None else b"\x26" + tag + u64(account) + seed
