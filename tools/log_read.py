"""What a root log, a bundle, an opening and a transfer say, by docs/FORMATS.md and apart from the program: for
tools/verify_node and tools/safe. It takes the log's word, as a node does.
"""
import collections
import functools

from lms import digest
from node_files import Unfit, number

BODIES = {b"PCT1": 116, b"PCT2": 124}
DEPTH = 64


class Transfer(collections.namedtuple("Transfer", "body sign tag coin parent owner last")):
    """A signed transfer: its body and signature, and what the body says."""

    @property
    def account(self):
        return number(self.owner[:8])


# A coin of the log: the block of its deposit, its first owner and its amount.
Coin = collections.namedtuple("Coin", "block owner amount")
# A bundle: the coin, the tip, and its items, each a block and an opening.
Bundle = collections.namedtuple("Bundle", "coin tip items")
# A promise of an operator.
Promise = collections.namedtuple("Promise", "tag coin parent sum issued due")


def transfer_in(data):
    """The signed transfer that bytes spell; None where they spell none."""
    size = BODIES.get(data[:4])
    if size is None or len(data) < size:
        return None
    last = number(data[116:124]) if size == 124 else None
    return Transfer(data[:size], data[size:], data[4:36], number(data[36:44]), number(data[44:52]), data[52:116], last)


def promise_in(data):
    """The promise that a message spells; None where it spells none."""
    if data[:4] != b"PCR1" or len(data) != 100:
        return None
    return Promise(data[4:36], number(data[36:44]), number(data[44:52]), data[52:84], number(data[84:92]),
                   number(data[92:]))


def leaf_of(opening):
    """The leaf that an opening shows; Unfit where it is cut off."""
    size = number(opening[:4])
    if len(opening) < 4 + size + 8:
        raise Unfit(0, "an opening is cut off")
    return opening[4 : 4 + size]


def bundle_in(data):
    """The bundle that bytes spell; else Unfit."""
    if len(data) < 20:
        raise Unfit(0, "a bundle is cut off")
    items, at = [], 20
    for _ in range(number(data[16:20])):
        block, size = number(data[at : at + 8]), number(data[at + 8 : at + 12])
        opening = data[at + 12 : at + 12 + size]
        if len(data) < at + 12 or len(opening) < size:
            raise Unfit(at, "a bundle is cut off")
        if items and block <= items[-1][0]:
            raise Unfit(at, "the blocks of a bundle don't rise")
        items.append((block, opening))
        at += 12 + size
    if at != len(data):
        raise Unfit(at, "something stands behind a bundle")
    return Bundle(number(data[:8]), number(data[8:16]), items)


# ---- trees

@functools.lru_cache(maxsize=None)
def default(level):
    return digest(b"\0") if not level else digest(b"\2", default(level - 1), default(level - 1))


def opens(root, coin, opening):
    """Whether an opening opens a root at a coin."""
    leaf = leaf_of(opening)
    rest = opening[4 + len(leaf) :]
    mask, siblings = number(rest[:8]), rest[8:]
    if len(siblings) != 32 * bin(mask).count("1"):
        return False
    found, at = digest(b"\1", leaf) if leaf else default(0), 0
    for level in range(DEPTH):
        other = default(level)
        if mask >> level & 1:
            if siblings[at : at + 32] == other:
                return False
            other, at = siblings[at : at + 32], at + 32
        found = digest(b"\2", other, found) if coin >> level & 1 else digest(b"\2", found, other)
    return found == root


def root_of(leaves):
    """The root of a tree with these leaves, by coin."""
    nodes = {coin: digest(b"\1", leaf) for coin, leaf in leaves.items() if leaf}
    for level in range(DEPTH):
        above = {}
        for at, it in nodes.items():
            if at >> 1 not in above:
                other = nodes.get(at ^ 1, default(level))
                above[at >> 1] = digest(b"\2", other, it) if at & 1 else digest(b"\2", it, other)
        nodes = above
    return nodes.get(0, default(DEPTH))


class Log:
    """The calls of a log: the chain's tag, its coins, the roots of its blocks, and the leaves that calls show."""

    def __init__(self, text):
        self.coins, self.roots, self.blocks, self.leaves, self.tag = {}, {}, 0, [], None
        for count, line in enumerate(text.splitlines(), 1):
            try:
                self.take(line.split(" "))
            except (ValueError, IndexError, Unfit) as error:
                raise Unfit(count, "this line of the log can't be read") from error
        if self.tag is None:
            raise Unfit(1, "the log has no line of a chain")

    def take(self, words):
        if self.tag is None:
            if words[0] != "chain":
                raise ValueError(words[0])
            self.tag = bytes.fromhex(words[1][2:])
        elif words[0] == "call" and words[2] == "deposit":
            self.blocks += 1
            owner = int(words[1]).to_bytes(8, "big") + bytes.fromhex(words[4][2:])
            self.coins[len(self.coins) + 1] = Coin(self.blocks, owner, int(words[3]))
        elif words[0] == "call" and words[2] == "commit":
            self.blocks += 1
            self.roots[self.blocks] = bytes.fromhex(words[3][2:])
        elif words[0] == "call":
            shown = [bytes.fromhex(word[2:]) for word in words[3:] if word.startswith("0x") and len(word) > 26]
            self.leaves += [leaf_of(it) for it in shown]
        elif words[0] not in ("fund", "tick"):
            raise ValueError(words[0])
