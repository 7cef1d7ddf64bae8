"""The tree of a block, its proofs and its openings (FORMATS, "Byte formats", "The tree")."""
from functools import lru_cache
from lms import number_bytes, sha256
DEPTH = 64

def leaf_digest(leaf):
    """An empty leaf is digested as the byte 00, another one behind the byte 01."""
    return sha256(b'\x01' + leaf) if leaf else sha256(b'\x00')

def inner_digest(left, right):
    return sha256(b'\x02' + left + right)

def default_digests():
    defaults = [leaf_digest(b'')]
    for level in range(DEPTH):
        defaults.append(inner_digest(defaults[level], defaults[level]))
    return defaults

DEFAULTS = default_digests()

class Tree:
    """The tree of a block: what isn't a default is kept, level by level from the leaves."""
    def __init__(self, leaves):
        self.leaves = {coin: leaf for coin, leaf in leaves.items() if leaf}
        self.levels = [{coin: leaf_digest(leaf) for coin, leaf in self.leaves.items()}]
        for level in range(DEPTH):
            below = self.levels[level]
            default = DEFAULTS[level]
            self.levels.append({place: inner_digest(below.get(2 * place, default), below.get(2 * place + 1, default))
                                for place in {child // 2 for child in below}})

    @property
    def root(self):
        return self.levels[DEPTH].get(0, DEFAULTS[DEPTH])

    @lru_cache(maxsize=5000)
    def opening(self, coin):
        leaf = self.leaves.get(coin, b'')
        mask, siblings = 0, []
        for level in range(DEPTH):
            sibling = self.levels[level].get((coin >> level) ^ 1)
            if sibling is not None:
                mask |= 1 << level
                siblings.append(sibling)
        return number_bytes(len(leaf), 4) + leaf + number_bytes(mask, 8) + b''.join(siblings)

@lru_cache(maxsize=2000)
def tree_of(leaves):
    """The tree of these leaves by coin, pairs in order; the same one as before for the same leaves."""
    return Tree(dict(leaves))

def read_opening(opening):
    """The leaf, and the siblings by level with None for a default; None where the bytes are no opening."""
    length = int.from_bytes(opening[:4], 'big')
    if len(opening) < 4 + length + 8:
        return None
    leaf = opening[4:4 + length]
    mask = int.from_bytes(opening[4 + length:12 + length], 'big')
    rest = opening[12 + length:]
    if len(rest) != 32 * bin(mask).count('1'):
        return None
    siblings, at = [], 0
    for level in range(DEPTH):
        if not mask >> level & 1:
            siblings.append(None)
            continue
        sibling, at = rest[at:at + 32], at + 32
        # "A set bit whose sibling is that default isn't a proof, so a path has one proof."
        if sibling == DEFAULTS[level]:
            return None
        siblings.append(sibling)
    return leaf, siblings

@lru_cache(maxsize=200000)
def opened_leaf(root, coin, opening):
    """The leaf that the opening shows under this root at the coin; None where it doesn't open it."""
    parts = read_opening(opening)
    if parts is None:
        return None
    leaf, siblings = parts
    digest = leaf_digest(leaf)
    for level, sibling in enumerate(siblings):
        sibling = DEFAULTS[level] if sibling is None else sibling
        # "Bit 0 [chooses] at the lowest inner node; a 0 goes left and a 1 right."
        digest = inner_digest(sibling, digest) if coin >> level & 1 else inner_digest(digest, sibling)
    return leaf if digest == root else None
