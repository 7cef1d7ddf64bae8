#!/usr/bin/env python3
"""Prints roots and proofs that ../data/trees has, one row a line.

Made from docs/FORMATS.md alone and with another method than the crate: it splits the map. Each line is
the entries, the coin, the root and the proof.
"""
from hashlib import sha256

LAST = 2**64 - 1
ROWS = [
    ([], 7),
    ([(0, "a")], 0),
    ([(5, "x"), (0, "b"), (0, "a"), (5, ""), (6, "")], LAST),
    ([(LAST, "b")], LAST),
    ([(1, "c"), (0, "a")], 0),
    ([(0, "a"), (1, "c")], 1),
    ([(0, "a")], 1),
    ([(LAST, "b"), (0, "a"), (1, "c")], 1),
]


def digest(*parts):
    return sha256(b"".join(parts)).digest()


def defaults():
    values = [digest(b"\0")]
    while len(values) < 65:
        values.append(digest(b"\2", values[-1], values[-1]))
    return values


DEFAULTS = defaults()


def split(leaves, level):
    """The parts of a map whose coins have bit level equal to 0 and to 1."""
    sides = ({}, {})
    for coin, leaf in leaves.items():
        sides[coin >> level & 1][coin] = leaf
    return sides


def tree(level, leaves):
    """The digest at a level of a map from coins to leaves."""
    if not leaves:
        return DEFAULTS[level]
    if level == 0:
        (leaf,) = leaves.values()
        return digest(b"\1", leaf)
    left, right = split(leaves, level - 1)
    return digest(b"\2", tree(level - 1, left), tree(level - 1, right))


def proof(leaves, coin):
    """The mask, and the siblings that aren't defaults, from the leaf up."""
    mask, siblings = 0, []
    for level in reversed(range(64)):
        sides = split(leaves, level)
        bit = coin >> level & 1
        sibling = tree(level, sides[1 - bit])
        if sibling != DEFAULTS[level]:
            mask |= 1 << level
            siblings.insert(0, sibling)
        leaves = sides[bit]
    return mask.to_bytes(8, "big") + b"".join(siblings)


for entries, coin in ROWS:
    leaves = {}
    for where, leaf in entries:
        leaves.pop(where, None)
        if leaf:
            leaves[where] = leaf.encode()
    print(entries, coin, "0x" + tree(64, leaves).hex(), "0x" + proof(leaves, coin).hex())
