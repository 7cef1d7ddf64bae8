#!/usr/bin/env python3
"""How many blocks of SHA-256 a schedule needs, by its answers: a floor under what a replay of it digests.

usage: bench/sha_blocks.py SCHEDULE ANSWERS

Each thing is counted once, as by a program that forgets nothing:
- a wallet's key, and a rogue's where a line uses it;
- a signature, and the test of one under a key, with half of each chain on the average;
- each tree that is sealed, but for what is the same in every tree, and each leaf;
- at the end, for each transfer that an accepted call or bundle shows, the test under the key of each wallet that
  didn't sign it, where the types are the key's.
Nothing is written where the lines and answers don't tell it: of raw challenges and raw commits that are accepted, and
of cuts that stop a command.
"""
import sys
from collections import defaultdict, namedtuple

CHAINS = {"3": (67, 15), "4": (34, 255)}  # by the one-time type: chains, and steps of each
HEIGHT = {"5": 5, "6": 10}
DEFAULTS = 1 + 64 * 2  # blocks of the digests of empty trees
BODY = 116
SHOWN_CALLS = ("after", "between", "before", "respond")

Transfer = namedtuple("Transfer", "name signer types length")


class Untold(Exception):
    """Lines and answers don't tell what was digested."""


def blocks_of(length):
    """Blocks of a string of so many bytes, with the nine that end it."""
    return (length + 9 + 63) // 64


class Types:
    """What a key of these types takes, in blocks."""

    def __init__(self, lms="5", ots="4"):
        chains, steps = CHAINS[ots]
        height = HEIGHT[lms]
        ends = blocks_of(16 + 4 + 2 + 32 * chains) + 1  # the one-time key out of its chains' ends, and its leaf
        message = blocks_of(16 + 4 + 2 + 32 + BODY)
        self.key = 2**height * (chains * (1 + steps) + ends) + (2**height - 1) * 2
        self.sign = chains * (1 + steps // 2) + 1 + message
        self.test = chains * steps // 2 + ends + height * 2 + message
        self.transfer = BODY + 12 + 32 + 32 * chains + 32 * height  # bytes


class Count:
    """What the lines so far needed, and what is known of the world for it."""

    def __init__(self):
        self.blocks = 0
        self.wallets, self.rogues, self.made = {}, {}, {}
        self.pool, self.offered, self.chain, self.leaves = {}, None, [], defaultdict(list)
        self.seen = set()

    def once(self, what, blocks):
        if what not in self.seen:
            self.seen.add(what)
            self.blocks += blocks

    def named(self, words):
        """The keys of the rogues that a line names are made."""
        for word in words:
            if word in self.rogues:
                self.once(("key", word), self.rogues[word].key)

    # ---- transfers and trees

    def signed(self, number, name, types, place):
        transfer = Transfer((name, *place), name, types, types.transfer)
        self.once(("signature", transfer.name), types.sign)
        self.made[number] = transfer

    def tested(self, transfer, wallet=None):
        """A test under the key of a wallet; without one, under that of the coin's owner, as a rule the signer's."""
        self.once(("test", transfer.name, wallet or transfer.signer), transfer.types.test)

    def sealed(self):
        self.once("defaults", DEFAULTS)
        coins = sorted(self.pool)
        tree = frozenset(self.pool.items())
        for leaf in self.pool.values():
            length = leaf.length if isinstance(leaf, Transfer) else len(leaf) // 2 - 1
            self.once(("leaf", leaf), blocks_of(1 + length))
        # A path has 64 inner nodes, of which it shares those above the highest bit that differs from its neighbour.
        inner = 64 * bool(coins) + sum((one ^ other).bit_length() - 1 for one, other in zip(coins, coins[1:]))
        self.once(("tree", tree), 2 * inner)
        self.offered, self.pool = self.pool, {}

    def committed(self):
        self.chain.append(self.offered)
        for coin, leaf in self.offered.items():
            if isinstance(leaf, Transfer):
                self.leaves[coin].append((len(self.chain), leaf))

    def shown(self, transfer):
        self.tested(transfer)
        for name, types in self.wallets.items():
            if name != transfer.signer and types is transfer.types:
                self.tested(transfer, name)

    # ---- lines

    def contract(self, words, answer):
        if words[0] == "call":
            self.named(words[3:])
        done = answer[0] != "refused"
        if answer[0] in ("deposited", "committed"):
            if words[0] == "call" and words[2] == "commit":
                raise Untold
            if answer[0] == "committed":
                self.committed()
            else:
                self.chain.append({})
        elif words[2:3] == ["exit"] and (done or answer[1] == "bad-signature"):
            for word in (words[5], words[7]):
                transfer = self.made.get(int(word[1:])) if word[:1] == "#" else None
                if transfer:
                    self.shown(transfer) if done else self.tested(transfer)
        elif words[0] == "call" and words[2] in SHOWN_CALLS and (done or answer[1] == "bad-signature"):
            raise Untold

    def command(self, number, words, answer):
        kind = words[0]
        if answer[0] == "sent":
            self.signed(number, words[1], self.wallets[words[1]], (words[2], answer[1]))
        elif kind == "offer" and (answer[0] == "pooled" or answer[1] in ("bad-signature", "too-late", "pool-has-coin")):
            transfer = self.made[int(words[1][1:])]
            self.tested(transfer)
            if answer[0] == "pooled":
                self.pool[int(answer[1])] = transfer
        elif answer[0] == "laid":
            leaf = words[2]
            self.pool[int(words[1])] = self.made.get(int(leaf[1:]), "0x") if leaf[0] == "#" else leaf
        elif answer[0] == "sealed":
            self.sealed()
        elif answer[0] == "proved":
            leaf = self.chain[int(words[2]) - 1].get(int(words[1]))
            if isinstance(leaf, Transfer):
                self.made[number] = leaf
        elif answer[0] in ("accepted", "guarded"):
            for block, transfer in self.leaves[int(answer[1])]:
                if block <= int(answer[2]):
                    self.shown(transfer)

    def line(self, number, words, answer):
        if words[0] == "cut":
            if answer[0] == "stopped":
                raise Untold
            words, answer = words[4:], answer[1:] or answer
        kind = words[0]
        if kind == "wallet":
            self.wallets[words[1]] = TYPES[tuple(words[4:]) or ("5", "4")]
            self.once(("key", words[1]), self.wallets[words[1]].key)
        elif kind == "rogue":
            self.rogues[words[1]] = TYPES[tuple(words[4:]) or ("5", "4")]
        elif kind == "sign":
            self.named((words[1], words[5]))
            self.signed(number, words[1], self.rogues[words[1]], tuple(words[2:]))
        elif kind in ("fund", "tick", "money", "deposit", "call", "enter"):
            self.contract(words, answer)
        elif answer[0] not in ("down", "up"):
            self.named(words[3:4] if kind == "send" else ())
            self.command(number, words, answer)


TYPES = {(lms, ots): Types(lms, ots) for lms in HEIGHT for ots in CHAINS}


def main():
    count = Count()
    with open(sys.argv[1], encoding="ascii") as schedule, open(sys.argv[2], encoding="ascii") as answers:
        try:
            for number, (line, answer) in enumerate(zip(schedule, answers), 1):
                count.line(number, line.split(), answer.split()[1:])
        except Untold:
            return
    print(count.blocks)


main()
