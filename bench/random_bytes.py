"""Steps of a random schedule whose transfers, blocks, openings and bundles are byte strings of its own, some of them
spoiled in one place. For bench/agree.
"""
from live_schedule import OPERATOR, Transfer
from plasma_bytes import DEFAULTS, Tree, body, bundle, hexed, opening, owner, seed_of, sha, signature, signer, u32, u64
from random_calls import Calls


def spoiled(random, content):
    """Bytes with one place that isn't as it was."""
    kind = random.randrange(6)
    if kind < 3 and content:
        at = random.choice([random.randrange(len(content)), random.randrange(min(len(content), 200))])
        return content[:at] + bytes([content[at] ^ 1 << random.randrange(8)]) + content[at + 1 :]
    if kind == 3:
        return content[: -random.choice([1, 1, 8, 32])]
    if kind == 4:
        return content + bytes(random.choice([1, 1, 32]))
    return content[:1] + content[2:]


class Raw(Calls):
    """The steps with bytes of their own: keys by name, and the tree of each block."""

    def __init__(self, world, keys, sane=0.85, spoil=0.12):
        super().__init__(world, sane)
        self.keys, self.spoil, self.blocks = keys, spoil, {}

    def maybe_spoiled(self, content):
        return spoiled(self.random, content) if self.chance(self.spoil) else content

    # ---- transfers and blocks

    def owner_of(self, name):
        account = self.world.rogues.get(name) or self.world.wallets.get(name) or 50
        return owner(account, self.keys[name])

    def transfer(self, coin):
        """A transfer of a coin, mostly of its tip by its owner, and what it says."""
        name = coin.owner if coin.owner in self.keys and self.chance(self.sane) else self.random.choice([*self.keys])
        to = self.random.choice([*self.keys])
        parent = self.some([coin.tip], *coin.leaves, coin.block, 0, self.world.blocks + 1)
        number = coin.number if self.chance(0.96) else self.coin_number()
        last = None if self.chance(0.6) else self.world.blocks + self.random.choice([0, 1, 1, 2, 5])
        tag = bytes(31) + b"\1" if self.chance(0.97) else bytes(32)
        text = body(number, parent, self.owner_of(to), last, tag)
        if self.chance(0.02):
            text = self.random.choice([b"PCT3", b"PCR1", b"pct1"]) + text[4:]
        key = self.keys[name]
        random = sha(bytes([self.random.randrange(3)])) if self.chance(0.3) else None
        signed = text + signature(key, self.random.randrange(32), text if self.chance(0.95) else b"other", random)
        if self.chance(0.04):
            signed = signed[: self.random.choice([0, 4, 115, 116, 117, 123, 124, len(signed) - 1])]
        return self.maybe_spoiled(signed), Transfer(0, coin.number, parent, to, last, name)

    def commit(self):
        """A block of a few transfers, whose root the operator's account commits by hand."""
        leaves, said = {}, {}
        for coin in self.random.sample([*self.world.coins.values()], min(len(self.world.coins), 2)):
            leaves[coin.number], said[coin.number] = self.transfer(coin)
        if self.chance(0.1):
            leaves[self.random.choice([0, 2**63, 2**64 - 1, 7])] = b"\1"
        tree = Tree(leaves)
        answer = self.world(f"call {OPERATOR} commit {hexed(tree.root)}")
        if answer[0] != "committed":
            return
        block = int(answer[1])
        self.blocks[block] = tree
        for number, made in said.items():
            if leaves[number]:
                self.world.coins[number].leaves[block] = made
                self.world.follow(self.world.coins[number], made)

    empty_block = pass_on = plant = seal = commit

    # ---- openings and bundles

    def opening(self, number, block):
        tree = self.blocks.get(block)
        if tree is None:
            return opening(b"", {})
        kind = self.random.randrange(100)
        siblings, leaf = tree.siblings(number), tree.leaves.get(number, b"")
        if kind in (0, 3, 4, 5):
            # (a sibling that is the default of its level, as no proof has it)
            level = self.random.randrange(64)
            siblings = {level: DEFAULTS[level], **siblings}
        elif kind == 1 and siblings:
            siblings.pop(self.random.choice([*siblings]))
        elif kind == 2:
            return u32(len(leaf)) + leaf + u64(2**64 - 1) + b"".join(DEFAULTS[:64])
        elif kind == 6:
            return u32(len(leaf) + self.random.choice([-1, 1, 2**31]) & 2**32 - 1) + opening(leaf, siblings)[4:]
        return opening(leaf, siblings)

    def shown(self, coin, block):
        if self.chance(0.02):
            return self.item()
        other = self.block(coin) if self.chance(0.02) else block
        return hexed(self.maybe_spoiled(self.opening(coin.number, other)))

    def items(self, number, first, last):
        committed = [block for block in range(first, last + 1) if block in self.blocks]
        listed = [(block, self.opening(number, block)) for block in committed]
        kind = self.random.randrange(30)
        if kind == 0 and listed:
            listed.pop(self.random.randrange(len(listed)))
        elif kind == 1 and len(listed) > 1:
            listed[-2:] = reversed(listed[-2:])
        elif kind == 2 and listed:
            listed.insert(0, self.random.choice(listed))
        elif kind == 3:
            listed.append((self.random.choice([0, last + 1, self.world.blocks, 2**64 - 1]), opening(b"", {})))
        elif kind == 4:
            listed.insert(0, (self.random.choice([0, max(first - 1, 0), 1]), opening(b"", {})))
        return listed

    def bundle(self, number, first, tip):
        made = bundle(number, tip, self.items(number, first, tip))
        if self.chance(0.03):
            made = bundle(self.coin_number(), self.block(), self.items(number, first, tip))
        if self.chance(0.02):
            made = made[:16] + u32(self.random.choice([0, 1, 2**32 - 1])) + made[20:]
        return hexed(self.maybe_spoiled(made))

    def take(self, coin=None):
        coin = coin or self.coin()
        names = [*self.world.wallets, *self.world.watchers]
        if not coin or not names:
            return
        tip = self.some([coin.tip], *coin.leaves, self.world.blocks)
        owner_name = [coin.owner] if coin.owner in self.world.wallets else names
        bundle_word = self.bundle(coin.number, coin.block + 1, tip)
        for name in sorted({self.some(owner_name, *names), self.some([*self.world.watchers], *names)} - {0}):
            self.world(f"{'guard' if name in self.world.watchers else 'accept'} {name} {bundle_word}")

    def reclaim(self):
        sent = [it for it in self.world.transfers if it.last and it.signer in self.world.wallets]
        if sent:
            it = self.random.choice(sent[-3:])
            while self.world.blocks < int(it.last) < self.world.blocks + 3 and self.chance(0.85):
                self.commit()
            last = self.some([int(it.last)], self.world.blocks, int(it.last) + 1)
            self.world(f"reclaim {it.signer} {self.bundle(it.coin, it.parent + 1, last)}")

    def item(self):
        coin = self.coin()
        if not coin or self.chance(0.3):
            return super().item()
        kind = self.random.randrange(3)
        if kind == 0:
            return hexed(self.transfer(coin)[0])
        if kind == 1:
            return hexed(self.opening(coin.number, self.block(coin)))
        return self.bundle(coin.number, coin.block + 1, coin.tip)


def key_of(number, types=(5, 3)):
    return signer(number, *types)


def seed_word(number):
    return hexed(seed_of(number))
