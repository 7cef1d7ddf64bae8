"""Random runs of the forms that keep no file, and of operators that give receipts: receipts, audits, archives,
signatures and words. For bench/agree.
"""
from agreeing import Case, Step
from plasma_bytes import (MARKER, TAG, Tree, bottom_key, bundle, hexed, identity, journal, levels_key,
                          levels_signature, opening, owner, promise, public_key, seed_of, sha, signature, signer,
                          transfer, u32)
from random_bytes import spoiled

HEAD = f"chain {hexed(TAG)} 9 100"
OWNERS = [(21, 20), (22, 21), (23, 22)]


class Chain:
    """A chain of a few coins that pass on, with its log, the tree of each block and each coin's transfers."""

    def __init__(self, random, coins=2, blocks=6):
        self.random, self.keys = random, [signer(seed, 5, 3) for _, seed in OWNERS]
        self.log, self.trees, self.blocks = [HEAD, "fund 21 1000000"], {}, 0
        self.tips, self.transfers, self.holders, self.links = {}, [], {}, {}
        for coin in range(1, coins + 1):
            self.log.append(f"call 21 deposit {random.choice([1, 100])} {hexed(public_key(self.keys[0]))}")
            self.blocks += 1
            self.tips[coin], self.holders[coin], self.links[coin] = self.blocks, 0, [self.blocks]
        for _ in range(random.randrange(blocks)):
            self.block()

    def transfer(self, coin, last=None):
        """The coin's next transfer: its bytes, and the new holder."""
        giver, taker = self.holders[coin], self.random.randrange(len(self.keys))
        to = owner(OWNERS[taker][0], self.keys[taker])
        return transfer(self.keys[giver], self.random.randrange(32), coin, self.tips[coin], to, last), taker

    def block(self, leaves=None):
        """A block with some next transfers, or with other bytes."""
        if self.random.random() < 0.15 and leaves is None:
            self.blocks += 1
            self.log.append(f"call 21 deposit 1 {hexed(bytes.fromhex('0000000500000004') + bytes(48))}")
            return
        made = {}
        for coin in self.tips if leaves is None else ():
            if self.random.random() < 0.5:
                signed, taker = self.transfer(coin, self.random.choice([None, self.blocks + 1, self.blocks + 5]))
                made[coin] = signed if self.random.random() < 0.9 else spoiled(self.random, signed)
                self.transfers.append((coin, self.tips[coin], signed))
                if made[coin] == signed:
                    self.tips[coin], self.holders[coin] = self.blocks + 1, taker
                    self.links[coin].append(self.blocks + 1)
        tree = Tree(made if leaves is None else leaves)
        self.blocks += 1
        self.trees[self.blocks] = tree
        self.log.append(f"call 9 commit {hexed(tree.root)}")

    def opening(self, coin, block):
        return self.trees[block].opening(coin) if block in self.trees else opening(b"", {})

    def bundle(self, coin, first, last):
        listed = [(block, self.opening(coin, block)) for block in range(first, last + 1) if block in self.trees]
        return bundle(coin, last, listed)

    def maybe_spoiled(self, content, share=0.08):
        return spoiled(self.random, content) if self.random.random() < share else content

    def text(self, lines):
        return ("\n".join([*self.log, "--", *lines]) + "\n").encode("latin-1")


# ---- receipts

def asked_transfer(random, chain):
    """A coin's next transfer that a receipt is asked for; often one that isn't taken."""
    coin = random.choice([*chain.tips])
    signed, _ = chain.transfer(coin, random.choice([None, None, chain.blocks + 1, chain.blocks + 2]))
    odd = random.randrange(16)
    if odd == 0:
        signed, _ = chain.transfer(coin, chain.blocks)
    elif odd == 1 and chain.transfers:
        signed = random.choice(chain.transfers)[2]
    elif odd == 2:
        signed = transfer(chain.keys[0], 0, 9, 1, signed[52:116])
    elif odd == 3:
        signed = signed[:-1] + bytes([signed[-1] ^ 1])
    elif odd == 4:
        signed = random.choice([b"PCT3" + signed[4:], signed[:115], signed[:4] + bytes(32) + signed[36:], b""])
    elif odd == 5:
        signed = chain.maybe_spoiled(signed, 1)
    return coin, signed


def desk_records(random):
    """The records of an operator's leaves, mostly with the marker, and mostly promises."""
    marked = random.random() < 0.8
    count = random.choice([0, 0, 1, 1, 31, 32]) if marked else 0
    bound = [u32(q) + promise(1, 1, bytes([q]), 2, 4) for q in range(count)]
    records = [*([MARKER] if marked else []), *bound]
    if random.random() < 0.12:
        odd = [promise(1, 1, b"", 2, 4), b"PCT1" + bytes(112), u32(count) + b"PCT1" + bytes(112), MARKER, b"",
               u32(count) + promise(1, 1, b"", 2, 4)[:99], u32(count) + promise(1, 1, b"", 2, 4, mark=b"PCR2")]
        records.insert(random.choice([0, len(records)]), random.choice(odd))
    return records


def receipts(random):
    """An operator with a key, or without one, is asked for receipts."""
    chain = Chain(random, coins=random.choice([1, 2, 3]), blocks=random.choice([1, 1, 4]))
    key, records = signer(9), desk_records(random)
    files = {"notes.journal": journal(identity("operator", 9, key.seed if random.random() < 0.9 else None)),
             "leaves.journal": journal(*records)}
    lines = []
    for _ in range(random.choice([1, 1, 2, 3])):
        coin, signed = asked_transfer(random, chain)
        due = chain.blocks + random.choice([-1, 0, 1, 1, 1, 2, 3, 2**63])
        lines.append(f"receipt {hexed(signed)} {max(due, 0)}")
        if random.random() < 0.4:
            line = random.choice(["migrate", "seal", f"offer {hexed(signed)}", f"lay {coin} 0x", f"bundle {coin} 0"])
            lines.insert(random.choice([0, len(lines)]), line)
    if MARKER not in records and random.random() < 0.5:
        lines.insert(0, "migrate")
    steps = [Step(["operator"], chain.text(lines), files), Step(["operator"], chain.text(["seal"]))]
    return Case("receipts", steps[: random.choice([1, 1, 2])])


# What may be odd about an audit; most have at most one of these.
ODD_AUDITS = ["short", "mark", "tag", "types", "another key", "signature", "not yet", "bytes", "another coin", "tip",
              "a block less", "a block more", "not opened", "kept", "issued late", "issued early", "more lines",
              "no line"]


def audits(random):
    """A receipt and a bundle, such that convict or have one thing that is odd."""
    odd = random.choice([*ODD_AUDITS, *[None] * 8])
    chain, key, coin = Chain(random, coins=2, blocks=3), signer(random.choice([9, 10]), 5, 3), random.choice([1, 2])
    signed, _ = chain.transfer(coin)
    issued = chain.blocks + {"issued late": 1, "issued early": -1}.get(odd, 0)
    parent = chain.tips[coin]
    for number in range(random.choice([1, 2, 3])):
        kept = odd == "kept" and number == 0
        chain.block({coin: signed} if kept else random.choice([None, {}, {coin: b"\1"}]))
    due = chain.blocks + (odd == "not yet") - (odd == "tip")
    text = promise(coin, parent, signed, issued, due, bytes(32) if odd == "tag" else TAG,
                   b"PCR2" if odd == "mark" else b"PCR1")
    receipt = text + signature(key, random.randrange(32), text)
    receipt = {"short": receipt[: random.choice([0, 99, 100])]}.get(odd, receipt)
    receipt = chain.maybe_spoiled(receipt, 1 if odd == "signature" else 0)
    shown_key = public_key(signer(11 if odd == "another key" else key.seed[-1], 5, 3))
    if odd == "types":
        shown_key = u32(random.choice([4, 5, 7])) + u32(random.choice([2, 5])) + shown_key[8:]
    return Case("audit", [Step(["audit", hexed(shown_key), hexed(receipt)],
                               chain.text(audit_lines(random, chain, odd, coin, issued, due)))])


def audit_lines(random, chain, odd, coin, issued, due):
    """The line of the bundle, and what stands behind it."""
    coin = 3 - coin if odd == "another coin" else coin
    first = issued + 1 + {"a block less": 1, "a block more": -1}.get(odd, 0)
    shown = chain.bundle(coin, first, due + random.choice([0, 1]) if odd == "tip" else due)
    if odd == "not opened":
        shown = chain.bundle(3 - coin, first, due)
        shown = coin.to_bytes(8, "big") + shown[8:]
    lines = [hexed(chain.maybe_spoiled(shown, 1 if odd == "bytes" else 0))]
    if odd == "more lines":
        lines.append(random.choice(["0x", "", "who"]))
    return random.choice([[], ["0x0"], ["x"]]) if odd == "no line" else lines


def archives(random):
    """Openings that are kept in order, or not; events; and what is asked. In most each opening is put, and good."""
    chain, sane = Chain(random, coins=2, blocks=14), random.random() < 0.65
    cut = random.randrange(3, len(chain.log) + 1) if random.random() < 0.3 else len(chain.log)
    events = [f"event {line}" for line in chain.log[cut:]]
    chain.log = chain.log[:cut]
    lines = []
    for coin in chain.tips:
        for block in sorted(chain.trees):
            if sane or random.random() < 0.9:
                other = random.choice([*chain.trees]) if random.random() < 0.05 and not sane else block
                shown = chain.maybe_spoiled(chain.opening(coin, other), 0 if sane else 0.05)
                lines.append(f"put {coin} {block} {hexed(shown)}")
            if random.random() < 0.35:
                lines.append(question(random, chain, coin, sane))
    if lines and random.random() < 0.25 and not sane:
        put = random.choice([it for it in lines if it[:3] == "put"] or lines)
        odd = [put, put.replace("put 1", "put 9", 1).replace("put 2", "put 0", 1), "tip 9"]
        lines.insert(lines.index(put) + 1, random.choice(odd))
    if random.random() < 0.2 and not sane:
        lines.insert(0, random.choice(["event tick 5", "event call 77 finish 1 1", "event chain 0x00 9 5", "event",
                                       "event  x",
                                       f"event {HEAD}", "event money 1", "who", "put 1 1 0x", "put 1 2", "tip"]))
    for event in events:
        lines.insert(random.randrange(len(lines) + 1) if random.random() < 0.3 and not sane else 0, event)
    lines += [question(random, chain, random.choice([1, 2]), sane) for _ in range(2)]
    lines.append(question(random, chain, random.choice([1, 2, 3]), False))
    return Case("archive", [Step(["archive"], chain.text(lines))])


def question(random, chain, coin, sane):
    """What an archive is asked: of a sane run nothing that it refuses, as long as all openings are put."""
    if random.random() < 0.05:
        coin = random.choice([0, 3, 2**64 - 1])
        return f"broken {coin}" if sane else random.choice([f"tip {coin}", f"bundle {coin} 0", f"broken {coin}"])
    if sane and random.random() < 0.75:
        return random.choice([f"tip {coin}", f"tip {coin}", f"broken {coin}"])
    links = chain.links.get(coin, [1])
    tips = links if sane else [*links, 0, 1, 2, chain.blocks, chain.blocks + 1]
    return f"bundle {coin} {random.choice(tips)}"


# ---- words

def verifies(random):
    """Signatures of one level, mostly good ones, or with one thing changed."""
    types = random.choice([(5, 3)] * 8 + [(5, 4)])
    key, message = signer(random.choice([1, 2, 3]), *types), random.randbytes(random.choice([0, 1, 32, 116, 200]))
    signed = signature(key, random.randrange(32), message, random.choice([None, sha(b"other")]))
    if random.random() < 0.25:
        at = random.choice([0, 4, len(signed) - 164])
        signed = signed[:at] + u32(random.choice([0, 1, 3, 4, 5, 6, 31, 32, 33, 1023, 2**32 - 1])) + signed[at + 4 :]
    words = [public_key(key), message, signed]
    return Case("verify", [Step(["verify", *changed_words(random, words)])])


def levels(random):
    """A signature of two levels, seldom of one or three, as it is and with one thing changed."""
    top, number = signer(random.choice([1, 2])), random.choice([0, 1, 31])
    count = random.choice([2] * 10 + [1, 3])
    keys = [top, bottom_key(top, number), bottom_key(top, 1 - number % 2)][:count]
    message = random.randbytes(random.choice([1, 32, 128, 129, 0]))
    signed = levels_signature(keys, [number, 1, 2][:count], message)
    key = levels_key(top, random.choice([count] * 8 + [1, 2, 3]))
    steps = []
    for at in random.sample([0, 0, None, None, 4, 8, 1296, 1300, 1304, 1352, 1356], 4):
        number = u32(random.choice([0, 1, 2, 3, 4, 5, 6]))
        shown = signed if at is None else signed[:at] + number + signed[at + 4 :]
        words = changed_words(random, [key, message, shown], 0.3)
        steps.append(Step(["hss", "verify", *words]))
    return Case("levels", steps, (f"a signature of {count} levels",))


def changed_words(random, words, share=0.4):
    if random.random() < share:
        at = random.randrange(3)
        words[at] = spoiled(random, words[at])
    words = [hexed(word) for word in words]
    if random.random() < 0.03:
        at = random.randrange(3)
        words[at] = random.choice([words[at].upper(), words[at][2:], words[at][:-1], "", "0x", words[at] + " "])
    return words


def makes(random):
    """A schedule that the program makes, and its replay."""
    seed = random.choice([0, 1, 2**64 - 1, random.randrange(2**64)])
    count = random.choice([0, 1, 5, 12])
    seed, count = random.choice([(seed, count)] * 12 + [(f"0{seed}", count), (seed, 10_001), (2**64, 1), ("-1", 1)])
    words = ["make", str(seed), str(count)]
    return Case("make", [Step(words)])


def usages(random):
    """Words that are no form, mostly."""
    forms = ["replay x", "brief ", "", " ", "verify", "hss", "hss verify", "wallet who", "make 1", "archive 1",
             "Replay", "--help", "audit 0x" + "00" * 56, "audit 0x" + "00" * 55 + " 0x", "verify 0x 0x",
             "verify 0x 0x 0x", "verify 0x 0x 0x 0x", "verify 0x0 0x 0x", "verify  0x 0x", "verify 0X 0x 0x",
             "hss verify 0x 0x 0x", "hss verify 0x 0x", "make 1 0", "make  1", "make 1 1 1", "operator ", "watcher x"]
    words = random.choice(forms)
    return Case("usage", [Step(words.split(" ") if words else [], b"chain 1 9 100\n")])


def nothing_there(random):
    """A node's form in a folder that lacks its files."""
    role = random.choice(["wallet", "operator", "watcher"])
    files = random.choice([{}, {"notes.journal": b""}, {"leaves.journal": journal()}, {"notes.journal": journal()},
                           {"notes.journal": journal(identity("wallet", 11, seed_of(1), 5, 3))},
                           {"notes.journal": journal(identity("operator", 9, seed_of(9)))},
                           {"notes.journal": journal(identity("operator", 9)), "leaves.journal": b"x"},
                           {"notes.journal": journal(identity("watcher", 14)), "leaves.journal": b"x"}])
    return Case("nothing", [Step([role], f"{HEAD}\n--\nwatch\n".encode(), files)])


# ---- nodes and signers that are begun

BEGUN = {"no byte": b"", "less than a mark": b"PG", "a mark": b"PGJ1", "five other bytes": b"abcde",
         "six other bytes": b"abcdef", "no record": journal(), "no record, and another end": journal(end=b"\x37"),
         "no record, and bytes behind it": journal() + b"\xa5\0", "an empty record": journal(b""),
         "a record": journal(identity("watcher", 14)), "a record that is cut": journal(b"\x03")[:-2],
         "a record that is begun": b"PGJ1\xa5\0\0"}


def inits(random):
    """An `init`, mostly one that is begun over files."""
    tag, seed = hexed(TAG), hexed(seed_of(random.choice([1, 2])))
    words = random.choice([["init", "wallet", tag, "11", seed], ["init", "wallet", tag, "11", seed, "6", "3"],
                           ["init", "wallet", tag, "11", seed, "5", "4"], ["init", "operator", tag, "9"],
                           ["init", "operator", tag, "9", seed], ["init", "watcher", tag, "14"],
                           ["hss", "init", seed]])
    if random.random() < 0.15:
        at = random.randrange(1, len(words) + 1)
        words = random.choice([words[:at], [*words, "5"], [*words[:at], "7", *words[at + 1 :]],
                               [*words[:at], words[-1][:-2], *words[at + 1 :]]])
    names = random.sample(["notes.journal", "leaves.journal"], random.choice([0, 1, 1, 2]))
    kinds = [random.choice([*BEGUN]) for _ in names]
    files = {name: BEGUN[kind] for name, kind in zip(names, kinds)}
    marks = [f"an init over {name[:5]}: {kind}" for name, kind in zip(names, kinds)]
    return Case("init", [Step(words, b"", files), Step(words)], tuple(marks))


def signer_records(random, top):
    """The records of a signer's leaves, and what is odd about them."""

    def begun(number, key=None):
        return b"\1" + u32(number) + (key or public_key(bottom_key(top, number)))

    def bound(number, leaf, message=b"m"):
        return b"\2" + u32(number) + u32(leaf) + message

    full = [bound(0, leaf) for leaf in range(32)]
    return random.choice([
        ("none", []), ("none", []), ("a key without messages", [begun(0)]),
        ("messages of each length", [begun(0), bound(0, 0), bound(0, 1, bytes(128))]),
        ("one leaf left", [begun(0), *full[:31]]), ("no leaf left", [begun(0), *full]),
        ("two keys", [begun(0), *full[:2], begun(1), bound(1, 0)]), ("another key", [begun(0, bytes(56))]),
        ("the next key's", [begun(0, public_key(bottom_key(top, 1)))]), ("the second key first", [begun(1)]),
        ("a key twice", [begun(0), begun(0)]), ("a leaf twice", [begun(0), bound(0, 0), bound(0, 0)]),
        ("a leaf left out", [begun(0), bound(0, 1)]), ("another key's leaf", [begun(0), bound(1, 0)]),
        ("one leaf too many", [begun(0), *full, bound(0, 32)]), ("no key", [bound(0, 0)]),
        ("a message of no byte", [begun(0), bound(0, 0, b"")]), ("a long message", [begun(0), bound(0, 0, bytes(129))]),
        ("a short key", [begun(0)[:-1]]), ("another kind", [begun(0), b"\3" + bytes(8)]),
    ])


def signs(random):
    """Signatures of two levels by a signer's files, good ones or changed ones."""
    top = signer(1)
    said, made = signer_records(random, top)
    if random.random() < 0.01:
        said, made = "all leaves spent", [b"\1" + u32(j) + public_key(bottom_key(top, j)) for j in range(32)]
        made += [b"\2" + u32(31) + u32(leaf) + b"m" for leaf in range(32)]
    first = b"\x31" + top.seed
    notes = random.choice([[first]] * 12 + [[], [first, first], [first + b"\0"], [identity("watcher", 14)]])
    files = {"notes.journal": journal(*notes), "leaves.journal": journal(*made)}
    if random.random() < 0.1:
        files["leaves.journal"] = spoiled(random, files["leaves.journal"])
    message = random.randbytes(random.choice([1, 1, 32, 127, 128, 129, 0]))
    step = Step(["hss", "sign", hexed(message)], b"", files)
    return Case("sign", [step, Step(["hss", "sign", "0x61"])], (f"a signer's leaves: {said}",))


FORMS = [(receipts, 9), (audits, 10), (archives, 10), (verifies, 5), (levels, 5), (makes, 1), (usages, 2),
         (nothing_there, 2), (inits, 4), (signs, 2)]


def a_form(random):
    makers, weights = zip(*FORMS)
    return random.choices(makers, weights)[0](random)
