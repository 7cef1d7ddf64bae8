"""Plays a schedule over files: the same nodes in folders, the same calls in a log, one line after the other. For the
tests of tools/safe, and for bench/safe, which makes schedules too.

The answers of a replay say which calls are accepted and which records a crash leaves, so nothing is judged here. Each
key has the types 5 and 3, which are quick to make.
"""
import hashlib
import os
import random
import subprocess

from answered import OPERATOR, Run, is_good, stays

TAG = f"0x{1:064x}"
HEIGHT, CHAINS, STEPS = 5, 67, 15
LMS, OTS = (5).to_bytes(4, "big"), (3).to_bytes(4, "big")
# The forms of commands over files, where they have the words of a schedule behind their node's name.
OF_NODE = ("accept", "send", "again", "leave", "reclaim", "migrate", "guard", "release", "watch")
OF_OPERATOR = ("offer", "lay", "seal", "bundle", "prove", "absences")


def sha(*parts):
    return hashlib.sha256(b"".join(parts)).digest()


def u16(number):
    return number.to_bytes(2, "big")


def u32(number):
    return number.to_bytes(4, "big")


def u64(number):
    return number.to_bytes(8, "big")


class Key:
    """A stranger's key, by RFC 8554, apart from the program."""

    def __init__(self, seed):
        self.seed = bytes(24) + u64(seed)
        self.name = sha(self.seed)[:16]
        self.nodes = {2**HEIGHT + q: self.leaf(q) for q in range(2**HEIGHT)}
        for node in range(2**HEIGHT - 1, 0, -1):
            below = self.nodes[2 * node], self.nodes[2 * node + 1]
            self.nodes[node] = sha(self.name, u32(node), b"\x83\x83", *below)
        self.public = LMS + OTS + self.name + self.nodes[1]

    def chain(self, q, place, steps):
        value = sha(self.name, u32(q), u16(place), b"\xff", self.seed)
        for step in range(steps):
            value = sha(self.name, u32(q), u16(place), bytes([step]), value)
        return value

    def leaf(self, q):
        ends = [self.chain(q, place, STEPS) for place in range(CHAINS)]
        return sha(self.name, u32(2**HEIGHT + q), b"\x82\x82", sha(self.name, u32(q), b"\x80\x80", *ends))

    def sign(self, q, message):
        c = sha(self.name, u32(q), b"\xff\xfd\xff", self.seed)
        digest = sha(self.name, u32(q), b"\x81\x81", c, message)
        digits = [half for byte in digest for half in (byte >> 4, byte & 15)]
        left = u16(sum(STEPS - digit for digit in digits) << 4)
        digits += [left[0] >> 4, left[0] & 15, left[1] >> 4]
        chains = [self.chain(q, place, digit) for place, digit in enumerate(digits)]
        path = [self.nodes[((2**HEIGHT + q) >> level) ^ 1] for level in range(HEIGHT)]
        return b"".join([u32(q), OTS, c, *chains, LMS, *path])


KEYS = {}


def key_of(seed):
    if seed not in KEYS:
        KEYS[seed] = Key(seed)
    return KEYS[seed]


def quick(schedule):
    """The schedule with keys of the types 5 and 3."""
    lines = (line.split(" ") for line in schedule.splitlines())
    return "".join(" ".join([*it[:4], "5", "3"] if it[0] in ("wallet", "rogue") else it) + "\n" for it in lines)


class Played:
    """The schedule's nodes, each in a folder of the room, and the log."""

    def __init__(self, program, schedule, grammar, room):
        self.program, self.schedule, self.room = program, quick(schedule), room
        done = subprocess.run([program, "replay"], input=self.schedule.encode(), stdout=subprocess.PIPE, check=False)
        self.run = Run(self.schedule, done.stdout.decode(), grammar)
        self.log, self.items, self.offers, self.differs = [], {}, {}, []
        self.roles, self.owners, self.accounts = {OPERATOR: "operator"}, {}, {}

    def folder(self, node):
        return f"{self.room}/{node}"

    def text(self):
        return "".join(f"{line}\n" for line in self.log)

    def steps(self):
        """Plays line by line, and gives the nodes that a line may have changed: all, where the log has grown."""
        for line in self.run.lines:
            had = len(self.log)
            touched = self.play(line)
            looking = [name for name, role in self.roles.items() if role != "operator"]
            yield line, looking if len(self.log) > had else [it for it in touched if it in looking]

    def play(self, line):
        form = line.form
        if form == "chain":
            self.log.append(f"chain {TAG} {line.get('operator')} {line.get('most')}")
            self.init(OPERATOR, "operator", line.get("operator"))
        elif form in ("wallet", "watcher"):
            self.declare(line)
            return [line.get("name")]
        elif form == "rogue":
            self.owner(line, key_of(int(line.get("seed"))).public)
        elif form == "sign":
            self.items[line.number] = self.signed(line)
        elif form in ("fund", "tick") or form.startswith("call ") or form in ("deposit", "enter"):
            self.call(line)
        elif form == "cut":
            self.offers.pop(line.get("node"), None)
            if stays(line) or line.answer[0] == "done":
                self.command(line.inner, line.number)
            return [line.get("node")]
        elif form in OF_NODE + OF_OPERATOR and line.answer[0] != "down":
            self.command(line, line.number)
            return [line.get("wallet") or line.get("watcher") or line.get("node")]
        return []

    # ---- nodes

    def init(self, name, *words):
        os.makedirs(self.folder(name))
        self.roles[name] = words[0]
        self.typed(name, ["init", words[0], TAG, *words[1:]], "")

    def typed(self, name, words, text):
        done = subprocess.run([self.program, *words], cwd=self.folder(name), input=text.encode(),
                              stdout=subprocess.PIPE, check=False)
        return done.stdout.decode().splitlines()

    def declare(self, line):
        name, account = line.get("name"), line.get("account")
        if line.form == "watcher":
            self.init(name, "watcher", account)
            return
        self.init(name, "wallet", account, f"0x{int(line.get('seed')):064x}", "5", "3")
        self.owner(line, key_of(int(line.get("seed"))).public)

    def owner(self, line, public):
        self.owners[line.get("name")] = u64(int(line.get("account"))).hex() + public.hex()
        self.accounts[line.get("name")] = line.get("account"), int(line.get("seed") or 0)

    def bytes_of(self, word):
        """What a token is over files: an item's bytes, an owner, or itself."""
        if word.startswith("#"):
            return self.items.get(int(word[1:]), "0x")
        return f"0x{self.owners[word]}" if word in self.owners else word

    def command(self, line, number):
        """A node's command over its folder; the item and the offers that it makes."""
        name = line.get("wallet") or line.get("watcher") or line.get("node") or OPERATOR
        words = [self.bytes_of(word) for token, word in line.args.items() if token not in ("wallet", "watcher", "node")]
        text = self.text() + "--\n" + " ".join([line.form, *words]) + "\n"
        answer, *more = self.typed(name, [self.roles[name]], text)
        self.offers[name] = [it for it in more if it.startswith("call ")]
        if more and more[0].startswith("0x"):
            self.items[number] = more[0]
        if answer != " ".join(line.answer) and line.answer[0] != "stopped":
            self.differs.append((line.text, line.answer, answer))

    def signed(self, line):
        seed = self.accounts[line.get("rogue")][1]
        owner = bytes.fromhex(self.bytes_of(line.get("to"))[2:])
        last = line.get("last")
        body = (b"PCT2" if last else b"PCT1") + bytes.fromhex(TAG[2:]) + u64(int(line.get("coin")))
        body += u64(int(line.get("parent"))) + owner + (u64(int(last)) if last else b"")
        return f"0x{(body + key_of(seed).sign(int(line.get('leaf')), body)).hex()}"

    # ---- calls

    def call(self, line):
        """A call that was accepted joins the log."""
        if is_good(line):
            self.log.append(self.called(line))

    def called(self, line):
        """The line's call, as a line of a log; none where no such offer is there."""
        if line.form == "enter":
            offers, number = self.offers.get(line.get("node"), []), int(line.get("number"))
            return offers[number - 1] if 0 < number <= len(offers) else None
        if line.form == "deposit":
            account, _ = self.accounts[line.get("wallet")]
            return f"call {account} deposit {line.get('amount')} 0x{self.owners[line.get('wallet')][16:]}"
        if line.form in ("fund", "tick"):
            return line.text
        words = [self.bytes_of(word) for word in line.text.split(" ")]
        if words[2] == "deposit" and not line.text.endswith(words[4]):
            words[4] = "0x" + words[4][18:]
        return " ".join(words)


# ---- schedules

class Made:
    """A schedule of random deeds: two wallets, two strangers, a watcher, and an operator that helps whoever asks."""

    def __init__(self, seed):
        self.dice, self.lines = random.Random(seed), []
        for line in ("chain 1 9 3000", "wallet a 11 1", "wallet b 12 2", "rogue r 21 21", "rogue s 22 22",
                     "watcher g 31"):
            self.say(line)
        for account in (11, 12, 21, 22, 31):
            self.say(f"fund {account} {self.dice.choice((1000, 1000, 139, 39))}")
        self.clock, self.coins, self.blocks, self.leaves, self.spends = 0, [], 0, {"r": 0, "s": 0}, []

    def say(self, line):
        self.lines.append(line)
        return len(self.lines)

    def text(self, deeds):
        """A coin for each wallet, one of which is guarded, and then so many deeds."""
        for who, to in (("r", "a"), ("a", None), ("r", "b")):
            self.deposit(who)
            if to:
                self.send(self.coins[-1], to)
                self.guard(self.coins[-1])
        for _ in range(deeds):
            getattr(self, self.dice.choice(self.DEEDS))()
        return "".join(f"{line}\n" for line in self.lines)

    def coin(self):
        return self.dice.choice(self.coins)

    def deposit(self, who=None):
        who = who or self.dice.choice(("a", "b", "r", "r"))
        amount = self.dice.choice((1, 30, 300))
        self.say(f"deposit {who} {amount}" if who != "r" else f"call 21 deposit {amount} r")
        self.blocks += 1
        self.coins.append([len(self.coins) + 1, who, self.blocks, self.blocks])

    def commit(self):
        self.say("seal")
        self.say("enter op 1")
        self.blocks += 1

    def send(self, coin=None, to=None):
        """The coin's owner signs it away, the operator puts it in a block, and the receiver accepts it."""
        coin = coin or self.coin()
        to = to or self.dice.choice([it for it in ("a", "b", "r", "s") if it != coin[1]])
        if coin[1] in "ab":
            if self.dice.random() < 0.5:
                self.say(f"migrate {coin[1]}")
            item = self.say(f"send {coin[1]} {coin[0]} {to}")
        else:
            item = self.sign(coin[1], coin[0], coin[3], to)
        self.say(f"{self.dice.choice(('offer', 'lay ' + str(coin[0])))} #{item}")
        self.commit()
        self.spends.append((coin[0], coin[3], self.blocks))
        coin[1], coin[3] = to, self.blocks
        if to in "ab" and self.dice.random() < 0.8:
            self.say(f"accept {to} #{self.say(f'bundle {coin[0]} 0')}")

    def sign(self, rogue, coin, parent, to):
        self.leaves[rogue] += 1
        return self.say(f"sign {rogue} {(self.leaves[rogue] - 1) % 32} {coin} {parent} {to}")

    def guard(self, coin=None):
        self.say(f"guard g #{self.say(f'bundle {(coin or self.coin())[0]} 0')}")

    def steal(self):
        """Somebody exits with a deposit that he has spent, or hasn't."""
        coin = self.coin()
        self.say(f"call {self.dice.choice((21, 22))} start {coin[0]} {coin[2]}")

    def rob(self):
        """Somebody exits, and maybe nobody looks until he is paid."""
        coin = self.coin()
        self.say(f"call 21 start {coin[0]} {coin[2]}")
        if self.dice.random() < 0.5:
            self.look()
        for _ in range(3):
            self.clock += 302_400
            self.say(f"tick {self.clock}")
        self.say(f"call 50 finish {coin[0]} {coin[2]}")

    def plant(self):
        """A stranger's transfer is laid without a right to the coin, and another one of it; he exits with that."""
        coin, rogue = self.coin(), self.dice.choice("rs")
        parent = self.dice.choice((coin[3], coin[2], 2000))
        for of in (parent, self.blocks + 1):
            self.say(f"lay {coin[0]} #{self.sign(rogue, coin[0], of, rogue)}")
            self.commit()
        first, second = (self.say(f"prove {coin[0]} {block}") for block in (self.blocks - 1, self.blocks))
        account = 21 if rogue == "r" else 22
        self.say(f"call {account} exit {coin[0]} {self.blocks - 1} #{first} {self.blocks} #{second}")

    def exit(self):
        """An owner by an old spend of it exits."""
        if not self.spends:
            return self.steal()
        coin, parent, block = self.dice.choice(self.spends)
        shown = "-" if parent == self.coins[coin - 1][2] else f"#{self.say(f'prove {coin} {parent}')}"
        opening = self.say(f"prove {coin} {block}")
        return self.say(f"call {self.dice.choice((21, 22))} exit {coin} {parent} {shown} {block} #{opening}")

    def before(self):
        coin = self.coin()
        self.say(f"call {self.dice.choice((21, 22))} before {coin[0]} {self.blocks} {coin[2]} -")

    def leave(self):
        coin = self.coin()
        who = coin[1] if coin[1] in "ab" else self.dice.choice("ab")
        self.say(f"leave {who} {coin[0]}")
        if self.dice.random() < 0.8:
            self.say(f"enter {who} 1")

    def tick(self):
        self.clock += self.dice.choice((1, 302_399, 302_400, 302_401, 604_799, 604_800, 302_400))
        self.say(f"tick {self.clock}")

    def look(self):
        node = self.dice.choice("abg")
        self.say(f"watch {node}")
        for number in range(1, self.dice.choice((1, 2, 3))):
            self.say(f"enter {node} {number}")

    def finish(self):
        coin = self.coin()
        block = self.dice.choice([coin[2], coin[3], *range(max(1, self.blocks - 3), self.blocks + 1)])
        self.say(f"call 50 finish {coin[0]} {block}")

    def crash(self):
        node = self.dice.choice("abg")
        self.say(f"crash {node} {self.dice.choice(('old', 'new'))}")
        self.say(f"open {node}")

    DEEDS = ("deposit", "send", "send", "send", "guard", "steal", "rob", "plant", "exit", "before", "leave", "leave",
             "tick", "tick", "tick", "look", "look", "look", "finish", "finish", "crash")
