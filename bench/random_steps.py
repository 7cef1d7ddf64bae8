"""What a random schedule is put together from: each step adds a line or some, mostly such as make sense by what the
lines before were answered. For bench/agree.
"""
from live_schedule import ANSWER_TIME, EXIT_TIME, OPERATOR, WINDOW
from plasma_bytes import hexed

EDGES = [0, 1, 2, 3, 39, 40, 41, 99, 100, 101, 139, 140, 255, 256, 1023, 1024, 3000, 3001, 2**32 - 1, 2**32, 2**40 - 1,
         2**40, 2**40 + 1, 2**62 - 1, 2**62, 2**62 + 1, 2**63, 2**64 - 2, 2**64 - 1]
STRANGERS = [50, 51, 52]


class Steps:
    """The steps over a world; `sane` is how often a word is the one that makes sense."""

    def __init__(self, world, sane=0.85):
        self.world, self.random, self.sane = world, world.random, sane
        self.haste = self.random.choice([0.15, 0.3, 0.6])

    # ---- words

    def chance(self, share):
        return self.random.random() < share

    def some(self, likely, *others):
        """One of the likely words, or now and then another one."""
        likely = [*likely]
        if likely and self.chance(self.sane):
            return self.random.choice(likely)
        return self.random.choice([*likely, *others] or [0])

    def name(self, *kinds):
        known = [name for kind in kinds for name in getattr(self.world, kind)]
        return self.random.choice(known) if known else None

    def coin(self):
        known = [*self.world.coins]
        return self.world.coins.get(self.some(known[-4:] or known, *known)) if known else None

    def coin_number(self):
        return self.some(self.world.coins, 0, len(self.world.coins) + 1, 2**64 - 1)

    def block(self, coin=None):
        """A block's number, mostly one with a leaf of the coin."""
        likely = [*coin.leaves, coin.block] if coin else range(1, self.world.blocks + 1)
        return self.some(likely, self.world.blocks, self.world.blocks + 1, 0, 1, 2**64 - 1)

    def stranger(self):
        """An account that isn't a wallet's, mostly."""
        likely = [*self.world.rogues.values(), *STRANGERS, *self.world.watchers.values()]
        return self.random.choice(likely) if not self.chance(0.003) else self.random.choice([OPERATOR, *EDGES])

    def item(self):
        """Bytes that some line made, or others."""
        known = [f"#{line}" for line in self.world.items[-12:]]
        return self.some(known, "0x", "0x00", "#0", f"#{self.world.last + 1}", "#1", f"#{2**64 - 1}",
                         hexed(self.random.randbytes(self.random.randrange(140))))

    def money_for(self, account, amount=1000):
        if self.chance(0.9):
            self.world(f"fund {account} {amount}")

    # ---- the chain

    def fund(self):
        amount = self.random.choice([0, 1, 40, 99, 100, 140, 500, 10_000, self.random.choice(EDGES[:24])])
        self.world(f"fund {self.some(self.world.accounts, *STRANGERS, 2**64 - 1)} {amount}")

    def money(self):
        self.world(f"money {self.some(self.world.accounts, *STRANGERS)}")

    def tick(self):
        """To a deadline or beside it, a little on, or back."""
        due = [time for time in self.world.deadlines if time >= self.world.clock]
        if due and self.chance(self.haste):
            time = self.random.choice([min(due), min(due), *due]) + self.random.choice([-1, 0, 0, 0, 1])
        elif self.chance(0.1):
            time = self.world.clock + self.random.choice([ANSWER_TIME, WINDOW, EXIT_TIME, -1])
        else:
            time = self.world.clock + self.random.choice([0, 1, 1000])
        self.world(f"tick {max(time, 0)}")

    def tick_far(self):
        self.world(f"tick {self.random.choice([2**40 - 1, 2**40, 2**40 + 1, 2**64 - 1, self.world.clock])}")

    def commit(self):
        """A block of any root."""
        self.world(f"call {self.some([OPERATOR], *STRANGERS)} commit {hexed(self.random.randbytes(32))}")

    # ---- deposits and transfers

    def deposit(self):
        name = self.name("wallets")
        if name:
            amount = self.random.choice([1, 5, 100, 300, 0, 2**62])
            self.money_for(self.world.wallets[name], self.random.choice([amount % 2**40 + 300, 40, 100, amount]))
            self.world(f"deposit {name} {amount}")

    def deposit_of_stranger(self):
        name = self.name("rogues")
        if name:
            account = self.world.rogues[name] if self.chance(self.sane) else self.stranger()
            amount = self.random.choice([1, 100, 300, 0])
            self.money_for(account)
            key = self.some([name], *self.world.wallets, hexed(b"\0\0\0\5\0\0\0\4" + bytes(48)),
                            hexed(b"\0\0\0\7\0\0\0\4" + bytes(48)), hexed(bytes(56)))
            self.world(f"call {account} deposit {amount} {key}")

    def last_block(self):
        """The words of a transfer's last block, or none."""
        if self.chance(0.5):
            return ""
        return f" {self.world.blocks + self.random.choice([0, 1, 1, 2, 2, 3, 10])}"

    def sign(self, coin=None):
        """A transfer by a rogue's key: mostly of a coin of it."""
        coin, name = coin or self.coin(), self.name("rogues")
        if not name or not coin:
            return None
        name = coin.owner if coin.owner in self.world.rogues and self.chance(self.sane) else name
        leaf = self.some([self.world.leaf_of[name]], 0, 1, 31) % 32
        self.world.leaf_of[name] = leaf + 1
        to = self.some([*self.world.rogues, *self.world.wallets])
        parent = self.some([coin.tip], *coin.leaves, coin.block, 0, self.world.blocks, self.world.blocks + 1)
        number = coin.number if self.chance(0.95) else self.coin_number()
        self.world(f"sign {name} {leaf} {number} {parent} {to}{self.last_block()}")
        return f"#{self.world.last}", coin.number

    def send(self, coin=None):
        """A wallet sends a coin, mostly one that it has."""
        coin, name = coin or self.coin(), self.name("wallets")
        if not coin or not name:
            return None
        name = coin.owner if coin.owner in self.world.wallets and self.chance(self.sane) else name
        to = self.some([*self.world.wallets], *self.world.rogues, hexed(bytes(64)))
        answer = self.world(f"send {name} {coin.number} {to}{self.last_block()}")
        if answer == ["refused", "old-journal"] and self.chance(0.8):
            self.world(f"migrate {name}")
            self.world(f"send {name} {coin.number} {to}{self.last_block()}")
        return f"#{self.world.last}", coin.number

    def again(self):
        name = self.name("wallets")
        if name:
            self.world(f"again {name} {self.coin_number()}")

    def migrate(self):
        name = self.name("wallets")
        if name:
            self.world(f"migrate {name}")

    def seal(self):
        self.world("seal")
        if self.chance(0.93):
            self.world(f"enter op {self.some([1], 0, 2)}")

    def pass_on(self):
        """A whole transfer, of a wallet or of a rogue, into a block and to its new owner."""
        coin = self.coin()
        of_wallet = coin and coin.owner in self.world.wallets
        made = self.send(coin) if of_wallet != self.chance(0.05) else self.sign(coin)
        if made and self.world.answers[-1].split(" ")[0] in ("sent", "signed"):
            item, number = made
            if self.chance(0.8):
                self.world(f"offer {item}")
            if not self.world.answers[-1].startswith("pooled") and self.chance(0.6):
                self.world(f"lay {number} {item}")
            self.seal()
            if self.chance(0.8):
                self.take(self.world.coins[number])

    def offer(self):
        self.world(f"offer {self.item()}")

    def lay(self):
        """Bytes at a coin: mostly a transfer of it, new or old."""
        coin = self.coin()
        if coin:
            known = [f"#{it.line}" for it in self.world.transfers if it.coin == coin.number]
            junk = self.random.choice(["0x", "0x01", hexed(self.random.randbytes(60)), "#0"])
            self.world(f"lay {coin.number} {self.some(known, junk)}")
            if self.chance(0.7):
                self.seal()

    def plant(self):
        """A transfer that spends any parent, into a block."""
        made = self.sign()
        if made:
            self.world(f"lay {made[1]} {made[0]}")
            self.seal()

    def laid(self, coin, name, parent, to):
        """A transfer that a rogue signs and the operator lays, in a block of its own: the block."""
        leaf = self.world.leaf_of[name] % 32
        self.world.leaf_of[name] += 1
        self.world(f"sign {name} {leaf} {coin.number} {parent} {to}")
        self.world(f"lay {coin.number} #{self.world.last}")
        self.world("seal")
        self.world("enter op 1")
        return self.world.blocks

    def links(self):
        """A coin of a rogue passes on a few times."""
        own = [coin for coin in self.world.coins.values() if coin.owner in self.world.rogues]
        coin = self.random.choice(own) if own else None
        for _ in range(self.random.choice([1, 2, 2, 3, 4])):
            if coin and coin.owner in self.world.rogues:
                to = self.random.choice([*self.world.rogues] * 3 + [*self.world.wallets])
                self.laid(coin, coin.owner, coin.tip, to)

    def exit_begun(self, coin, name, parent, exit):
        """The account of a rogue begins the exit of a transfer."""
        account = self.world.rogues[name]
        self.money_for(account, 100)
        shown = "-"
        if parent != coin.block:
            self.world(f"prove {coin.number} {parent}")
            shown = f"#{self.world.last}"
        self.world(f"prove {coin.number} {exit}")
        self.world(f"call {account} exit {coin.number} {parent} {shown} {exit} #{self.world.last}")

    def double_spend(self):
        """An owner spends a coin twice, and the second new owner exits, mostly."""
        coin = self.coin()
        if coin and coin.owner in self.world.rogues:
            giver, parent = coin.owner, coin.tip
            self.laid(coin, giver, parent, self.some([*self.world.wallets, *self.world.rogues]))
            if self.chance(0.7):
                self.take(coin)
            taker = self.random.choice([*self.world.rogues])
            exit = self.laid(coin, giver, parent, taker)
            if self.chance(0.9):
                self.exit_begun(coin, taker, parent, exit)

    def planted_pair(self):
        """A parent that spends nothing good, and what spends it; mostly an exit of that is begun."""
        coin, name = self.coin(), self.name("rogues")
        if not coin or not name:
            return
        parent = self.laid(coin, name, self.some([coin.tip, coin.block, *coin.leaves], 0), name)
        exit = self.laid(coin, name, parent, name)
        if self.chance(0.85):
            account = self.world.rogues[name]
            self.money_for(account, 100)
            self.world(f"prove {coin.number} {parent}")
            self.world(f"prove {coin.number} {exit}")
            last = self.world.last
            self.world(f"call {account} exit {coin.number} {parent} #{last - 1} {exit} #{last}")

    def empty_block(self):
        if self.chance(0.5):
            self.world("seal")
            self.world("enter op 1")
        else:
            self.commit()

    # ---- histories

    def take(self, coin=None):
        """A bundle, and who takes it."""
        coin = coin or self.coin()
        if not coin:
            return
        tip = self.some([0, coin.tip], *coin.leaves, self.world.blocks)
        self.world(f"bundle {coin.number} {tip}")
        bundle = self.last_item()
        names = [*self.world.wallets, *self.world.watchers]
        owner = [coin.owner] if coin.owner in self.world.wallets else names
        for name in sorted({self.some(owner, *names), self.some([*self.world.watchers], *names)} - {0}):
            self.world(f"{'guard' if name in self.world.watchers else 'accept'} {name} {bundle}")

    def last_item(self):
        return f"#{self.world.last}" if self.chance(0.97) else self.item()

    def take_any(self):
        names = [*self.world.wallets, *self.world.watchers]
        name = self.random.choice(names) if names else None
        if name:
            self.world(f"{'guard' if name in self.world.watchers else 'accept'} {name} {self.item()}")

    def release(self):
        name, coin = self.name("watchers"), self.coin()
        if name and coin:
            self.world(f"release {name} {coin.number} {self.some([coin.tip], *coin.leaves, coin.block)}")

    def reclaim(self):
        """Absences up to a transfer's last block, and its sender takes it back."""
        sent = [it for it in self.world.transfers if it.last and it.signer in self.world.wallets]
        if not sent:
            return
        it = self.random.choice(sent[-3:])
        while self.world.blocks < int(it.last) < self.world.blocks + 3 and self.chance(0.85):
            self.empty_block()
        after = self.some([it.parent], it.parent - 1, it.parent + 1, 0)
        self.world(f"absences {it.coin} {max(after, 0)} {self.some([it.last], self.world.blocks)}")
        self.world(f"reclaim {it.signer} {self.last_item()}")

    def absences(self):
        self.world(f"absences {self.coin_number()} {self.block()} {self.block()}")

    def prove(self):
        coin = self.coin()
        self.world(f"prove {coin.number if coin else 1} {self.block(coin)}")

    # ---- who looks

    def watch(self):
        names = [*self.world.wallets, *self.world.watchers]
        if not names:
            return
        name = self.random.choice(names)
        answer = self.world(f"watch {name}")
        count = int(answer[1]) if answer[0] == "offers" else 0
        share = self.random.choice([0, 0.5, 1, 1, 1])
        for number in range(1, count + 1):
            if self.chance(share):
                self.world(f"enter {name} {number}")

    def look(self):
        """Everybody watches, enters what is due, and watches again; then maybe somebody does something else."""
        for name in [*self.world.wallets, *self.world.watchers]:
            answer = self.world(f"watch {name}")
            for number in range(1, int(answer[1]) + 1 if answer[0] == "offers" else 1):
                self.world(f"enter {name} {number}")
        for name in [*self.world.wallets, *self.world.watchers]:
            if self.chance(0.8):
                self.world(f"watch {name}")
        if self.chance(0.3):
            self.random.choice([self.fund, self.money, self.again, self.release])()
        for name in [*self.world.wallets, *self.world.watchers]:
            if self.chance(0.08):
                self.world(f"open {name}")
        if self.chance(self.haste):
            self.tick()

    def look_on(self):
        """Everybody watches until nothing is due, and then maybe does something else, or somebody calls."""
        names = [*self.world.wallets, *self.world.watchers]
        for name in names:
            answer = self.world(f"watch {name}")
            for number in range(1, int(answer[1]) + 1 if answer[0] == "offers" else 1):
                self.world(f"enter {name} {number}")
        for name in names:
            self.world(f"watch {name}")
        lines = {"open": [f"open {name}" for name in names], "call": ["fund 50 1"], "nothing": [],
                 "refused": [f"again {name} 0" if name in self.world.wallets else f"release {name} 0 0"
                             for name in names]}
        for line in lines[self.random.choice(["open", "open", "nothing", "nothing", "call", "refused"])]:
            self.world(line)

    def taken_back(self):
        """A wallet sends a coin that no block takes, and takes it back when the last block is there."""
        held = [coin for coin in self.world.coins.values() if coin.owner in self.world.wallets]
        if not held:
            return
        coin = self.random.choice(held)
        if self.chance(0.6):
            self.world(f"migrate {coin.owner}")
        last = self.world.blocks + self.random.choice([1, 1, 2, 3])
        answer = self.world(f"send {coin.owner} {coin.number} {self.random.choice([*self.world.wallets])} {last}")
        for _ in range(last - self.world.blocks if answer[0] == "sent" else 0):
            self.world("seal")
            self.world("enter op 1")
        self.world(f"absences {coin.number} {coin.tip} {last}")
        self.world(f"reclaim {coin.owner} #{self.world.last}")
        if self.chance(0.5):
            self.send(coin)

    def enter(self):
        name = self.some([*self.world.wallets, *self.world.watchers, "op"])
        if name:
            self.world(f"enter {name} {self.random.choice([0, 1, 1, 2, 3, 2**64 - 1])}")

    def leave(self):
        coin, name = self.coin(), self.name("wallets")
        if coin and name:
            name = coin.owner if coin.owner in self.world.wallets and self.chance(self.sane) else name
            self.world(f"leave {name} {coin.number}")
            if self.chance(0.9):
                self.world(f"enter {name} 1")
