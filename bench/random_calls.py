"""Steps of a random schedule that are raw calls of a dispute, and crashes. For bench/agree."""
from live_schedule import ANSWER_TIME, EXIT_TIME, OPERATOR, WINDOW
from plasma_bytes import hexed
from random_steps import Steps


class Calls(Steps):
    """The steps, with those of disputes."""

    def __init__(self, world, sane=0.85):
        super().__init__(world, sane)
        self.answered = set()

    def shown(self, coin, block):
        """The opening of a block at the coin, by a line of the operator; seldom another one, or other bytes."""
        if self.chance(0.04):
            return self.item()
        if (coin.number, block) not in self.world.proofs or self.chance(0.1):
            self.world(f"prove {coin.number} {block}")
            return f"#{self.world.last}"
        return f"#{self.world.proofs[coin.number, block]}"

    def shown_or_deposit(self, coin, block):
        """What shows the owner behind a block."""
        likely = "-" if block == coin.block else None
        if likely and self.chance(0.95) or self.chance(0.02):
            return "-"
        return self.shown(coin, block)

    def holder(self, coin, block):
        """The account of the owner behind a block, mostly."""
        made = coin.leaves.get(block)
        name = coin.links[0][1] if block == coin.block else getattr(made, "to", None)
        account = self.world.rogues.get(name)
        return account if account is not None and self.chance(0.93) else self.stranger()

    def exit_of(self, fits=lambda coin, exit: True):
        """A coin and a block of which an exit stands, mostly one that isn't late, and that fits."""
        if not self.world.exits and self.chance(0.8):
            self.start()
        early = [key for key, start in self.world.exits.items() if self.world.clock < start + WINDOW]
        likely = [key for key in early if fits(self.world.coins.get(key[0]), key[1])]
        coin, exit = self.some(likely or early, *self.world.exits, (0, 0))
        found = self.world.coins.get(coin) or self.coin()
        return (found, exit if found and found.number == coin else self.block(found)) if found else (None, 0)

    def parent_of(self, coin, exit):
        return getattr(coin.leaves.get(exit), "parent", coin.block)

    def spend_made(self, coin, parent):
        """A block with a transfer that spends this one: one that is there, or that a rogue makes now."""
        made = coin.leaves.get(parent)
        name = coin.links[0][1] if parent == coin.block else getattr(made, "to", None)
        if not self.spends(coin, parent) and name in self.world.rogues and self.chance(0.5):
            self.laid(coin, name, parent, self.random.choice([*self.world.rogues]))
        return self.some(self.spends(coin, parent), *coin.leaves, self.block(coin))

    def start(self):
        """An exit of the deposit, or of a transfer."""
        coin = self.coin()
        if not coin:
            return
        leaves = [*coin.leaves]
        block = self.some([*leaves[-2:], *leaves[-2:], coin.block, *leaves])
        account = self.holder(coin, block)
        if self.chance(0.6):
            self.money_for(account, 100)
        if block == coin.block and self.chance(0.95):
            self.world(f"call {account} start {coin.number} {self.some([block], self.block(coin))}")
        else:
            self.start_of_transfer(coin, block, account)

    def start_of_transfer(self, coin, block, account):
        made = coin.leaves.get(block)
        parent = self.some([getattr(made, "parent", coin.block)], *coin.leaves, coin.block, self.block(coin))
        shown = self.shown_or_deposit(coin, parent)
        exit = self.shown(coin, block)
        self.world(f"call {account} exit {coin.number} {parent} {shown} {block} {exit}")

    def spends(self, coin, parent):
        """The blocks with a transfer that spends this one."""
        return [block for block, made in coin.leaves.items() if getattr(made, "parent", None) == parent]

    def after(self):
        coin, exit = self.exit_of(self.spends)
        if coin:
            spend = self.spend_made(coin, exit)
            shown = self.shown(coin, spend)
            self.world(f"call {self.stranger()} after {coin.number} {exit} {spend} {shown}")

    def between(self):
        coin, exit = self.exit_of(lambda coin, exit: len(self.spends(coin, self.parent_of(coin, exit))) > 1)
        if coin:
            likely = [block for block in self.spends(coin, self.parent_of(coin, exit)) if block != exit]
            spend = self.some(likely, *coin.leaves, self.block(coin))
            shown = self.shown(coin, spend)
            self.world(f"call {self.stranger()} between {coin.number} {exit} {spend} {shown}")

    def before(self):
        coin, exit = self.exit_of(lambda coin, exit: self.parent_of(coin, exit) > coin.block)
        if coin:
            parent = self.parent_of(coin, exit)
            earlier = [block for block in [coin.block, *coin.leaves] if block < parent]
            block = self.some(earlier, *coin.leaves, coin.block, self.block(coin))
            shown = self.shown_or_deposit(coin, block)
            account = self.stranger()
            if self.chance(0.8):
                self.money_for(account, 40)
            self.world(f"call {account} before {coin.number} {exit} {block} {shown}")

    def respond(self):
        open_ones = [key for key, until in self.world.challenges.items()
                     if key[:2] in self.world.exits and self.world.clock < until and key not in self.answered]
        if not self.world.challenges and self.chance(0.7):
            self.before()
        key = number, exit, challenged = self.some(open_ones or self.world.challenges, (0, 0, 0))
        coin = self.world.coins.get(number) or self.coin()
        if coin:
            likely = [block for block in self.spends(coin, challenged) if block <= self.parent_of(coin, exit)]
            spend = self.some(likely or self.spends(coin, challenged), *coin.leaves, self.block(coin))
            shown, account = self.shown(coin, spend), self.stranger()
            if key in open_ones and self.chance(0.3):
                self.world(f"tick {max(self.world.challenges[key] - self.random.choice([0, 0, 1]), self.world.clock)}")
            answer = self.world(f"call {account} respond {coin.number} {exit} {challenged} {spend} {shown}")
            if answer == ["responded"]:
                self.answered.add(key)
                self.world(f"money {account}")

    def finish(self):
        coin, exit = self.exit_of()
        if coin:
            if self.chance(0.3):
                due = [time for time in self.world.deadlines if time >= self.world.clock]
                if due:
                    self.world(f"tick {max(self.random.choice(due) - self.chance(0.2), 0)}")
            self.world(f"call {self.stranger()} finish {coin.number} {exit}")

    def restart(self):
        """An exit is answered for, cancelled, and begun again."""
        for step in (self.before, self.respond, self.after, self.between):
            if self.chance(0.7):
                step()
        again = [key for key in self.world.challenges if key[:2] not in self.world.exits]
        if again:
            coin, block = self.world.coins[self.random.choice(again)[0]], self.random.choice(again)[1]
            account = self.holder(coin, block)
            self.money_for(account)
            self.start_of_transfer(coin, block, account)
            self.before()
        else:
            self.start()

    def dropped(self):
        """Two new accounts challenge an exit, which is finished when its time has come."""
        coin, exit = self.exit_of(lambda coin, exit: sum(it < self.parent_of(coin, exit) for it in coin.leaves))
        earlier = [it for it in [coin.block, *coin.leaves] if it < self.parent_of(coin, exit)] if coin else []
        if len(earlier) < 2:
            return
        accounts = [2000 + self.world.last, 3000 + self.world.last]
        for account, block in zip(accounts, self.random.sample(earlier, 2)):
            self.world(f"fund {account} 40")
            self.world(f"call {account} before {coin.number} {exit} {block} {self.shown_or_deposit(coin, block)}")
        end = self.world.exits.get((coin.number, exit), 0) + EXIT_TIME
        self.world(f"tick {max(end, self.world.clock)}")
        self.world(f"call {self.stranger()} finish {coin.number} {exit}")
        for account in accounts:
            self.world(f"money {account}")

    def odd_spends(self):
        """An exit, in blocks before which its parent is spent by another key, another parent is, or nothing."""
        own = [coin for coin in self.world.coins.values() if coin.owner in self.world.rogues]
        if not own or len(self.world.rogues) < 2:
            return
        coin = self.random.choice(own)
        giver, parent = coin.owner, coin.tip
        other = next(name for name in self.world.rogues if name != giver)
        blocks = [self.laid(coin, other, parent, giver), self.laid(coin, giver, self.world.blocks, giver)]
        self.empty_block()
        blocks.append(self.world.blocks)
        exit = self.laid(coin, giver, parent, giver)
        self.exit_begun(coin, giver, parent, exit)
        for block in self.random.sample(blocks, 2):
            shown = self.shown(coin, block)
            self.world(f"call {self.stranger()} between {coin.number} {exit} {block} {shown}")

    def penny(self):
        """A new account challenges an exit with a bond, or with a penny less or more."""
        coin, exit = self.exit_of(lambda coin, exit: self.parent_of(coin, exit) > coin.block)
        if coin and self.parent_of(coin, exit) > coin.block:
            account = 1000 + self.world.last
            self.world(f"fund {account} {self.random.choice([39, 40, 40, 41])}")
            earlier = [block for block in [coin.block, *coin.leaves] if block < self.parent_of(coin, exit)]
            block = self.random.choice(earlier)
            self.world(f"call {account} before {coin.number} {exit} {block} {self.shown_or_deposit(coin, block)}")
            self.world(f"money {account}")

    def all_challenges(self):
        """Each earlier block challenges an exit, and some are answered."""
        coin, exit = self.exit_of()
        if not coin:
            return
        for block in [coin.block, *coin.leaves]:
            account = self.stranger()
            self.world(f"fund {account} 40")
            self.world(f"call {account} before {coin.number} {exit} {block} {self.shown_or_deposit(coin, block)}")
        for _ in range(self.random.randrange(3)):
            self.respond()

    def theft(self):
        """A rogue takes a coin that a wallet has, by the wallet's own key where it has it. Deadlines pass, looked at
        or not."""
        name = self.name("rogues")
        victim = self.world.victims.get(name)
        if victim and self.chance(0.6):
            self.money_for(self.world.wallets[victim], 5)
            self.world(f"deposit {victim} 5")
        held = [coin for coin in self.world.coins.values() if coin.owner in self.world.wallets]
        if not held or not name:
            return
        held = held[-1:] if held[-1].owner == victim and self.chance(0.8) else held
        held = [coin for coin in held if coin.owner == victim] or held
        coin = self.random.choice(held)
        parent = coin.tip if self.chance(0.7) else self.laid(coin, name, self.some([coin.tip, coin.block]), name)
        exit = self.laid(coin, name, parent, name)
        self.exit_begun(coin, name, parent, exit)
        begun = self.world.exits.get((coin.number, exit))
        if begun is None:
            return
        for time in (WINDOW, WINDOW + ANSWER_TIME):
            if self.chance(0.6):
                self.look_on()
            elif self.chance(0.3):
                self.respond()
            if self.chance(0.8):
                self.world(f"tick {max(begun + time - self.chance(0.3), self.world.clock)}")
        self.world(f"tick {max(begun + EXIT_TIME, self.world.clock)}")
        self.world(f"call {self.stranger()} finish {coin.number} {exit}")

    # ---- crashes

    def node(self):
        return self.some([*self.world.wallets, *self.world.watchers, "op"])

    def outcome(self):
        mix = f"mix {self.random.choice([0, 1, 2, 5, 100, 2**64 - 1])}"
        return self.random.choice(["old", "new", f"{mix} 0xa5", f"{mix} 0x00", f"{mix} 0xa5ff", f"{mix} 0x37a5",
                                   f"{mix} {hexed(self.random.randbytes(self.random.choice([1, 2, 7])))}"])

    def crash(self):
        self.world(f"crash {self.node()} {self.outcome()}")
        if self.chance(0.8):
            self.open()

    def open(self):
        down = sorted(self.world.down)
        self.world(f"open {self.some(down, self.node())}")

    def cut(self):
        """A command that is stopped, mostly; the node is opened again, mostly, and asked for it."""
        node = self.node()
        command = self.command_of(node)
        calls = self.random.choice([0, 1, 2, 2, 3, 3, 3, 4, 4, 5, 100])
        self.world(f"cut {node} {calls} {self.outcome()} {command}")
        if self.chance(0.85):
            self.world(f"open {node}")
            if self.chance(0.3):
                self.world(f"open {node}")
        if self.chance(0.7):
            self.world(command)

    def command_of(self, node):
        coin = self.coin()
        if node in self.world.down and self.chance(0.8):
            return f"open {node}"
        number = coin.number if coin else 1
        if node == "op":
            return self.random.choice([f"offer {self.item()}", f"lay {number} {self.item()}", "seal", "seal",
                                       f"bundle {number} 0", f"prove {number} {self.block(coin)}", "open op",
                                       f"absences {number} {self.block()} {self.block()}"])
        if node in self.world.watchers:
            tip = coin.tip if coin else 1
            return self.random.choice([f"guard {node} {self.item()}", f"release {node} {number} {tip}",
                                       f"watch {node}", f"open {node}"])
        to = self.some([*self.world.wallets, *self.world.rogues])
        own = [coin for coin in self.world.coins.values() if coin.owner == node]
        mine = self.random.choice(own).number if own else number
        return self.random.choice([f"accept {node} {self.item()}", f"send {node} {mine} {to}{self.last_block()}",
                                   f"again {node} {mine}", f"leave {node} {mine}", f"reclaim {node} {self.item()}",
                                   f"migrate {node}", f"watch {node}", f"open {node}"])

    def operator_s_call(self):
        """The operator's account makes a call itself, by its offer or by hand."""
        self.world(f"call {OPERATOR} commit {hexed(self.random.randbytes(32))}")
