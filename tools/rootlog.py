"""What a log of a root contract says: coins, exits, challenges and money. It takes the log's word, as a node does:
that each call was accepted. For tools/safe and tools/story; what is due it leaves to the program.
"""
from dataclasses import dataclass, field

from plainly import ANSWER_TIME, CHALLENGE_TIME, EXIT_TIME

EXIT_BOND, CHALLENGE_BOND = 100, 40


@dataclass
class Coin:
    """A coin: its amount, the block of its deposit, who deposited it, and the exit that was paid."""

    number: int
    amount: int
    block: int
    account: int
    key: str
    line: int
    paid: object = None


@dataclass
class Challenge:
    """A challenge of an exit at an older block; the answer is the account that gave it, its line and its block."""

    block: int
    account: int
    line: int
    until: int
    answer: tuple = None

    def is_open(self):
        return self.answer is None


@dataclass
class Exit:
    """An exit: whose it is, of which block, and how it ended: the word, the account of that call, and its line."""

    coin: int
    block: int
    account: int
    parent: int
    shown: str
    line: int
    start: int
    challenges: list = field(default_factory=list)
    end: tuple = None

    @property
    def closes(self):
        """The time from which it can't be cancelled or challenged."""
        return self.start + CHALLENGE_TIME

    @property
    def opens(self):
        """The time from which it may be finished."""
        return self.start + EXIT_TIME

    def open_challenges(self):
        return [one for one in self.challenges if one.is_open()]


class Log:
    """A log, followed line by line."""

    def __init__(self, text=""):
        self.lines, self.clock, self.blocks, self.operator, self.most = 0, 0, 0, None, None
        self.tag, self.coins, self.exits, self.money, self.committed = "", {}, [], {}, set()
        for line in text.splitlines():
            self.add(line)

    def add(self, line):
        """The line's call, which was accepted."""
        self.lines += 1
        words = line.split(" ")
        if words[0] == "chain":
            self.tag, self.operator, self.most = words[1], int(words[2]), int(words[3])
        elif words[0] == "fund":
            self.pay(int(words[1]), int(words[2]))
        elif words[0] == "tick":
            self.clock = int(words[1])
        elif words[0] == "call":
            getattr(self, f"of_{words[2]}")(int(words[1]), *words[3:])

    def pay(self, account, amount):
        self.money[account] = self.money.get(account, 0) + amount

    def standing(self, coin=None):
        return [it for it in self.exits if it.end is None and coin in (None, it.coin)]

    def exit_of(self, coin, block):
        """The exit of the coin at the block that stands."""
        return next(it for it in self.standing(int(coin)) if it.block == int(block))

    # ---- the calls

    def of_deposit(self, account, amount, key):
        self.blocks += 1
        self.pay(account, -int(amount))
        number = len(self.coins) + 1
        self.coins[number] = Coin(number, int(amount), self.blocks, account, key, self.lines)

    def of_commit(self, account, root):
        self.blocks += 1
        self.committed.add(self.blocks)

    def of_start(self, account, coin, block):
        self.starts(account, coin, 0, block, "-")

    def of_exit(self, account, coin, parent, shown, block, opening):
        self.starts(account, coin, parent, block, opening)

    def starts(self, account, coin, parent, block, shown):
        self.pay(account, -EXIT_BOND)
        self.exits.append(Exit(int(coin), int(block), account, int(parent), shown, self.lines, self.clock))

    def of_after(self, account, coin, block, spend, opening):
        self.cancels(account, coin, block, "after", opening)

    def of_between(self, account, coin, block, spend, opening):
        self.cancels(account, coin, block, "between", opening)

    def cancels(self, account, coin, block, how, opening):
        it = self.exit_of(coin, block)
        self.pay(account, EXIT_BOND)
        self.give_back(it)
        it.end = (how, account, self.lines, opening)

    def give_back(self, it):
        for one in it.open_challenges():
            self.pay(one.account, CHALLENGE_BOND)

    def of_before(self, account, coin, block, at, shown):
        self.pay(account, -CHALLENGE_BOND)
        made = Challenge(int(at), account, self.lines, self.clock + ANSWER_TIME)
        self.exit_of(coin, block).challenges.append(made)

    def of_respond(self, account, coin, block, challenged, spend, opening):
        one = next(it for it in self.exit_of(coin, block).challenges if it.block == int(challenged))
        one.answer = (account, self.lines, int(spend))
        self.pay(account, CHALLENGE_BOND)

    def of_finish(self, account, coin, block):
        it, made = self.exit_of(coin, block), self.coins[int(coin)]
        challenged = it.open_challenges()
        if not challenged and made.paid is None:
            self.pay(it.account, made.amount + EXIT_BOND)
            made.paid = it
            it.end = ("paid", account, self.lines, "")
            return
        self.pay(challenged[0].account if challenged else it.account, EXIT_BOND)
        self.give_back(it)
        it.end = ("dropped", account, self.lines, "")
