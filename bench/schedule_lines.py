"""What the generators of schedules share: lines by number, a few groups of lines, and the list of generators."""

KEY = "0x0000000500000004" + "0" * 96
MANY = 199_000  # lines; a schedule has at most 200,000
EXIT_OPENS = 907_200  # seconds from an exit's start to its finish
# The generators, by name: each with the size that bench/replay takes.
SCHEDULES = {}
# Those that bench/replay --hostile takes, by name: each with three sizes.
GROWING = {}


class Schedule:
    """Lines that are written one by one: each has its number, by which a later line names what it made."""

    def __init__(self, file):
        self.file, self.count = file, 0
        self("chain 1 9 3000")

    def __call__(self, line):
        self.file.write(f"{line}\n")
        self.count += 1
        return self.count

    def deposits(self, count, key=KEY):
        """Deposits of an account that has no node."""
        self("fund 1 1000000000000")
        for _ in range(count):
            self(f"call 1 deposit 1 {key}")

    def wallets(self, count, types=""):
        """Wallets w0, w1 and so on, each with money."""
        for n in range(count):
            self(f"wallet w{n} {100 + n} {n + 1}{types}")
            self(f"fund {100 + n} 1000000")

    def stranger(self, types="", coins=1):
        """A rogue r with money and so many coins, 1 and so on."""
        self(f"rogue r 50 999{types}")
        self("fund 50 100000000000")
        for _ in range(coins):
            self("call 50 deposit 10 r")

    def sealed(self):
        self("seal")
        return self("enter op 1")

    def blocks(self, count):
        """Blocks of one leaf each, of coins 10 to 25."""
        for n in range(count):
            self(f"lay {10 + n % 16} 0x01")
            self.sealed()

    def moved(self, coin, giver, taker):
        """A coin moves from one wallet to another: the line of the bundle by which it was accepted."""
        self(f"offer #{self(f'send w{giver} {coin} w{taker}')}")
        self.sealed()
        bundle = self(f"bundle {coin} 0")
        self(f"accept w{taker} #{bundle}")
        return bundle

    def moves(self, blocks, coins=1):
        """The first coins of the rogue r move in each of so many blocks: of each the line of its first transfer."""
        tips, first = list(range(1, coins + 1)), None
        for block in range(coins + 1, coins + 1 + blocks):
            signed = [self(f"sign r {block % 32} {coin} {tip} r") for coin, tip in enumerate(tips, 1)]
            for coin, line in enumerate(signed, 1):
                self(f"lay {coin} #{line}")
            self.sealed()
            first, tips = first or signed, [block] * coins
        return first

    def proofs(self, blocks):
        """The line of the opening at coin 1, by block."""
        return {block: self(f"prove 1 {block}") for block in blocks}


def generator(size):
    """Gives a function its place among the generators: its name is that of the function, with blanks."""

    def named(make):
        SCHEDULES[make.__name__.replace("_", " ")] = make, size
        return make

    return named


def growing(*sizes):
    """The same, for a generator that is tried in three sizes."""

    def named(make):
        GROWING[make.__name__.replace("_", " ")] = make, sizes
        return make

    return named
