"""Schedules of what disputes are made of."""
from schedule_lines import EXIT_OPENS, KEY, MANY, generator


@generator(3_000)
def contract_lines(line, coins):
    """Groups of a deposit, the exit of its coin, the time that passes, and the finish; and accounts that are funded."""
    line("fund 1 1000000000")
    for coin in range(1, coins + 1):
        line(f"call 1 deposit 300 {KEY}")
        line(f"call 1 start {coin} {coin}")
        line(f"tick {EXIT_OPENS * coin}")
        line(f"call 1 finish {coin} {coin}")
    for account in range(80_000):
        line(f"fund {account} 1000")


@generator(MANY)
def ticks(line, count):
    for time in range(1, count + 1):
        line(f"tick {time}")


@generator(10)
def transfers(line, steps):
    """Sixteen coins that go from wallet to wallet, so many times each."""
    line.wallets(16)
    for n in range(16):
        line(f"deposit w{n} 1")
    for step in range(steps):
        for coin in range(16):
            line.moved(coin + 1, (coin + step) % 16, (coin + step + 1) % 16)


@generator(10)
def long_coins(line, guards):
    """A coin that moved once, in block 2,002: it is guarded and let go, so many times."""
    line.wallets(2)
    line("watcher g 50")
    line("deposit w0 1")
    line.blocks(2_000)
    line(f"offer #{line('send w0 1 w1')}")
    line.sealed()
    bundle = line("bundle 1 0")
    for _ in range(guards):
        line(f"guard g #{bundle}")
        line("release g 1 2002")


@generator(1_000)
def watches(line, count):
    """A watcher that guards so many coins, and watches as often."""
    line.wallets(1)
    line("watcher g 50")
    for _ in range(count):
        line("deposit w0 1")
    for coin in range(1, count + 1):
        line(f"guard g #{line(f'bundle {coin} 0')}")
    for _ in range(count):
        line("watch g")


@generator(10_000)
def crashes(line, count):
    """64 wallets that go down and are opened again."""
    line.wallets(64)
    for n in range(64):
        line(f"deposit w{n} 1")
    for n in range(count):
        line(f"crash w{n % 64} old")
        line(f"open w{n % 64}")
