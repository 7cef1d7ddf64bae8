"""Schedules that anybody may write. They cost much where a program looks up, tests or digests again what it knows."""
from schedule_lines import EXIT_OPENS, MANY, SCHEDULES, generator


# ---- the contract


@generator(3_000)
def ticks_over_coins(line, coins):
    line.deposits(coins)
    for time in range(1, 100_001):
        line(f"tick {time}")


@generator(3_000)
def refused_ticks_over_coins(line, coins):
    line.deposits(coins)
    line("tick 5")
    for _ in range(100_000):
        line("tick 4")


@generator(3_000)
def ticks_over_ended_exits(line, coins):
    line.deposits(coins)
    for coin in range(1, coins + 1):
        line(f"call 1 start {coin} {coin}")
    line(f"tick {EXIT_OPENS}")
    for coin in range(1, coins + 1):
        line(f"call 1 finish {coin} {coin}")
    for time in range(1, 100_001):
        line(f"tick {EXIT_OPENS + time}")


@generator(3_000)
def ticks_over_standing_exits(line, coins):
    line.deposits(coins)
    for coin in range(1, coins + 1):
        line(f"call 1 start {coin} {coin}")
    for time in range(1, 50_001):
        line(f"tick {time}")


@generator(980)
def exits_of_one_coin(line, count):
    """One signed transfer in so many blocks, an exit of each, and ticks."""
    line("rogue r 50 7 6 3")
    line("fund 50 100000000")
    line("call 50 deposit 10 r")
    signed = line("sign r 0 1 1 r")
    for _ in range(count):
        line(f"lay 1 #{signed}")
        line.sealed()
    for block in range(2, count + 2):
        line(f"call 50 exit 1 1 - {block} #{line(f'prove 1 {block}')}")
    for time in range(1, 20_001):
        line(f"tick {time}")


@generator(MANY)
def badly_signed_exits(line, count):
    """One opening whose signature isn't the owner's, again and again."""
    line("rogue r 50 7")
    line("rogue u 51 8")
    line("fund 50 100000000")
    line("call 50 deposit 10 r")
    line(f"lay 1 #{line('sign u 0 1 1 r')}")
    line.sealed()
    opening = line("prove 1 2")
    for _ in range(count):
        line(f"call 50 exit 1 1 - 2 #{opening}")


@generator(99_000)
def balances(line, accounts):
    """Accounts far from each other, each funded and asked for."""
    for n in range(accounts):
        line(f"fund {n * 2654435761 % (1 << 32)} 7")
    for n in range(accounts):
        line(f"money {n * 2654435761 % (1 << 32)}")


# ---- histories of coins


@generator(400)
def long_histories(line, moves):
    """One coin between two wallets, accepted at each move by its whole history."""
    line.wallets(2, " 6 3")
    line("deposit w0 1")
    for n in range(moves):
        line.moved(1, n % 2, (n + 1) % 2)


@generator(200)
def repeated_accepts(line, count):
    """A history of 30 transfers in 300 blocks, accepted again and again."""
    line.wallets(2)
    line("deposit w0 1")
    for n in range(30):
        line.blocks(9)
        bundle = line.moved(1, n % 2, (n + 1) % 2)
    for _ in range(count):
        line(f"accept w0 #{bundle}")


@generator(800)
def shared_beginnings(line, blocks):
    """A coin that moves at each of the last 30 blocks, and is guarded at each: its bundles share all but their ends."""
    line.wallets(2, " 5 3")
    line("watcher g 13")
    line("deposit w0 1")
    line.blocks(blocks)
    for n in range(30):
        line(f"guard g #{line.moved(1, n % 2, (n + 1) % 2)}")


@generator(64)
def transfers_among_many_wallets(line, wallets):
    """Each coin moves once, and each signature is looked at for each wallet at the end."""
    line.wallets(wallets, " 5 3")
    for n in range(wallets):
        line(f"deposit w{n} 1")
    for n in range(wallets):
        line.moved(n + 1, n, (n + 1) % wallets)


@generator(20_000)
def accepts_beside_many_coins(line, count):
    """A wallet that took 500 coins is handed the last one again."""
    line.wallets(2, " 6 3")
    bundle = None
    for _ in range(500):
        line("deposit w0 1")
    for transfer in [line(f"send w0 {coin} w1") for coin in range(1, 501)]:
        line(f"offer #{transfer}")
    line.sealed()
    for coin in range(1, 501):
        bundle = line(f"bundle {coin} 0")
        line(f"accept w1 #{bundle}")
    for _ in range(count):
        line(f"accept w1 #{bundle}")


# ---- the operator


@generator(200)
def bundles_of_many_blocks(line, count):
    line.deposits(1)
    line.blocks(1_000)
    for _ in range(count):
        line("bundle 1 1001")


@generator(2_000)
def bundles_without_a_block(line, count):
    """The present history of a coin that never moved: 2,000 blocks are gone over, and none is shown."""
    line.deposits(1)
    line.blocks(2_000)
    for _ in range(count):
        line("bundle 1 0")


@generator(190_000)
def proofs(line, count):
    for coin in range(1, 257):
        line(f"lay {coin} 0x01")
    line.sealed()
    for n in range(count):
        line(f"prove {1 + n % 300} 1")


@generator(170_000)
def repeated_offers(line, calls):
    """Behind so many calls, one transfer is offered again and again."""
    line.wallets(1)
    line("deposit w0 1")
    for _ in range(calls):
        line("fund 3 0")
    signed = line("send w0 1 w0")
    line(f"offer #{signed}")
    line("seal")
    for _ in range(20_000):
        line(f"offer #{signed}")


@generator(MANY)
def rising_lays(line, coins):
    for coin in range(1, coins + 1):
        line(f"lay {coin} 0x01")
    line("seal")


@generator(MANY)
def falling_lays(line, coins):
    for coin in range(coins, 0, -1):
        line(f"lay {coin} 0x01")
    line("seal")


@generator(MANY)
def repeated_lays(line, count):
    """A thousand coins, at each of which other bytes are laid again and again before the seal."""
    for n in range(count):
        line(f"lay {1 + n % 1000} 0x{n % 65536:04x}")
    line("seal")


@generator(320)
def wide_blocks(line, blocks):
    for block in range(blocks):
        for coin in range(1, 501):
            line(f"lay {coin} 0x{block % 256:02x}")
        line.sealed()


@generator(MANY)
def empty_seals(line, count):
    for _ in range(count):
        line("seal")


@generator(4_000)
def long_mail(line, count):
    """Openings of a leaf of 65,536 bytes, as many as the mail may hold."""
    line(f"lay 1 0x{'ab' * 65536}")
    line.sealed()
    for _ in range(count):
        line("prove 1 1")


@generator(500)
def long_lines(line, count):
    for n in range(count):
        line(f"lay {1 + n % 3} 0x{'ab' * 65536}")


# ---- many names


@generator(95_000)
def watchers(line, count):
    for n in range(count):
        line(f"watcher g{n} {100 + n}")
    for n in range(count):
        line(f"watch g{n}")


@generator(100_000)
def calls_beside_watchers(line, count):
    for n in range(count):
        line(f"watcher g{n} {100 + n}")
    for _ in range(50_000):
        line("call 1 finish 1 1")


@generator(70_000)
def watches_beside_watchers(line, count):
    """One watcher watches, while many others have watched and nothing came since."""
    for n in range(count):
        line(f"watcher g{n} {100 + n}")
    for n in range(count):
        line(f"watch g{n}")
    for _ in range(50_000):
        line("watch g0")


@generator(MANY)
def rogues(line, count):
    for n in range(count):
        line(f"rogue r{n} {100 + n} {n + 1}")


# ---- nodes that watch, sign, and are opened


@generator(2_900)
def watches_of_a_wallet(line, coins):
    """A wallet without a coin watches a chain on which others leave."""
    line.wallets(1)
    line.deposits(coins)
    for coin in range(1, coins + 1):
        line(f"call 1 start {coin} {coin}")
    for _ in range(20_000):
        line("watch w0")


@generator(2_000)
def watches_over_guards(line, guards):
    line.deposits(guards)
    line("watcher g 50")
    for coin in range(1, guards + 1):
        line(f"guard g #{line(f'bundle {coin} 0')}")
    for _ in range(5_000):
        line("watch g")


@generator(2_000)
def signatures_made_again(line, count):
    line.wallets(1)
    line("deposit w0 1")
    line("send w0 1 w0")
    for _ in range(count):
        line("again w0 1")


@generator(100_000)
def refused_sends(line, count):
    """A wallet of which each leaf is bound is asked for one more transfer."""
    line.wallets(1, " 6 3")
    for _ in range(1_024):
        line("deposit w0 1")
    for coin in range(1, 1_025):
        line(f"send w0 {coin} w0")
    for _ in range(count):
        line("send w0 1024 w0")


@generator(4_000)
def openings_of_a_watcher(line, records):
    line.deposits(1)
    line("watcher g 50")
    bundle = line("bundle 1 0")
    for _ in range(records // 2):
        line(f"guard g #{bundle}")
        line("release g 1 1")
    for _ in range(20):
        line("crash g old")
        line("open g")


@generator(1_000)
def openings_of_a_watcher_with_transfers(line, coins):
    line.wallets(2, " 6 3")
    line("watcher g 50")
    for _ in range(coins):
        line("deposit w0 1")
    for transfer in [line(f"send w0 {coin} w1") for coin in range(1, coins + 1)]:
        line(f"offer #{transfer}")
    line.sealed()
    for coin in range(1, coins + 1):
        line(f"guard g #{line(f'bundle {coin} 0')}")
    for _ in range(20):
        line("crash g old")
        line("open g")


def seals_of_one_lay(line, count):
    for n in range(count):
        line(f"lay {10 + n % 16} 0x{n % 65536:04x}")
        line("seal")


@generator(2_000)
def openings_of_the_operator(line, seals):
    seals_of_one_lay(line, seals)
    for _ in range(10):
        line("crash op old")
        line("open op")


@generator(1_000)
def cuts_of_the_operator(line, seals):
    seals_of_one_lay(line, seals)
    for _ in range(10):
        line("cut op 9 new bundle 1 0")
        line("open op")


# ---- one line, again and again: what a line costs that does nothing more


def one_line(name, text):
    """A generator of one line over and over, on a chain with a wallet and two watchers, of which h is down."""

    def make(line, count):
        for beginning in ("wallet a 11 1 5 3", "watcher g 13", "watcher h 14", "crash h old", "migrate a"):
            line(beginning)
        for _ in range(count):
            line(text)

    SCHEDULES[f"{name} lines"] = make, MANY


for a_name, a_text in (
    ("fund", "fund 1 1"), ("tick", "tick 0"), ("money", "money 1"), ("enter", "enter op 1"), ("watch", "watch g"),
    ("open", "open g"), ("finish", "call 1 finish 1 1"), ("start", "call 1 start 1 1"), ("bundle", "bundle 1 0"),
    ("prove", "prove 1 1"), ("absences", "absences 1 1 1"), ("release", "release g 1 1"), ("again", "again a 1"),
    ("send", "send a 1 a"), ("leave", "leave a 1"), ("accept", "accept a #0"), ("reclaim", "reclaim a #0"),
    ("offer", "offer #0"), ("migrate", "migrate a"), ("commit", f"call 1 commit 0x{'00' * 32}"),
    ("crash", "crash g old"), ("down", "watch h"),
):
    one_line(a_name, a_text)
