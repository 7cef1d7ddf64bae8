"""Schedules that anybody may write, each in three sizes, of which each is four times the one before: what they cost
grows faster than their lines, or is far from what it has to be. The size is how often the schedule repeats what it
repeats, but for a number that stands in the generator's words.
"""
import os
import subprocess
import tempfile

from schedule_lines import growing

HERE = os.path.dirname(os.path.abspath(__file__))
SPREAD = 0x9E3779B97F4A7C15  # multiples of it lie far from each other
LONG = 65_536  # bytes that may be laid at a coin
WINDOW = 604_800  # seconds from an exit's start in which it is challenged, and later answered


def long_leaf(parent):
    """A leaf as long as one may be: a transfer of coin 1 by a signature that isn't one."""
    body = bytes.fromhex("50435431") + (1).to_bytes(32, "big") + (1).to_bytes(8, "big") + parent.to_bytes(8, "big")
    body += (50).to_bytes(8, "big") + bytes.fromhex("0000000500000004") + bytes(48)
    return "0x" + body.hex() + "ab" * (LONG - len(body))


# ---- the contract


@growing(62, 250, 1_000)
def long_leaf_exits(line, count):
    """Exits that are refused, of an opening of a long leaf."""
    line.stranger()
    line(f"lay 1 {long_leaf(1)}")
    line.sealed()
    opening = line("prove 1 2")
    for _ in range(4 * count):
        line(f"call 50 exit 1 1 - 2 #{opening}")


@growing(12, 50, 200)
def long_before(line, exits):
    """So many exits, each challenged by the openings of 100 blocks, with long leaves."""
    line.stranger()
    openings = {}
    for block in range(2, 102):
        line(f"lay 1 {long_leaf(block - 1)}")
        line.sealed()
        openings[block] = line(f"prove 1 {block}")
    line(f"lay 1 #{line('sign r 0 1 1 r')}")
    line.sealed()
    parent = line("prove 1 102")
    signed = line("sign r 0 1 102 r")
    proofs = {}
    for block in range(103, 103 + exits):
        line(f"lay 1 #{signed}")
        line.sealed()
        proofs[block] = line(f"prove 1 {block}")
    for block, opening in proofs.items():
        line(f"call 50 exit 1 102 #{parent} {block} #{opening}")
    for exit_block in proofs:
        for block, opening in openings.items():
            line(f"call 50 before 1 {exit_block} {block} #{opening}")


@growing(5, 20, 80)
def challenges(line, exits):
    """A coin with five times as many moves: late ones are exited, challenged at each block before, and answered."""
    line.stranger(" 6 3")
    line.moves(5 * exits)
    last = 5 * exits + 1
    proofs = line.proofs(range(2, last + 1))
    late = range(last, last - exits, -1)
    for block in late:
        line(f"call 50 exit 1 {block - 1} #{proofs[block - 1]} {block} #{proofs[block]}")
    for exit_block in late:
        for block in range(2, exit_block - 1):
            line(f"call 50 before 1 {exit_block} {block} #{proofs[block]}")
            line(f"call 50 respond 1 {exit_block} {block} {block + 1} #{proofs[block + 1]}")
    for time in range(1, 250 * exits + 1):
        line(f"tick {time}")


@growing(62, 250, 1_000)
def last_exit(line, blocks):
    """A coin with many exits, of which the last is finished too early again and again."""
    line.stranger(" 6 3")
    line.moves(blocks)
    proofs = line.proofs(range(2, blocks + 2))
    for block in range(3, blocks + 2):
        line(f"call 50 exit 1 {block - 1} #{proofs[block - 1]} {block} #{proofs[block]}")
    for _ in range(40 * blocks):
        line(f"call 50 finish 1 {blocks + 1}")


@growing(62, 250, 1_000)
def half_tests(line, blocks):
    """Four coins, of which each opening is shown by a stranger who may not exit, five times over."""
    line.stranger(" 6 3", 4)
    line.moves(blocks, 4)
    places = [(coin, block) for block in range(5, blocks + 5) for coin in range(1, 5)]
    shown = [(coin, block, line(f"prove {coin} {block}")) for coin, block in places]
    for _ in range(5):
        for coin, block, opening in shown:
            line(f"call 51 exit {coin} {coin} - {block} #{opening}")


# ---- names


@growing(25, 100, 400)
def rogues_of_one_seed(line, count, types=""):
    """Strangers of one seed, each of whom deposits by the key."""
    for n in range(count):
        line(f"rogue r{n} {1_000 + n} 7{types}")
    for n in range(count):
        line(f"call 5 deposit 1 r{n}")


@growing(1, 4, 16)
def rogues_of_one_large_key(line, count):
    """The same, with a key of 1,024 leaves."""
    rogues_of_one_seed(line, count, " 6 4")


# ---- histories of coins


@growing(1_000, 4_000, 16_000)
def guards_repeated(line, guards):
    """One bundle of 2,000 openings, which stays kept, is guarded again and again."""
    line.wallets(2)
    line("watcher g 50")
    line("deposit w0 1")
    line.blocks(2_000)
    line(f"offer #{line('send w0 1 w1')}")
    line.sealed()
    bundle = line("bundle 1 0")
    for _ in range(guards):
        line(f"guard g #{bundle}")


@growing(62, 250, 1_000)
def long_coins_guards(line, guards):
    """Two coins that moved once, behind 2,900 blocks, are guarded in turns, so many times."""
    line.wallets(1)
    line("watcher g 60")
    line("deposit w0 1")
    line("deposit w0 1")
    line.blocks(2_900)
    for coin in (1, 2):
        line(f"offer #{line(f'send w0 {coin} w0')}")
    line.sealed()
    bundles = [line(f"bundle {coin} 0") for coin in (1, 2)]
    for n in range(guards):
        line(f"guard g #{bundles[n % 2]}")


@growing(62, 250, 1_000)
def mixed_guards(line, blocks):
    """Eight coins behind blocks of six leaves far from each other, guarded in turns."""
    line.wallets(1)
    line("watcher g 60")
    for _ in range(8):
        line("deposit w0 1")
    for block in range(blocks):
        for place in range(1, 7):
            line(f"lay {(place * SPREAD + block) % (1 << 64)} 0x01")
        line.sealed()
    for coin in range(1, 9):
        line(f"offer #{line(f'send w0 {coin} w0')}")
    line.sealed()
    bundles = [line(f"bundle {coin} 0") for coin in range(1, 9)]
    for n in range(blocks):
        line(f"guard g #{bundles[n % 8]}")


@growing(3, 15, 63)
def late_wallets(line, wallets):
    """A coin that moved 25 times is guarded again behind each wallet that is declared; wallets alone grow."""
    line.stranger()
    line("watcher g 60")
    line.moves(25)
    bundle = line("bundle 1 0")
    for n in range(wallets):
        line(f"wallet w{n} {100 + n} {n + 1}")
        line(f"guard g #{bundle}")


@growing(31, 125, 500)
def wide_mail(line, count):
    """A bundle of one long opening is refused again and again: it is read, and no more."""
    line.wallets(1)
    opening = LONG.to_bytes(4, "big") + bytes([0xAB]) * LONG
    bundle = (1).to_bytes(8, "big") + (2).to_bytes(8, "big") + (1).to_bytes(4, "big")
    bundle += (2).to_bytes(8, "big") + len(opening).to_bytes(4, "big") + opening
    for _ in range(count):
        line(f"accept w0 0x{bundle.hex()}")


# ---- the operator


@growing(1_250, 5_000, 20_000)
def offers_unlaid(line, seals):
    """Beside trees without leaves that were never entered, an offer goes into the pool and is taken out again."""
    line.wallets(1)
    line("deposit w0 1")
    signed = line("send w0 1 w0")
    for _ in range(seals):
        line("seal")
    for _ in range(seals):
        line(f"offer #{signed}")
        line("lay 1 0x")


@growing(1_250, 5_000, 20_000)
def offers_unlaid_wide(line, seals):
    """The same, where each tree has a leaf of its own."""
    line.wallets(1)
    line("deposit w0 1")
    signed = line("send w0 1 w0")
    for n in range(seals):
        line(f"lay {10 + n % 100} 0x{n % 65536:04x}")
        line("seal")
    for _ in range(seals):
        line(f"offer #{signed}")
        line("lay 1 0x")


@growing(185, 740, 2_960)
def walks(line, blocks):
    """A coin that never moved, of which one transfer is offered again and again."""
    line.wallets(1)
    line("deposit w0 1")
    line.blocks(blocks)
    signed = line("send w0 1 w0")
    for _ in range(13 * blocks):
        line(f"offer #{signed}")


@growing(185, 740, 2_960)
def foreign_commits(line, blocks):
    """Roots of which the operator has no tree, and the present history of a coin, again and again."""
    line.deposits(1)
    for block in range(blocks):
        line(f"call 9 commit 0x{block + 1:064x}")
    for _ in range(64 * blocks):
        line("bundle 1 0")


@growing(185, 740, 2_960)
def long_leaf_walks(line, blocks):
    """One tree with a long leaf is entered again and again; then the coin's history is asked for."""
    line.stranger()
    signed = line(f"lay 1 {long_leaf(7)}")
    line("seal")
    for _ in range(blocks):
        line("enter op 1")
    for _ in range(4 * blocks):
        line(f"offer #{signed}")
    for _ in range(4 * blocks):
        line("bundle 1 0")


@growing(185, 740, 2_960)
def short_walks_of_one_tree(line, blocks):
    """The same with a transfer, which is offered again and again."""
    line.stranger()
    signed = line("sign r 0 1 1 r")
    line(f"lay 1 #{signed}")
    line("seal")
    for _ in range(blocks):
        line("enter op 1")
    for _ in range(8 * blocks):
        line(f"offer #{signed}")


@growing(25, 100, 400)
def bundles_made(line, blocks):
    """Bundles of a coin that moved at each block."""
    line.stranger(" 6 3")
    line.moves(blocks)
    for _ in range(blocks // 2):
        line("bundle 1 0")


@growing(5_000, 20_000, 80_000)
def spread_lays(line, count):
    for n in range(count):
        line(f"lay {n * SPREAD % (1 << 64)} 0x01")
    line("seal")


@growing(5_000, 20_000, 80_000)
def colliding_lays(line, count):
    """Coins whose numbers collide in the hash table that the kit has: its seed is fixed."""
    with tempfile.TemporaryDirectory() as room:
        subprocess.run(["cc", "-O2", "-o", f"{room}/colliding", f"{HERE}/colliding.c"], check=True)
        coins = subprocess.run([f"{room}/colliding", str(count)], stdout=subprocess.PIPE, text=True, check=True).stdout
    for coin in coins.split():
        line(f"lay {coin} 0x01")
    line("seal")


# ---- nodes that watch, and are opened


@growing(181, 725, 2_900)
def quiet_met(line, coins):
    """The deadlines of so many exits pass in one tick, while 33 times as many watchers are quiet."""
    line.deposits(coins)
    for n in range(33 * coins):
        line(f"watcher g{n} {1_000 + n}")
    for coin in range(1, coins + 1):
        line(f"call 1 start {coin} {coin}")
    for n in range(33 * coins):
        line(f"watch g{n}")
    line(f"tick {WINDOW}")


@growing(6, 25, 100)
def guards_met(line, blocks):
    """A deposit is guarded again and again; then challenges, of which each tick meets one."""
    line.stranger(" 6 3")
    line("watcher g 60")
    line.moves(blocks)
    proofs = line.proofs(range(2, blocks + 2))
    deposit = line("bundle 1 1")
    for _ in range(40 * blocks):
        line(f"guard g #{deposit}")
    late = range(blocks + 1, blocks + 1 - blocks // 2, -1)
    for block in late:
        line(f"call 50 exit 1 {block - 1} #{proofs[block - 1]} {block} #{proofs[block]}")
    places = [(exit_block, block) for exit_block in late for block in range(2, exit_block - 1)]
    for time, (exit_block, block) in enumerate(places, 1):
        line(f"call 50 before 1 {exit_block} {block} #{proofs[block]}")
        line(f"tick {time}")
    for time in range(1, len(places) + 1):
        line(f"tick {WINDOW // 2 + time}")


def leaves_and_watches(line, coins):
    """The wallet w0 leaves with so many coins, and watches five times as often."""
    for coin in range(1, coins + 1):
        line(f"leave w0 {coin}")
        line("enter w0 1")
    for _ in range(5 * coins):
        line("watch w0")


@growing(118, 475, 1_900)
def own_watch(line, coins):
    line.wallets(1, " 6 3")
    for _ in range(coins):
        line("deposit w0 1")
    leaves_and_watches(line, coins)


@growing(118, 475, 1_900)
def own_watch_sent(line, coins):
    """The same, by a wallet of which each leaf is bound to other coins."""
    line.wallets(1, " 6 3")
    for _ in range(coins + 1_024):
        line("deposit w0 1")
    for coin in range(coins + 1, coins + 1_025):
        line(f"send w0 {coin} w0")
    leaves_and_watches(line, coins)


def guarded_and_exited(line, blocks):
    """A guarded coin with many moves, of which each older one is exited."""
    line.stranger(" 6 3")
    line("watcher g 60")
    line.moves(blocks)
    line(f"guard g #{line('bundle 1 0')}")
    proofs = line.proofs(range(2, blocks + 2))
    for block in range(3, blocks + 1):
        line(f"call 50 exit 1 {block - 1} #{proofs[block - 1]} {block} #{proofs[block]}")


@growing(62, 250, 1_000)
def guarded_exits(line, blocks):
    """Each watch offers as many calls as exits of the coin stand."""
    guarded_and_exited(line, blocks)
    for _ in range(4 * blocks):
        line("watch g")


@growing(62, 250, 1_000)
def late_watches(line, blocks):
    """The same where the time for challenges is over, so that nothing is offered."""
    guarded_and_exited(line, blocks)
    line(f"tick {WINDOW}")
    for _ in range(4 * blocks):
        line("watch g")


def guarded_and_released(line, rounds):
    """A deposit is guarded and let go, so many times."""
    line.deposits(1)
    line("watcher g 50")
    bundle = line("bundle 1 0")
    for _ in range(rounds):
        line(f"guard g #{bundle}")
        line("release g 1 1")


@growing(25, 100, 400)
def cuts_of_a_watcher(line, cuts):
    """A watcher with 200 times as many records as it is cut and opened again."""
    guarded_and_released(line, 100 * cuts)
    for _ in range(cuts):
        line("cut g 9 old watch g")
        line("open g")


@growing(25, 100, 400)
def cuts_open(line, cuts):
    """The same, cut while it is opened."""
    guarded_and_released(line, 100 * cuts)
    line("crash g old")
    for _ in range(cuts):
        line("cut g 9 old open g")


@growing(62, 250, 1_000)
def crashes_of_a_disk(line, count):
    """An operator that kept long leaves, and then crashes as often."""
    for n in range(count):
        line(f"lay {n + 1} 0x{'ab' * 20_000}")
    for _ in range(count):
        line("crash op old")


# ---- at the largest size more signatures than a run remembers: it takes long, so these are the last


@growing(181, 725, 2_900)
def two_chains_offers(line, blocks):
    """Two coins that moved in each block: an old transfer of each is offered in turns, 20 times."""
    line.stranger("", 2)
    first = line.moves(blocks, 2)
    for n in range(20):
        line(f"offer #{first[n % 2]}")


@growing(181, 725, 2_900)
def two_chains_guards(line, blocks):
    """The same coins are guarded in turns, 20 times."""
    line.stranger("", 2)
    line("watcher g 60")
    line.moves(blocks, 2)
    bundles = [line(f"bundle {coin} 0") for coin in (1, 2)]
    for n in range(20):
        line(f"guard g #{bundles[n % 2]}")
