#!/usr/bin/env python3
"""Runs of nodes, and of the archive, over long logs and large journals, for bench/nodes: each in three sizes.

usage: bench/node_runs.py                     lists the runs, each with its form and its sizes
       bench/node_runs.py NAME SIZE FOLDER    writes the input of the run and its journals into the folder
"""
import sys

sys.dont_write_bytecode = True
from plasma_bytes import DEFAULTS, TAG, body, bundle, hexed, identity, journal, opening, owner, seed_of, u64

DEPOSIT = f"call 1 deposit 1 0x0000000500000004{'00' * 48}"
SEED = seed_of(7)
WHO = {"wallet": identity("wallet", 11, SEED), "watcher": identity("watcher", 14), "operator": identity("operator", 9)}
SIGNATURE = bytes(1_292)  # no journal's reader looks at one
# The runs, by name: the form, what writes the input, and the sizes.
RUNS = {}


class Input:
    """The lines of an input, which are written one by one, and the node's records behind its identity."""

    def __init__(self, file):
        self.file, self.notes = file, []
        self(f"chain {hexed(TAG)} 9 4294967295")

    def __call__(self, line):
        self.file.write(f"{line}\n")


def node_run(form, *sizes):
    """Gives a function its place among the runs: its name is that of the function, with blanks."""

    def named(make):
        RUNS[make.__name__.replace("_", " ")] = form, make, sizes
        return make

    return named


# ---- what a log has


def mixed_log(line, lines):
    """Deposits, and the exit of each coin with an opening of 240 bytes."""
    for coin in range(1, lines // 2 + 1):
        line(DEPOSIT)
        line(f"call 50 exit {coin} {coin} - {coin + 1} 0x{coin:0480x}")
    line("--")


@node_run("wallet", 11_875, 47_500, 190_000)
def wallet_over_a_log(line, lines):
    mixed_log(line, lines)
    line("state 1")
    line("watch")


@node_run("watcher", 11_875, 47_500, 190_000)
def watcher_over_a_log(line, lines):
    mixed_log(line, lines)
    line("watch")


@node_run("operator", 11_875, 47_500, 190_000)
def operator_over_a_log(line, lines):
    mixed_log(line, lines)
    line("bundle 1 0")


@node_run("watcher", 12_250, 49_000, 196_000)
def deposits_and_roots(line, lines):
    """A log whose lines are short, so that there are as many as an input may have."""
    for number in range(lines // 2):
        line(DEPOSIT)
        line(f"call 9 commit 0x{number:064x}")
    line("--")
    line("watch")


@node_run("watcher", 11_875, 47_500, 190_000)
def exits_of_a_coin(line, exits):
    line(DEPOSIT)
    for block in range(2, exits + 2):
        line(f"call 50 exit 1 1 - {block} 0x")
    line("--")
    line("watch")


@node_run("watcher", 11_875, 47_500, 190_000)
def challenges_of_an_exit(line, count):
    line(DEPOSIT)
    line("call 50 exit 1 1 - 2 0x")
    for block in range(3, count + 3):
        line(f"call 50 before 1 2 {block} 0x")
    line("--")
    line("watch")


@node_run("watcher", 3_125, 12_500, 50_000)
def answers_of_an_exit(line, count):
    """Answers come first, and the challenges behind them."""
    line(DEPOSIT)
    line("call 50 exit 1 1 - 2 0x")
    for block in range(3, count + 3):
        line(f"call 50 respond 1 2 {block} {block + 1} 0x")
    for block in range(3, count + 3):
        line(f"call 50 before 1 2 {block} 0x")
    line("--")
    line("watch")


@node_run("operator", 3_125, 12_500, 50_000)
def roots_without_a_tree(line, blocks):
    """Roots of which the operator has no tree, and the present history of a coin, again and again."""
    line(DEPOSIT)
    for block in range(blocks):
        line(f"call 9 commit 0x{block + 1:064x}")
    line("--")
    for _ in range(2 * blocks // 25):
        line("bundle 1 0")


# ---- what a journal has


def histories(line, mark, count):
    """Notes of so many coins, each of a history of one transfer; at the largest size they have 58 MB."""
    for coin in range(1, count + 1):
        leaf = body(coin, coin, owner(11, bytes(56))) + SIGNATURE
        line.notes.append(mark + bundle(coin, count + 1, [(count + 1, opening(leaf, {}))]))
    line("--")


@node_run("wallet", 2_500, 10_000, 40_000)
def notes_of_a_wallet(line, coins):
    histories(line, b"\x02", coins)
    line("state 1")


@node_run("watcher", 2_500, 10_000, 40_000)
def notes_of_a_watcher(line, coins):
    histories(line, b"\x12", coins)
    line("watch")


@node_run("operator", 1_812, 7_250, 29_000)
def notes_of_an_operator(line, lays):
    """Bytes that were laid at so many coins; at the largest size they have 58 MB."""
    line.notes += (b"\x23" + u64(coin) + bytes(1_991) for coin in range(1, lays + 1))
    line(DEPOSIT)
    line("--")
    line("bundle 1 0")


@node_run("operator", 1_812, 7_250, 29_000)
def seals_of_an_operator(line, seals):
    """Trees of one leaf each."""
    for number in range(seals):
        line.notes += (b"\x23" + u64(number % 16) + u64(number), b"\x24")
    line(DEPOSIT)
    line("--")
    line("bundle 1 0")


# ---- the archive


@node_run("archive", 5_937, 23_750, 95_000)
def archive_of_coins(line, coins):
    """So many coins, and one block behind their deposits, which is kept for each."""
    for _ in range(coins):
        line(DEPOSIT)
    line(f"call 9 commit {hexed(DEFAULTS[-1])}")
    line("--")
    for coin in range(1, coins + 1):
        line(f"put {coin} {coins + 1} {hexed(opening(b'', {}))}")


@node_run("archive", 3_125, 12_500, 50_000)
def archive_of_blocks(line, blocks):
    """One coin, and so many blocks, each of which is kept."""
    line(DEPOSIT)
    for _ in range(blocks):
        line(f"call 9 commit {hexed(DEFAULTS[-1])}")
    line("--")
    for block in range(2, blocks + 2):
        line(f"put 1 {block} {hexed(opening(b'', {}))}")
    line("tip 1")


def main():
    if len(sys.argv) < 2:
        for name, (form, _, sizes) in RUNS.items():
            print(f"{name:30} {form:10}" + "".join(f" {size:>8,}" for size in sizes))
        return
    name, size, folder = sys.argv[1:]
    form, make, _ = RUNS[name]
    with open(f"{folder}/input", "w", encoding="ascii") as file:
        line = Input(file)
        make(line, int(size))
    if form in WHO:
        with open(f"{folder}/notes.journal", "wb") as file:
            file.write(journal(WHO[form], *line.notes))
    if form == "wallet":
        with open(f"{folder}/leaves.journal", "wb") as file:
            file.write(journal())


if __name__ == "__main__":
    main()
