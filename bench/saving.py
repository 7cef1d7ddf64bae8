"""Plays an attack against holders who enter what the program `safe` says, and nothing else: for bench/saved.

The attack is a schedule. Of it are left out the lines by which a wallet or a watcher would help itself: their looks,
their offers, their exits and the calls of their accounts. Behind each call that joins the log each of them asks `safe`,
and enters what it says, in its order: a call at the contract, `release` and `reclaim` at the node itself. A transfer is
taken back with what the operator shows. The contract is a replay of the log: it says which calls are accepted.

A wallet first asks the attack's operator for each committed block behind its coin's deposit, and an archive whether
these openings are a whole history. Where they aren't it tells `safe` so, by a line `hidden <coin>`. So an attack hides
a block by what its schedule has: a leaf that is laid without a right to the coin, which no wallet takes; or a `commit`
by hand of a root of which the operator has no tree.
"""
import os
import subprocess

from answered import OPERATOR, node_of
from played import Played
from rootlog import Log

# How often a node asks anew after what it entered, before it goes on.
MOST_ROUNDS = 20
# Who finishes what stands at the end.
ANYBODY = 999
OWN_FORMS = ("watch", "leave", "enter", "reclaim", "release")


class Saved(Played):
    """The attack's nodes in folders of the room, and the log as it comes to be."""

    def __init__(self, program, safe, schedule, grammar, room):
        super().__init__(program, schedule, grammar, room)
        self.safe, self.said, self.shown = safe, {}, {}
        self.takes_hidden = True

    def holders(self):
        return [name for name, role in self.roles.items() if role in ("wallet", "watcher")]

    def whole(self):
        """Plays the attack to its last line, and then until no exit stands."""
        for line in self.run.lines:
            if not self.is_own_help(line):
                had = len(self.log)
                self.play(line)
                if len(self.log) > had:
                    self.heed()
        while standing := sorted(Log(self.text()).standing(), key=lambda it: it.opens):
            self.enters(f"tick {max(standing[0].opens, Log(self.text()).clock)}")
            self.heed()
            self.enters(f"call {ANYBODY} finish {standing[0].coin} {standing[0].block}")
            self.heed()
        return Log(self.text())

    def is_own_help(self, line):
        """The line is a holder's own deed against the attack."""
        accounts = [self.account_of(name) for name in self.holders()]
        by_account = line.form.startswith("call ") and line.get("account") in accounts
        return by_account or (line.form in OWN_FORMS and node_of(line) in self.holders())

    # ---- the contract

    def call(self, line):
        """A call joins the log where the contract accepts it."""
        self.enters(self.called(line))

    def enters(self, call):
        """Enters a call, and says whether it was accepted."""
        if call is None or not self.accepts(call):
            return False
        self.log.append(call)
        return True

    def accepts(self, call):
        schedule = "".join(f"{line}\n" for line in [self.chain_line(), *self.log[1:], call])
        done = subprocess.run([self.program, "replay"], input=schedule.encode(), stdout=subprocess.PIPE, check=False)
        answers = done.stdout.decode().splitlines()
        answer = answers[len(self.log)].split(" ")
        return answer[0] == str(len(self.log) + 1) and answer[1] != "refused"

    def chain_line(self):
        """The log's first line, as a schedule has it."""
        _, tag, operator, most = self.log[0].split(" ")
        return f"chain {int(tag, 16)} {operator} {most}"

    # ---- the holders

    def account_of(self, name):
        if name not in self.wallets_and_watchers():
            return None
        return self.wallets_and_watchers()[name]

    def wallets_and_watchers(self):
        return {line.get("name"): line.get("account") for line in self.run.lines if line.form in ("wallet", "watcher")}

    def heed(self):
        """Each holder asks, and enters what it is told, until it is told nothing new."""
        for name in self.holders():
            for _ in range(MOST_ROUNDS):
                told = self.ask(name)
                if not any([self.does(name, line) for line in told]):
                    break

    def ask(self, name):
        """What `safe` says: its words are kept, and the lines to enter are given."""
        hidden = [f"hidden {coin}" for coin in self.hidden(name)] if self.takes_hidden else []
        text = "".join(f"{line}\n" for line in ["--", *hidden])
        done = subprocess.run([self.safe, self.roles[name]], cwd=self.folder(name), input=(self.text() + text).encode(),
                              stdout=subprocess.PIPE, check=False)
        lines = done.stdout.decode().splitlines()
        if hidden and done.returncode not in (0, 1):
            self.takes_hidden = False  # (a program from before there were these lines)
            return self.ask(name)
        self.said[name] = [line for line in lines if line[:1].isdigit()]
        if done.returncode not in (0, 1):
            raise RuntimeError(f"{name}: status {done.returncode}, {lines}")
        return [line for line in lines if not line[:1].isdigit()]

    def does(self, name, line):
        """Does what a line says: a call is entered, a command is given to the node."""
        if line.startswith("call "):
            return self.enters(line)
        if line.startswith("reclaim "):
            return self.takes_back(name, *line.split(" ")[1:3])
        return self.given(name, line)

    def given(self, name, line):
        """Gives a node a command, and says whether it was done."""
        answer = self.typed(name, [self.roles[name]], f"{self.text()}--\n{line}\n")
        return bool(answer) and not answer[0].startswith(("refused", "bad"))

    def takes_back(self, name, coin, last):
        """Takes a transfer back with what the operator shows of the blocks behind the coin's tip, up to the last."""
        state, *tip = self.typed(name, ["wallet"], f"{self.text()}--\nstate {coin}\n")[0].split(" ")
        if state != "sending":
            return False
        shown = self.typed(OPERATOR, ["operator"], f"{self.text()}--\nabsences {coin} {tip[0]} {last}\n")
        return len(shown) == 2 and self.given(name, f"reclaim {shown[1]}")

    # ---- what the operator shows

    def hidden(self, name):
        """The coins of a wallet, those that it was told of last, of which the operator doesn't show it each block."""
        if self.roles[name] != "wallet":
            return []
        return [coin for coin in dict.fromkeys(line.split(" ")[0] for line in self.said.get(name, []))
                if not self.shows(int(coin))]

    def shows(self, coin):
        """The operator opens each committed block behind the coin's deposit, and an archive finds them a whole history.
        """
        log = Log(self.text())
        if coin not in log.coins:
            return True
        blocks = sorted(block for block in log.committed if block > log.coins[coin].block)
        if (coin, log.blocks) not in self.shown:
            asked = "".join(f"prove {coin} {block}\n" for block in blocks)
            openings = self.typed(OPERATOR, ["operator"], f"{self.text()}--\n{asked}")[1::2]
            put = "".join(f"put {coin} {block} {it}\n" for block, it in zip(blocks, openings))
            kept = self.typed(OPERATOR, ["archive"], f"{self.text()}--\n{put}broken {coin}\n")
            self.shown[coin, log.blocks] = len(openings) == len(blocks) and kept[-1] == "whole"
        return self.shown[coin, log.blocks]


def outcome(saved, log):
    """For each coin that a holder ever had: who had it, and what became of it, in a word."""
    whose = {int(account): name for name, account in saved.wallets_and_watchers().items()}
    for number, coin in sorted(log.coins.items()):
        if coin.paid is None:
            yield number, coin.amount, "kept", saved
        else:
            yield number, coin.amount, "paid" if coin.paid.account in whose else "lost", coin.paid.account


def room_of(folder, name):
    path = f"{folder}/{name}"
    os.makedirs(path)
    return path
