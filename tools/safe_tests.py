"""The tests of tools/safe, for tools/test: its words over the logs of all examples and over random ones, and what a
person types.
"""
import collections
import json
import os
import subprocess
import sys
import tempfile
import unittest

from grammar import Grammar
from held_to import Held
from played import Made, Played
from proved import Safe
from testing import HERE, Program, script

EXAMPLES = f"{HERE}/../examples"
SEEDS, DEEDS = range(1, 5), 14
# Bob holds coin 1, and Ursula exits with it as if it were hers.
THEFT = """chain 1 9 100
rogue ursula 21 7
wallet bob 12 2
watcher wanda 31
fund 21 1000
fund 12 139
call 21 deposit 300 ursula
sign ursula 0 1 1 bob
offer #8
seal
enter op 1
bundle 1 2
accept bob #12
guard wanda #12
call 21 start 1 1
"""
LATE, GONE = "tick 604800\n", "tick 907200\ncall 50 finish 1 1\n"


def schedules():
    """The schedules of the examples with wallets."""
    for name in sorted(os.listdir(EXAMPLES)):
        folder = f"{EXAMPLES}/{name}"
        if os.path.isfile(f"{folder}/input") and text_of(f"{folder}/words").split() == ["replay"]:
            yield name, text_of(f"{folder}/input")


def text_of(path):
    with open(path, encoding="utf-8") as file:
        return file.read()


class Safety(unittest.TestCase):
    @classmethod
    def setUpClass(cls):
        cls.unpacked = Program()
        cls.program = cls.unpacked.__enter__()
        cls.addClassCleanup(cls.unpacked.__exit__)
        if not cls.program:
            raise unittest.SkipTest("no proved program is here")
        cls.safes = Safe()
        cls.proved = cls.safes.__enter__()
        cls.addClassCleanup(cls.safes.__exit__)

    def held(self, counts=None, proved=None):
        counts = collections.Counter() if counts is None else counts
        return Held(script("safe"), self.program, Grammar(), counts, proved or self.proved)

    def test_over_the_logs_of_the_examples(self):
        counts = collections.Counter()
        for name, schedule in schedules():
            self.assertEqual([*self.held(counts).misses(name, schedule)], [])
        for word in ("SAFE", "ACT BY", "TOO LATE", "GONE", "SENT", "PAID", "LEAVING"):
            self.assertGreater(counts[word], 0, word)

    def test_over_random_logs(self):
        for seed in SEEDS:
            self.assertEqual([*self.held().misses(f"seed {seed}", Made(seed).text(DEEDS))], [])

    def test_a_wrong_word_is_found(self):
        self.assertEqual([*self.held().misses("theft", THEFT + LATE)], [])
        judge = sys.modules["held_to"].Judge
        was, judge.is_paid = judge.is_paid, lambda *_: False
        try:
            self.assertIn("SAFE, and account 21 is paid for it", " ".join(self.held().misses("theft", THEFT + LATE)))
        finally:
            judge.is_paid = was

    def test_a_wrong_word_of_the_proved_program_is_found(self):
        if not self.proved:
            self.skipTest("no proved program safe is here")
        with tempfile.TemporaryDirectory() as room:
            for change, part in (("s/ act .*/ safe 604799/", "is safe, with 1 offers"),
                                 ("s/ act .*/ safe 604799/", "is safe, and account 21 is paid for it"),
                                 ("s/ safe .*/ gone 21 6/", "is gone, and held 2"),
                                 ("/^call/d", "is offered, and not said"),
                                 ("s/ late .*/ gone 21 6/", "by the proved program")):
                with open(f"{room}/wrong", "w", encoding="utf-8") as file:
                    file.write(f"#!/bin/sh\n{self.proved} \"$@\" | sed '{change}'\n")
                os.chmod(f"{room}/wrong", 0o700)
                misses = self.held(None, f"{room}/wrong").misses("theft", THEFT + LATE)
                self.assertIn(part, " ".join(misses))


class Typed(Safety):
    """What a person types, and reads."""

    test_over_the_logs_of_the_examples = test_over_random_logs = test_a_wrong_word_is_found = None
    test_a_wrong_word_of_the_proved_program_is_found = None

    def setUp(self):
        room = tempfile.TemporaryDirectory()
        self.addCleanup(room.cleanup)
        self.room = room.name

    def play(self, schedule):
        """The folders and the log of this schedule."""
        to = tempfile.mkdtemp(dir=self.room)
        played = Played(self.program, schedule, Grammar(), to)
        for _ in played.steps():
            pass
        with open(f"{to}/log", "w", encoding="utf-8") as file:
            file.write(played.text())
        return to

    def typed(self, *words):
        # (the nodes were played without the launcher, so they have no marks)
        env = {**os.environ, "PLASMA_PROGRAM": self.program, "PLASMA_MARKS": "none"}
        return subprocess.run([f"{HERE}/safe", *words], capture_output=True, text=True, env=env, check=False)

    def safe(self, to, node="bob", *words):
        done = self.typed(f"{to}/{node}", f"{to}/log", *words)
        self.assertEqual(done.stderr, "")
        return done.returncode, done.stdout

    def test_each_word(self):
        before = THEFT.replace("call 21 start 1 1\n", "")
        for schedule, status, head in (
            ("chain 1 9 100\nwallet bob 12 2\n", 1, "EMPTY: this node has never had a coin"),
            (before, 0, "SAFE: coin 1"),
            (THEFT, 1, "ACT BY day 7: coin 1"),
            (THEFT + "watch bob\nenter bob 1\n", 0, "SAFE: coin 1"),
            (THEFT + LATE, 1, "TOO LATE: coin 1"),
            (THEFT + GONE, 1, "GONE: coin 1"),
            (before + "send bob 1 ursula\n", 0, "SENT: coin 1"),
            (before + "leave bob 1\n", 1, "ACT BY: coin 1"),
            (before + "leave bob 1\nenter bob 1\n", 1, "LEAVING: coin 1"),
            (before + "leave bob 1\nenter bob 1\ntick 907200\n", 1, "ACT BY: coin 1"),
            (before + "leave bob 1\nenter bob 1\ntick 907200\ncall 50 finish 1 2\n", 0, "PAID: coin 1"),
        ):
            found, said = self.safe(self.play(schedule))
            self.assertEqual((found, said.splitlines()[0][: len(head)]), (status, head))

    def test_what_is_due_and_to_whom_it_went(self):
        to = self.play(THEFT)
        _, said = self.safe(to, "bob", "--me", "Bob", "--me", "21=Ursula")
        for part in ("an exit by Ursula, of block 1, stands since day 0 (line 6)", "finished from day 10½",
                     "due: after, by day 7; costs nothing, and brings 100",
                     "coin 1, 300, block 2: ACT BY day 7, in 7 days"):
            self.assertIn(part, said)
        _, calls = self.safe(to, "wanda", "--calls")
        self.assertRegex(calls, r"^call 31 after 1 1 2 0x[0-9a-f]+\n$")
        _, said = self.safe(self.play(THEFT + GONE), "bob", "--me", "21=Ursula")
        self.assertIn("coin 1, 300, block 2: GONE to Ursula, at line 8", said)

    def test_a_bond_and_a_cheaper_call(self):
        # (two exits of one planted parent: the first one's opening cancels the second)
        planted = THEFT.replace("call 21 start 1 1\n", "") + "".join(
            f"{line}\n" for line in (
                "sign ursula 1 1 1000 ursula", "lay 1 #15", "seal", "enter op 1", "sign ursula 2 1 3 ursula",
                "lay 1 #19", "seal", "enter op 1", "lay 1 #19", "seal", "enter op 1", "prove 1 3", "prove 1 4",
                "prove 1 5", "call 21 exit 1 3 #26 4 #27", "call 21 exit 1 3 #26 5 #28"))
        to = self.play(planted)
        _, said = self.safe(to)
        self.assertIn("due: before, by day 7; takes 40, which come back when that exit ends, if nobody answers", said)
        self.assertIn("or instead: between, by day 7; costs nothing, and brings 100", said)
        call = self.safe(to, "bob", "--calls")[1].splitlines()[-1].split(" ")
        played = Played(self.program, planted + f"call 50 {' '.join(call[2:])}\n", Grammar(), f"{self.room}/again")
        self.assertEqual(played.run.lines[-1].answer, ["cancelled"])
        self.assertIn("the account has 0: fund it first", self.safe(to, "wanda")[1])

    def test_bonds_of_which_each_alone_can_be_paid(self):
        """Two Befores, 80 together, and 79 on the account; with 80 nothing is missing."""
        schedule = text_of(f"{EXAMPLES}/bonds-run-out/input").partition("watch bob\n")[0]
        missing = "nobody answers; all that is due takes 80, and the account has 79: fund it first"
        self.assertEqual(self.safe(self.play(schedule))[1].count(missing), 2)
        said = self.safe(self.play(schedule.replace("fund 12 79", "fund 12 80")))[1]
        self.assertEqual((said.count("due: before"), said.count("fund it first")), (2, 0))

    def test_exits_that_end_in_one_second(self):
        """Where no law pays the owner's, it is said; a second later it isn't."""
        later = text_of(f"{EXAMPLES}/leave-first/input").rpartition("watch ursula\n")[0] + "tick 604801\n"
        for schedule, ties in ((later.replace("tick 1\n", "tick 0\n"), 1), (later, 0)):
            said = self.safe(self.play(schedule), "ursula")[1]
            self.assertIn("LEAVING: coin 1", said)
            self.assertIn("finish the owner's first, and the other gets its bond alone", said)
            self.assertEqual(said.count("in the same second: whichever is finished first is paid"), ties)

    def test_an_old_log(self):
        to = self.play(THEFT)
        status, said = self.safe(to, "bob", "--now", "604800")
        self.assertEqual(status, 1)
        self.assertIn("STALE: the log ends at day 0, and day 7 has passed", said)
        to = self.play(THEFT.replace("call 21 start 1 1\n", ""))
        self.assertEqual(self.safe(to, "bob", "--now", "259199")[0], 0)
        self.assertIn("STALE", self.safe(to, "bob", "--now", "259200")[1])
        os.utime(f"{to}/log", (1, 1))
        self.assertIn("STALE", self.safe(to)[1])

    def test_a_block_that_was_not_shown(self):
        to, said = self.play(THEFT.replace("call 21 start 1 1\n", "")), "1 300 act 0 0\ncall 12 exit 1 1 - 2 0x"
        with open(f"{self.room}/asked", "w", encoding="utf-8") as file:
            file.write(f"#!/bin/sh\ntail -n 1 > {self.room}/last\necho '{said}'\n")
        os.chmod(f"{self.room}/asked", 0o700)
        os.environ["PLASMA_SAFE"] = f"{self.room}/asked"
        self.addCleanup(os.environ.pop, "PLASMA_SAFE")
        found, told = self.safe(to, "bob", "--hidden", "1")
        self.assertEqual((found, told.splitlines()[0]), (1, "ACT BY: coin 1"))
        self.assertIn("due: exit, no day is set; takes 100, which come back when it pays", told)
        self.assertEqual(self.safe(to, "bob", "--hidden", "1", "--calls")[1], f"{said.splitlines()[1]}\n")
        self.assertEqual(text_of(f"{self.room}/last"), "hidden 1\n")

    def test_what_changed(self):
        to, kept = self.play(THEFT.replace("call 21 start 1 1\n", "")), f"{self.room}/kept"
        self.assertIn("SAFE: coin 1", self.safe(to, "bob", "--since", kept)[1])
        self.assertEqual(self.safe(to, "bob", "--since", kept), (0, ""))
        with open(f"{to}/log", "a", encoding="utf-8") as file:
            file.write("call 21 start 1 1\n")
        self.assertIn("due: after", self.safe(to, "bob", "--since", kept)[1])
        status, said = self.safe(to, "bob", "--since", kept)
        self.assertEqual((status, said.count("\n")), (1, 2))
        with open(f"{to}/log", "w", encoding="utf-8") as file:
            file.write(f"chain 0x{1:064x} 9 100\n")
        done = self.typed(f"{to}/bob", f"{to}/log", "--since", kept)
        self.assertEqual(done.returncode, 2)
        self.assertIn("it was cut or changed", done.stderr)

    def test_as_json(self):
        found = json.loads(self.safe(self.play(THEFT), "bob", "--json")[1])
        self.assertEqual((found["word"], found["status"], found["account"], found["clock"]), ("ACT BY", 1, 12, 0))
        coin = found["coins"][0]
        self.assertEqual((coin["amount"], coin["tip"], coin["by"], coin["due"][0]["kind"]), (300, 2, 604800, "after"))
        self.assertEqual(coin["exits"][0]["opens"], 907200)

    def test_what_it_cannot_tell(self):
        to = self.play(THEFT)
        other = f"{self.room}/other"
        for text, part in (("", "no log"), (f"chain 0x{2:064x} 9 100\n", "refused other-chain"),
                           (f"chain 0x{1:064x} 9 100\nfund 1\n", "line 2"),
                           (f"chain 0x{1:064x} 9 100\ncall 1 finish 1 1\n", "line 2")):
            with open(other, "w", encoding="utf-8") as file:
                file.write(text)
            done = self.typed(f"{to}/bob", other)
            self.assertEqual((done.returncode, done.stdout), (2, ""))
            self.assertIn(part, done.stderr)
        for words, part in (((f"{to}/op", f"{to}/log"), "neither a wallet nor a watcher"),
                            ((to, f"{to}/log"), "No such file"), (("x",), "a folder and a log"), ((to, other, "--soon"), "no option")):
            done = self.typed(*words)
            self.assertEqual((done.returncode, done.stdout), (2, ""))
            self.assertIn(part, done.stderr)
        self.assertEqual(self.typed("--help").returncode, 0)
