"""The tests of the sentences of tools/story, for tools/test: they are those of the table tools/sentences, which was read
by a person, for each example that replays a schedule; what each account has fits the money that the run asks for; and a
log of a chain is told as well.

usage: python3 tools/story_tests.py      prints the table anew, to be read
"""
import os
import re
import subprocess
import sys
import tempfile
import unittest

from answered import Run
from grammar import Grammar
from sentences import Purse, Sentences
from testing import HERE, Program, script
from told import Story

EXAMPLES = f"{HERE}/../examples"
TABLE = f"{HERE}/sentences"
THEFT = """chain {tag} 9 100
fund 11 1000
call 11 deposit 300 0x0000000500000004{zeros}
call 9 commit 0x{root}
call 11 start 1 1
"""


def text_of(path):
    with open(path, encoding="utf-8") as file:
        return file.read()


def stories():
    """Each example that replays a schedule, with its run."""
    grammar = Grammar()
    for name in sorted(os.listdir(EXAMPLES)):
        folder = f"{EXAMPLES}/{name}"
        if os.path.isfile(f"{folder}/input") and text_of(f"{folder}/words").split() == ["replay"]:
            yield name, Story(Run(text_of(f"{folder}/input"), text_of(f"{folder}/expected"), grammar))


def table():
    for name, story in stories():
        told = Sentences(story)
        yield f"{name}: {told.title()}"
        yield from (f"    {line}" for line in told.lines())


class Sentence(unittest.TestCase):
    def test_each_example_has_its_sentences(self):
        self.assertEqual([*table()], text_of(TABLE).splitlines())

    def test_there_are_three_to_six(self):
        for name, story in stories():
            told = Sentences(story).lines()
            self.assertTrue(2 <= len(told) <= 6, name)
            self.assertFalse([line for line in told if len(line.split()) > 40], name)

    def test_the_money_of_each_account(self):
        tried = 0
        for name, story in stories():
            has = {lane: amount for lane, _, amount, _ in Purse(story).rows()}
            asked = {}
            for line in story.lines:
                if line.form == "money":
                    asked[story.by_account.get(line.get("account"))] = (line, int(line.answer[1]))
            for lane, (line, balance) in asked.items():
                moved = [row for row in story.rows if row.numbers[1] > line.number and row.lines[-1].answer[0] in (
                    "funded", "deposited", "started", "challenged", "responded", "cancelled", "paid", "dropped")]
                if not moved:
                    tried += 1
                    self.assertEqual(has.get(lane, 0), balance, f"{name}: {lane}")
        self.assertGreater(tried, 10)

    def test_a_log(self):
        with tempfile.TemporaryDirectory() as room, Program() as program:
            if not program:
                self.skipTest("no proved program is here")
            for tag in (f"0x{1:064x}", "0x" + "f" * 64):
                with open(f"{room}/log", "w", encoding="utf-8") as file:
                    file.write(THEFT.format(tag=tag, zeros="0" * 96, root="0" * 64))
                env = {**os.environ, "PLASMA_PROGRAM": program}
                done = subprocess.run([f"{HERE}/story", "--me", "11=Ursula", f"{room}/log"], capture_output=True,
                                      text=True, env=env, check=False)
                self.assertEqual((done.returncode, done.stderr), (0, ""))
                for part in ("Ursula takes coin 1 out\n", "Ursula deposited 300: coin 1.",
                             "The exit stands: it can be stopped before day 7, and finished from day 10½.",
                             "Next, before day 7: cancel or challenge the exit of block 1."):
                    self.assertIn(part, done.stdout)

    def test_a_log_at_its_word(self):
        told = script("story")
        text = THEFT.format(tag="0x" + "f" * 64, zeros="0" * 96, root="0" * 64)
        schedule, replayed = told.as_schedule(text + "tick 907200\ncall 5 finish 1 1\n")
        self.assertFalse(replayed)
        answers = [re.sub(r"^\d+ ", "", line) for line in told.at_its_word(schedule).splitlines()]
        self.assertEqual(answers, ["chain", "funded", "deposited 1 1", "committed 2", "started 907200", "ticked",
                                   "paid", "no exhibit"])


if __name__ == "__main__":
    print("\n".join(table()))
    sys.exit(0)
