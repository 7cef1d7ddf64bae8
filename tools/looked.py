"""What the program `safe` says to each holder behind each line of a schedule that is played over files: for
examples/safe, which keeps it, and for the stories, which show where its word changes.
"""
import re
import subprocess
import tempfile
from dataclasses import dataclass

from plainly import day_of
from played import Played
from proved import Program, Safe

SHOWN_WORDS = 5  # of a call: `call`, the account, the kind, the coin and the block
# A longer schedule isn't played for a story.
MOST_LINES = 200
SAID = re.compile(r"(\d+) (\w+): (\d+) \d+ ([a-z]+)([ 0-9]*)")
COLORS = {"safe": "green", "paid": "green", "sent": "grey", "leaving": "blue", "act": "amber", "frozen": "amber",
          "stale": "amber", "late": "red", "gone": "red"}


@dataclass
class Look:
    """A word that `safe` says to a node of a coin, where it said another one before; and the word's numbers."""

    node: str
    coin: str
    word: str
    numbers: list

    def words(self):
        """The word, and of what is due by when, and the money that is missing."""
        if self.word != "act":
            return self.word
        by, missing = self.numbers
        return f"act by {day_of(int(by) + 1)}" + (f", {int(missing):,} missing" if missing != "0" else "")


def said(played, safe, clocks=()):
    """Plays a schedule, and gives a line for each coin of which something else is said: the line's number, the node,
    and `safe`'s line, with the beginnings of what is to be entered. The clocks are pairs of a line's number and a time
    by which each holder asks behind it too."""
    last = {}
    for line, nodes in played.steps():
        for node in nodes:
            now = asked(played, safe, node)
            for place, text in enumerate(now):
                if last.get(node, [])[place : place + 1] != [text]:
                    yield f"{line.number} {node}: {text}"
            last[node] = now
        for clock in (clock for number, clock in clocks if number == line.number):
            for node in last:
                yield from (f"{line.number} {node} at {clock}: {text}" for text in asked(played, safe, node, clock))


def asked(played, safe, node, clock=None):
    """What `safe` says of each coin of the node, with the beginnings of what is to be entered; by another clock than
    the log's, where one is given."""
    text = f"{played.text()}--\n" + ("" if clock is None else f"{clock}\n")
    done = subprocess.run([safe, played.roles[node]], cwd=played.folder(node), input=text.encode(),
                          stdout=subprocess.PIPE, check=False)
    if done.returncode > 1:
        return [f"status {done.returncode}"]
    found = []
    for line in done.stdout.decode().splitlines():
        if line[:1].isdigit():
            found.append(line)
        else:
            found[-1] += ", " + " ".join(line.split(" ")[:SHOWN_WORDS])
    return found


def looks_in(lines):
    """The looks of such lines, by the number of the schedule's line."""
    found, last = {}, {}
    for line in lines:
        words = SAID.match(line)
        if words and last.get(words.group(2, 3)) != words[4]:
            last[words.group(2, 3)] = words[4]
            found.setdefault(int(words[1]), []).append(Look(words[2], words[3], words[4], words[5].split()))
    return found


def looks_of(run, schedule, grammar):
    """The looks of a run that is played now; none where a proved program isn't here, where it would take long, or
    where the files answered otherwise."""
    if len(run.lines) > MOST_LINES:
        return {}
    with Program() as program, Safe() as safe, tempfile.TemporaryDirectory() as room:
        if not program or not safe:
            return {}
        played = Played(program, schedule, grammar, room)
        found = looks_in(said(played, safe))
        same = [it.answer for it in played.run.lines] == [it.answer for it in run.lines]
        return found if same and not played.differs else {}
