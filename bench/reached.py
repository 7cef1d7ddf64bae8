"""Counts what the cases of bench/agree reached: each line, refusal, cut and verdict, and the meetings that are easily
missed. What a case is made for it says itself, by its marks.
"""
import collections
import re

from live_schedule import ANSWER_TIME, EXIT_TIME, WINDOW

HISTORY = "bad-bundle no-coin unknown-block missing-block bad-opening not-link bad-signature"
EXIT = "no-coin withdrawn bad-block not-owner exit-stands no-funds"
SPEND = "no-exit late bad-block bad-opening not-child bad-signature"
OFFER = "not-transfer no-coin wrong-parent bad-signature too-late pool-has-coin"
# What each line, and each command of a run, may be refused for.
CAUSES = {
    "fund": "sum-too-large", "tick": "clock-back clock-too-large",
    "deposit": "bad-amount bad-key no-funds too-many-blocks", "commit": "not-operator too-many-blocks",
    "start": EXIT, "exit": f"{EXIT} bad-opening not-child bad-signature", "after": SPEND, "between": SPEND,
    "before": "no-exit late bad-block bad-opening challenge-stands no-funds",
    "respond": f"{SPEND} no-challenge answered", "finish": "no-exit early",
    "accept": f"{HISTORY} not-mine withdrawn exit-stands", "guard": f"{HISTORY} withdrawn exit-stands",
    "send": "not-held leaving bad-last old-journal key-spent", "again": "not-sending", "leave": "not-held",
    "reclaim": "bad-bundle not-sending no-last not-yet unknown-block missing-block bad-opening not-absent exit-stands",
    "migrate": "already-new", "release": "no-guard", "offer": OFFER, "lay": "leaf-too-long",
    "bundle": "no-coin unknown-block", "prove": "unknown-block", "absences": "unknown-block",
    "run: receipt": f"{OFFER} no-key bad-due old-journal key-spent", "run: migrate": "no-key already-new",
    "run: audit": "bad-receipt bad-key not-signed not-yet bad-bundle other-coin unknown-block missing-block bad-opening"
                  " honoured",
    "run: put": "no-coin unknown-block have-block gap bad-opening", "run: tip": "no-coin",
    "run: bundle": "no-coin not-tip unknown-block", "run: sign": "bad-length key-spent", "run: line": "other-chain",
}
LINES = ("chain wallet watcher rogue fund tick money deposit enter sign crash cut open up down nothing commit start"
         " exit after between before respond finish accept guard send again leave reclaim migrate release watch offer"
         " lay seal bundle prove absences").split()
ENDS = ["no exhibit", "forgery", "bad line", "too long"]
RUNS = ("who state accept send again leave reclaim migrate watch guard release offer lay seal bundle prove absences"
        " receipt event put tip broken").split()
MEETINGS = """a tick to the end of a window
a tick to the end of an answer's time
a tick to an exit's opening
a call that is late by no second
a call in the last second
a finish at the exit's opening
two exits of a coin at once
three exits of a coin at once
two open challenges of an exit
two answers of an exit
a dropped exit with two open challenges
an exit begun again behind an answer
a challenge at the same block of an exit begun again
an answer to that challenge
a bond by its last penny
a bond that one penny lacks
more than six wallets
a due call of a watcher over files
a coin taken back over files
a receipt
a receipt due at the next block
a receipt due at the present block
an archive's tip that is a link
an archive's tip at its third link or later
an archive's bundle of a link
an archive that is broken
an archive of a coin that isn't there is whole
a signature of two levels that is valid
a conviction""".split("\n")
UP = "open of a node that is up, between its watch and a tick to a deadline"
OTHER = "another command between a watch and a tick to a deadline"
REFUSED = "a refused command between a watch and a tick to a deadline"


def wanted():
    """All that has to be reached, by its name."""
    names = [f"{line}: {cause}" for line, causes in CAUSES.items() for cause in causes.split(" ")]
    names += [f"line {name}" for name in LINES] + [f"run {name}" for name in RUNS]
    names += [f"cut at {calls} with {outcome}: {end}" for calls in range(5)
              for outcome in ("old", "new", "mix", "mix a5") for end in ("stopped", "done")
              if calls < 4 or end == "done"]
    names += [f"verdict {name}" for name in ("held", "paid", "away", "unattended", "lost")]
    return names + [f"ends {name}" for name in ENDS] + [*MEETINGS, UP, OTHER, REFUSED]


class Reached:
    def __init__(self):
        self.counts = collections.Counter()

    def see(self, case, dids):
        self.counts.update(case.marks)
        for step, did in zip(case.steps, dids):
            form = step.words[0] if step.words else ""
            self.counts[f"status {did.status} of {form[:10] if did.status != 2 else 'words'}"] += 1
            if step.words[:2] == ["hss", "verify"] and did.text == b"valid\n":
                self.counts["a signature of two levels that is valid"] += 1
            if form == "hss" and did.text.startswith(b"refused "):
                self.counts[f"run: sign: {cause_of(did.text.decode())}"] += 1
            if form == "replay":
                Schedule(self.counts).see(step, did)
            elif form and step.input:
                see_run(self.counts, step, did)

    def missing(self):
        return [name for name in wanted() if not self.counts[name]]


def cause_of(answer):
    return answer.split()[1] if answer.startswith("refused ") else None


# ---- runs

def see_run(counts, step, did):
    """The commands of a run over files, or over a log."""
    form = step.words[0]
    lines, answers = step.input.decode("latin-1").split("\n"), did.text.decode("latin-1").split("\n")
    if "--" not in lines:
        return
    answers = [it for it in answers if not it.startswith(("0x", "call ")) or it.startswith("0x") and len(it) == 130]
    tips = collections.defaultdict(set)
    for line, answer in zip(lines[lines.index("--") + 1 :], answers):
        word, cause = "audit" if form == "audit" else line.split(" ")[0], cause_of(answer)
        if not line:
            break
        counts[f"run {word}"] += 1
        if cause:
            counts[f"run: {word}: {cause}"] += 1
        see_answer(counts, form, line.split(" "), answer)
        if form == "archive" and answer.startswith(("tip ", "bundled ")):
            see_tip(counts, tips[line.split(" ")[1]], answer.split(" "))
    if answers[:1] == ["refused other-chain"]:
        counts["run: line: other-chain"] += 1


def see_tip(counts, tips, said):
    """An archive's answer. The coins of its chains are those of the blocks 1 and 2, so other tips are links."""
    if int(said[1]) > 2:
        counts["an archive's bundle of a link" if said[0] == "bundled" else "an archive's tip that is a link"] += 1
        tips.add(said[1])
        counts["an archive's tip at its third link or later"] += len(tips) == 3


def see_answer(counts, form, line, answer):
    """The meetings of one command of a run."""
    said = answer.split(" ")
    if form == "watcher" and said[0] == "offers" and said[1] != "0":
        counts["a due call of a watcher over files"] += 1
    if said[0] == "reclaimed":
        counts["a coin taken back over files"] += 1
    if said[0] == "promised":
        counts["a receipt"] += 1
        counts["a receipt due at the next block"] += int(said[2]) == int(said[1]) + 1
    if said[:2] == ["refused", "bad-due"] and line[2] == said[2]:
        counts["a receipt due at the present block"] += 1
    if said[0] == "convicted":
        counts["a conviction"] += 1
    if form == "archive" and said[0] == "broken":
        counts["an archive that is broken"] += 1
    if form == "archive" and line[0] == "broken" and int(line[1]) not in (1, 2) and said[0] == "whole":
        counts["an archive of a coin that isn't there is whole"] += 1


# ---- schedules

class Schedule:
    """The lines of a schedule, one by one with their answers."""

    def __init__(self, counts):
        self.counts, self.clock, self.accounts, self.balance = counts, 0, {}, collections.Counter()
        self.exits, self.challenges, self.answered, self.again = {}, {}, set(), {}
        self.between, self.leaving, self.wallets = {}, {}, 0

    def see(self, step, did):
        lines, told = step.input.decode("latin-1").split("\n"), did.text.decode("latin-1").split("\n")
        for number, line in enumerate(lines, 1):
            words = line.split(" ")
            answer = told[number - 1] if number <= len(told) else ""
            if not answer.startswith(f"{number} "):
                break
            self.line(words, answer.partition(" ")[2])
        for end in told[-40:]:
            found = re.fullmatch(r"\w+ \d+ (held|paid|away|lost|unattended)( \d+)?", end)
            if found and not end[0].isdigit():
                self.counts[f"verdict {found[1]}"] += 1
        last = told[-2] if len(told) > 1 else ""
        for name in ENDS:
            self.counts[f"ends {name}"] += last.startswith(name)

    def line(self, words, answer):
        kind = words[2] if words[0] == "call" else words[0]
        cause, said = cause_of(answer), answer.split(" ")
        self.counts[f"line {kind}"] += 1
        if said[0] in ("up", "down", "nothing"):
            self.counts[f"line {said[0]}"] += 1
        if cause and kind != "enter":
            self.counts[f"{kind}: {cause}"] += 1
        if kind == "cut":
            self.cut(words, said)
        self.order(words, kind, cause, said)
        seen = getattr(self, f"see_{kind}", None)
        if seen:
            seen(words, said, cause)

    def cut(self, words, said):
        outcome = words[3] if words[3] != "mix" else "mix a5" if words[5].startswith("0xa5") else "mix"
        if int(words[2]) < 5 and said[0] in ("stopped", "done"):
            self.counts[f"cut at {words[2]} with {outcome}: {said[0]}"] += 1

    def order(self, words, kind, cause, said):
        """What comes between a watch and a tick."""
        if kind == "watch" and said[0] == "offers":
            self.between[words[1]] = set()
        elif kind == "tick":
            if said[0] == "ticked" and self.met(int(words[1])):
                self.counts.update(name for names in self.between.values() for name in names)
        elif len(words) > 1 and words[1] in self.between and kind not in ("enter", "deposit"):
            self.between[words[1]].add(UP if said[0] == "up" else REFUSED if cause else OTHER)

    def met(self, time):
        ends = [start + WINDOW for start in self.exits.values()]
        ends += [at + ANSWER_TIME for key, (at, _) in self.challenges.items() if key not in self.answered]
        return any(self.clock < end <= time for end in ends)

    def see_wallet(self, *_):
        self.wallets += 1
        self.counts["more than six wallets"] += self.wallets == 7

    def see_tick(self, words, said, _):
        if said[0] == "ticked":
            self.clock = time = int(words[1])
            starts = [*self.exits.values()]
            self.counts["a tick to the end of a window"] += any(start + WINDOW == time for start in starts)
            self.counts["a tick to an exit's opening"] += any(start + EXIT_TIME == time for start in starts)
            self.counts["a tick to the end of an answer's time"] += any(
                at + ANSWER_TIME == time for key, (at, _) in self.challenges.items() if key not in self.answered)

    # ---- exits

    def see_leave(self, words, said, cause):
        if not cause and said[0] == "leaving":
            self.leaving[words[1]] = int(words[2]), int(said[1])

    def see_enter(self, words, said, _):
        if said[0] == "started" and words[1] in self.leaving:
            self.begin(self.leaving[words[1]])
        if said[0] in ("cancelled", "responded"):
            # (the line doesn't say of what, so nothing is counted of these)
            self.challenges.clear()
            self.exits = self.exits if said[0] == "responded" else {}

    def see_start(self, words, said, cause):
        if said[0] == "started":
            self.begin((int(words[3]), int(words[4])))
        self.penny(cause, said)

    def see_exit(self, words, said, cause):
        if said[0] == "started":
            self.begin((int(words[3]), int(words[6])))
        self.penny(cause, said)

    def penny(self, cause, said):
        if cause == "no-funds":
            self.counts["a bond that one penny lacks"] += int(said[2]) + 1 == int(said[3])

    def see_money(self, words, said, _):
        self.counts["a bond by its last penny"] += said == ["money", "0"] and self.took == words[1]

    took = None

    def begin(self, exit):
        behind = [key for key in self.answered if key[:2] == exit]
        self.counts["an exit begun again behind an answer"] += bool(behind)
        self.again[exit] = {key[2] for key in behind}
        self.answered -= {*behind}
        for key in [key for key in self.challenges if key[:2] == exit]:
            del self.challenges[key]
        self.exits[exit] = self.clock
        count = sum(1 for it in self.exits if it[0] == exit[0])
        self.counts["two exits of a coin at once"] += count == 2
        self.counts["three exits of a coin at once"] += count == 3

    def see_before(self, words, said, cause):
        key = tuple(map(int, words[3:6]))
        self.edges(key, cause, self.exits.get(key[:2], -WINDOW) + WINDOW)
        self.penny(cause, said)
        if said[0] == "challenged":
            self.took = words[1]
            self.counts["a challenge at the same block of an exit begun again"] += key[2] in self.again.get(key[:2], ())
            self.challenges[key] = self.clock, words[1]
            opened = [it for it in self.challenges if it[:2] == key[:2] and it not in self.answered]
            self.counts["two open challenges of an exit"] += len(opened) == 2

    def edges(self, key, cause, end):
        if key[:2] in self.exits:
            self.counts["a call that is late by no second"] += cause == "late" and self.clock == end
            self.counts["a call in the last second"] += not cause and self.clock == end - 1

    def see_respond(self, words, said, cause):
        key = tuple(map(int, words[3:6]))
        self.edges(key, cause, self.challenges.get(key, (-ANSWER_TIME, 0))[0] + ANSWER_TIME)
        if said[0] == "responded":
            self.answered.add(key)
            self.counts["an answer to that challenge"] += key[2] in self.again.get(key[:2], ())
            self.counts["two answers of an exit"] += sum(1 for it in self.answered if it[:2] == key[:2]) == 2

    def see_after(self, words, said, cause):
        key = int(words[3]), int(words[4])
        self.edges(key, cause, self.exits.get(key, -WINDOW) + WINDOW)
        if said[0] == "cancelled":
            self.exits.pop(key, None)

    see_between = see_after

    def see_finish(self, words, said, cause):
        key = int(words[3]), int(words[4])
        if said[0] in ("paid", "dropped"):
            self.counts["a finish at the exit's opening"] += self.exits.get(key, -1) + EXIT_TIME == self.clock
            opened = [it for it in self.challenges if it[:2] == key and it not in self.answered]
            self.counts["a dropped exit with two open challenges"] += said[0] == "dropped" and len(opened) > 1
            self.exits.pop(key, None)
