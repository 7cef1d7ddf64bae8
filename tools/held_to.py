"""Holds the words of tools/safe, and those of the proved program `safe`, to the program, over each line of a schedule
that is played over files: for tools/test and bench/safe.

Behind each line, and for each node that it changed:

- what is SAFE the program's own `state` calls held, and its `watch` offers nothing for it; and where it offers
  anything, the node's word is none of the good ones;
- where time then passes and somebody finishes each standing exit, what was SAFE is paid to nobody else, and what was
  TOO LATE is;
- the money by the log is that which the contract answers.

Of the proved program likewise: what is `safe` is held, has no offer, and is paid to nobody else; what is `gone` isn't
held; and each offered call is among its calls, unless a call for nothing takes its place, or the coin was signed away.
A guard may be `safe` while an exit spends its very tip: whoever has the coin next exits with it.

At the end the words fit the verdicts of the replay. A line that left the log and a node's files as they were isn't
looked at again.
"""
import subprocess
import tempfile

from played import Played
from safety import GOOD, Judge, whole

# Which words a verdict may have.
FITS = {"held": {"SAFE", "ACT BY", "TOO LATE", "LEAVING"}, "paid": {"PAID"}, "away": {"SENT"},
        "lost": {"GONE", "ACT BY", "LEAVING"}, "unattended": {"GONE", "ACT BY", "TOO LATE", "LEAVING"}}
# The same of the proved program's words.
FITS_PROVED = {"held": {"safe", "act", "late", "leaving"}, "paid": {"paid"}, "away": {"sent", "frozen"},
               "lost": {"gone", "act", "leaving"}, "unattended": {"gone", "act", "late", "leaving"}}
SIGNED_AWAY = ("sent", "frozen")
LATER = 2**39


class Held:
    """A schedule that is played, and what isn't as it should be."""

    def __init__(self, safe, program, grammar, counts, proved=None):
        self.safe, self.program, self.grammar, self.counts = safe, program, grammar, counts
        self.proved, self.seen = proved, {}
        self.last, self.told = None, []
        safe.PROGRAM = program

    def misses(self, name, schedule):
        """What isn't as it should be, of each line."""
        with tempfile.TemporaryDirectory() as room:
            played = Played(self.program, schedule, self.grammar, room)
            last, self.seen = {}, {}
            for line, nodes in played.steps():
                for node in nodes:
                    found = self.judged(played, node)
                    if found:
                        last[node] = found
                        misses = [*self.of(found), *self.of_proved(found), *self.later(played, line, found)]
                        yield from (f"{name}, line {line.number}, {node}: {it}" for it in misses)
            yield from (f"{name}: over files {it}" for it in played.differs)
            yield from (f"{name}: {it}" for it in self.at_the_end(played, last))

    def judged(self, played, node):
        """The node's words with what the program says; none where it has no coin, or where all is as it was."""
        text, folder = played.text().encode(), played.folder(node)
        files = self.safe.journals_of(folder)
        if self.seen.get(node) == (text, files):
            return None
        self.seen[node] = text, files
        log, account = self.safe.followed("log", text), played.accounts.get(node, ("0", 0))[0]
        records = self.safe.node_of(folder, files).coins()
        if not records and not any(it.account == int(account) for it in log.coins.values()):
            return None
        node, key, states, offers = self.safe.asked(folder, text, log)
        told = self.proved and self.safe.words_by(self.proved, folder, node.role, text + b"--\n")
        return node, states, offers, Judge(node, log, key, states, offers).verdicts(), log, told

    def of(self, found):
        """The program's own answers bear the words out."""
        node, states, offers, verdicts, _, _ = found
        word = whole(verdicts)
        self.counts[f"whole {word}"] += 1
        if offers and word in GOOD:
            yield f"{word}, and the watch offers {len(offers)}"
        for it in verdicts:
            self.counts[it.word] += 1
            held = node.role == "watcher" or states[it.coin].startswith("held ")
            due = [call for call in offers if call.split(" ")[3] == str(it.coin)]
            if it.word == "SAFE" and (due or not held):
                yield f"coin {it.coin} is SAFE, and {states.get(it.coin)}, with {len(due)} offers"

    def of_proved(self, found):
        """The program's own answers bear the proved program's words out."""
        node, states, offers, verdicts, _, told = found
        if told is None:
            return
        if [it.coin for it in verdicts] != [coin for coin, _, _ in told]:
            yield f"the proved program tells of other coins: {told}"
            return
        for it, (coin, words, calls) in zip(verdicts, told):
            self.counts[f"proved {words[0]}"] += 1
            self.counts[f"{it.word} and proved {words[0]}"] += 1
            # (a coin that the wallet leaves with is the holder's until it is paid)
            held = states[coin].startswith(("held ", "leaving ")) if node.role == "wallet" else None
            if words[0] == "safe" and held is False or words[0] == "gone" and held:
                yield f"coin {coin} is {words[0]}, and {states[coin]}"
            due = [call for call in offers if call.split(" ")[3] == str(coin)]
            # (of two guards of a coin an offer is for one of them)
            guards = [one for one in told if one[0] == coin]
            if words[0] in ("safe", "leaving", "paid", "gone") and due and len(guards) == 1:
                yield f"coin {coin} is {words[0]}, with {len(due)} offers"
            yield from (f"{call[:40]} is offered, and not said" for call in due if not is_said(call, guards))

    def later(self, played, line, found):
        """Time passes, and somebody finishes all that stands: who is paid."""
        node, _, _, verdicts, log, told = found
        standing = sorted(log.standing(), key=lambda it: it.opens)
        if not standing or not any(it.exits for it in verdicts):
            return
        finished = self.finished(played, line, standing)
        for it, (_, words, _) in zip(verdicts, told or [(None, [""], None)] * len(verdicts)):
            mine = [one for one, answer in zip(standing, finished) if answer == "paid" and one.coin == it.coin]
            other = [one for one in mine if one.block != it.tip]
            if words[0] == "safe" and any(one.parent != it.tip for one in other):
                yield f"coin {it.coin} is safe, and account {other[0].account} is paid for it"
            elif words[0] == "safe" and other:
                # (the owner's key signed a spend that the node doesn't know: a guard is too old, or a seed was stolen.
                # No call cancels such an exit, so the word is as if it weren't there)
                self.counts[f"proved safe of a {node.role}'s coin, and a spend of it exits"] += 1
            if it.word == "SAFE" and other:
                yield f"coin {it.coin} is SAFE, and account {other[0].account} is paid for it"
            if it.word == "TOO LATE" and not other and not it.due and "challenge of your exit" not in str(it.notes):
                yield f"coin {it.coin} is TOO LATE, and nobody else is paid for it"

    def finished(self, played, line, standing):
        """What these finishes are answered then. Which log it is says all, so it is asked once for each."""
        log = played.text()
        if self.last != log:
            lines = played.schedule.splitlines()[: line.number]
            lines += [f"tick {LATER}", *(f"call 999 finish {it.coin} {it.block}" for it in standing)]
            answers = self.replayed(lines)[line.number + 1 : line.number + 1 + len(standing)]
            self.last, self.told = log, [it.split(" ")[1] for it in answers]
        return self.told

    def replayed(self, lines):
        text = "".join(f"{line}\n" for line in lines).encode()
        done = subprocess.run([self.program, "replay"], input=text, stdout=subprocess.PIPE, check=False)
        return done.stdout.decode().splitlines()

    def at_the_end(self, played, last):
        """The words and the verdicts, and the money of each account."""
        for name, coin, *words in played.run.verdicts:
            verdicts = {it.coin: it.word for it in last[name][3]} if name in last else {}
            self.counts[f"verdict {words[0]}"] += 1
            if verdicts.get(int(coin)) not in FITS[words[0]]:
                yield f"{name}, coin {coin}: {words}, and {verdicts.get(int(coin))}"
            proved = {it: said[0] for it, said, _ in (last[name][5] or [])} if name in last else {}
            if self.proved and proved.get(int(coin)) not in FITS_PROVED[words[0]]:
                yield f"{name}, coin {coin}: {words}, and {proved.get(int(coin))} by the proved program"
        if not played.run.whole:
            return
        log = self.safe.followed("log", played.text().encode())
        asked = [f"money {account}" for account in sorted(log.money)]
        lines = played.schedule.splitlines()
        answers = self.replayed([*lines, *asked])[len(lines) : len(lines) + len(asked)]
        for account, answer in zip(sorted(log.money), answers):
            if int(answer.split(" ")[2]) != log.money[account]:
                yield f"account {account} has {answer.split(' ')[2]}, and {log.money[account]} by the log"


def is_said(call, told):
    """An offered call is among those that are told of its coin; or, of a Before, one that cancels its exit is; or the
    coin was signed away."""
    kind, exit = call.split(" ")[2:5:2]
    for _, words, calls in told:
        free = [it.split(" ") for it in calls if it.split(" ")[2:3] in (["after"], ["between"])]
        if words[0] in SIGNED_AWAY or call in calls or kind == "before" and any(it[4] == exit for it in free):
            return True
    return False
