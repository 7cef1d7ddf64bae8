"""Random runs of nodes over files: the commands of a random schedule, each by a node over files with the log of the
calls that were accepted. The second opinion makes them. For bench/agree.
"""
import tempfile

from agreeing import Step
from plasma_bytes import TAG, hexed, identity, journal, owner, public_key, seed_of, signer, transfer
from random_schedules import schedule

# The kinds of schedules that are followed: they have no crash and no bad line.
FOLLOWED = ["life", "life", "guarded", "guarded", "guarded", "thief", "thief", "restart", "full", "numbers"]
ACCEPTED = {"funded", "ticked", "deposited", "committed", "started", "cancelled", "challenged", "responded", "paid",
            "dropped"}
OPERATORS = {"offer", "lay", "seal", "bundle", "prove", "absences"}
NO_LEAF = journal()


class Differs(Exception):
    """A node over files answers another thing than a replay does."""


class Node:
    """A node's role, its folder, the words that its lines of a schedule lack, and its offers."""

    def __init__(self, role, account, files):
        self.role, self.account, self.files, self.offers = role, account, files, []


class Followed:
    """A schedule, by nodes over files: the runs that it makes."""

    def __init__(self, second, random, lines, answers):
        self.second, self.random = second, random
        self.log, self.nodes, self.keys, self.items = [], {}, {}, {}
        self.steps, self.moments = [], []
        self.queue = []
        with tempfile.TemporaryDirectory() as self.folder:
            for number, (line, answer) in enumerate(zip(lines, answers), 1):
                self.follow(number, line.split(" "), answer)
            self.flush()

    def follow(self, number, words, answer):
        first = words[0]
        if first == "chain":
            self.log.append(f"chain {hexed(TAG)} {words[2]} {words[3]}")
            self.nodes["op"] = Node("operator", int(words[2]), {"notes.journal": journal(identity("operator",
                                                                                                  int(words[2])))})
        elif first in ("wallet", "watcher", "rogue"):
            self.declare(words)
        elif first == "money":
            pass
        elif first in ("fund", "tick"):
            self.note(" ".join(words), answer)
        elif first == "deposit":
            account = self.nodes[words[1]].account
            self.note(f"call {account} deposit {words[2]} {hexed(public_key(self.keys[words[1]]))}", answer)
        elif first == "call":
            self.flush()
            self.note(" ".join([*words[:3], *(self.hex_of(word) for word in words[3:])]), answer)
        elif first == "enter":
            self.enter(words, answer)
        elif first == "sign":
            self.sign(number, words)
        elif first != "open":
            self.command(number, words, answer)

    def declare(self, words):
        types = (int(words[4]), int(words[5])) if len(words) > 4 else (5, 4)
        if words[0] != "watcher":
            self.keys[words[1]] = signer(int(words[3]), *types)
            self.accounts = {**getattr(self, "accounts", {}), words[1]: int(words[2])}
        if words[0] == "wallet":
            notes = identity("wallet", int(words[2]), seed_of(int(words[3])), *types)
            self.nodes[words[1]] = Node("wallet", int(words[2]), {"notes.journal": journal(notes),
                                                                  "leaves.journal": NO_LEAF})
        if words[0] == "watcher":
            self.nodes[words[1]] = Node("watcher", int(words[2]), {"notes.journal": journal(identity("watcher",
                                                                                                     int(words[2])))})

    def note(self, line, answer):
        """A line that goes to the log where its call was accepted."""
        if answer.split(" ")[0] in ACCEPTED:
            self.flush()
            self.log.append(line)

    def hex_of(self, word, as_owner=False):
        if word.startswith("#"):
            return hexed(self.items.get(int(word[1:]), b""))
        if word in self.keys:
            key = self.keys[word]
            return hexed(owner(self.accounts[word], key) if as_owner else public_key(key))
        return word

    def enter(self, words, answer):
        self.flush()
        offers = self.nodes[words[1]].offers
        number = int(words[2])
        if answer == "nothing":
            if 0 < number <= len(offers):
                offer = offers[number - 1]
                raise Differs(f"'{' '.join(words)}' enters nothing, and the node over files offers {offer}")
        elif not 0 < number <= len(offers):
            raise Differs(f"'{' '.join(words)}' is answered {answer}, and the node over files has no such offer")
        else:
            self.note(offers[number - 1], answer)

    def sign(self, number, words):
        key, last = self.keys[words[1]], int(words[6]) if len(words) > 6 else None
        to = bytes.fromhex(self.hex_of(words[5], as_owner=True)[2:])
        self.items[number] = transfer(key, int(words[2]), int(words[3]), int(words[4]), to, last)

    # ---- commands

    def command(self, number, words, answer):
        name = "op" if words[0] in OPERATORS else words[1]
        rest = words[1:] if name == "op" else words[2:]
        needs = {int(word[1:]) for word in rest if word.startswith("#")} & {it[1] for it in self.queue}
        if needs or self.queue and (self.queue[0][0] != name or self.random.random() < 0.3):
            self.flush()
        line = " ".join([words[0], *(self.hex_of(word, as_owner=True) for word in rest)])
        self.queue.append((name, number, line, answer))
        if answer.startswith("refused"):
            self.flush()

    def flush(self):
        """Runs the commands that wait, of one node, and compares their answers with the replay's."""
        if not self.queue:
            return
        node, queue, self.queue = self.nodes[self.queue[0][0]], self.queue, []
        text = "\n".join([*self.log, "--", *(it[2] for it in queue), *self.questions(node)]) + "\n"
        step = Step([node.role], text.encode(), node.files)
        did = self.second.run(self.folder, step)
        self.steps.append(step)
        node.files = did.files
        self.moments.append((node.role, node.account, did.files, [*self.log]))
        lines = did.text.decode("latin-1").split("\n")
        for _, number, line, answer in queue:
            told = lines.pop(0) if lines else ""
            if told != answer:
                raise Differs(f"'{line[:200]}' is answered {answer!r} in a replay, and {told!r} over files")
            self.made(node, number, line, lines)

    def made(self, node, number, line, lines):
        """What stands below an answer: an item, or offers."""
        below, word = [], line.split(" ")[0]
        known = ("0x", "call ", "fund", "tick")
        while lines and lines[0].startswith(known):
            below.append(lines.pop(0))
        # (what `who` answers, which may come behind the last command, is no offer)
        node.offers = [it for it in below if it[:2] != "0x"] if word in ("watch", "leave", "seal") else []
        if word in ("send", "again", "bundle", "absences", "prove") and below:
            self.items[number] = bytes.fromhex(below[0][2:])

    def questions(self, node):
        """What a wallet is asked besides."""
        if node.role != "wallet" or self.random.random() < 0.7:
            return []
        return self.random.sample(["who", "state 1", "state 2", "state 0", f"state {2**64 - 1}"], 2)


def followed(second, random):
    """The runs of a random schedule."""
    text, answers = schedule(second, random, random.choice(FOLLOWED))
    lines = text.decode("latin-1").split("\n")
    return Followed(second, random, lines, answers)
