"""A schedule and the text of its run, as lines with their answers. docs/FORMATS.md has the grammar (grammar.py)."""
import re
from dataclasses import dataclass

OPERATOR = "op"


@dataclass
class Line:
    """A line of the schedule: its form, its words by their tokens, its answer; of a `cut` the command as a line."""

    number: int
    text: str
    form: str
    args: dict
    answer: list
    inner: object = None

    def get(self, token):
        return self.args.get(token, "")


def forms_of(grammar):
    """The tokens of each form of a line; those of a call stand behind `call`."""
    found = {name: tokens for name, (tokens, *_) in [*grammar.lines.items(), *grammar.commands.items()]}
    found.update({f"call {name}": ["<account>", *tokens] for name, (tokens, _) in grammar.calls.items()})
    return {name: [token.strip("<>[]") for token in tokens] for name, tokens in found.items()}


def line_of(number, text, answer, forms):
    """A line that was answered, so that it is in the grammar."""
    words = text.split(" ")
    form = " ".join(("call", words[2])) if words[0] == "call" else words[0]
    rest = [words[1], *words[3:]] if words[0] == "call" else words[1:]
    args, inner = {}, None
    for token in forms[form]:
        if token == "command":
            inner = line_of(number, " ".join(rest), answer[1:] or ["stopped"], forms)
            break
        size = 3 if token == "outcome" and rest[:1] == ["mix"] else 1
        if rest:
            args[token] = " ".join(rest[:size])
        rest = rest[size:]
    return Line(number, text, form, args, answer, inner)


class Run:
    """A run: its lines with their answers, the verdicts, and the line that ends its text."""

    def __init__(self, schedule, text, grammar):
        forms = forms_of(grammar)
        written = text.splitlines()
        self.lines, self.verdicts, self.last = [], [], written[-1] if written else ""
        for number, line in enumerate(schedule.split("\n"), 1):
            if number > len(written) or not written[number - 1].startswith(f"{number} "):
                break
            self.lines.append(line_of(number, line, written[number - 1].split(" ")[1:], forms))
        self.verdicts = [line.split() for line in written[len(self.lines) : -1]]
        self.whole = self.last.startswith(("no exhibit", "collision ", "forgery "))


def items_of(line):
    """The lines whose items a line's words are."""
    words = [*line.args.values(), *(line.inner.args.values() if line.inner else [])]
    return [int(word[1:]) for word in words if re.fullmatch("#[0-9]+", word)]


def is_good(line):
    return line.answer[0] not in ("refused", "down", "nothing", "stopped")


def stays(line):
    """Whether the record of a command that was cut is kept."""
    calls, outcome = int(line.get("calls")), line.get("outcome").split(" ")
    opens = outcome[0] == "new" or (outcome[0] == "mix" and outcome[2][2:4] == "a5")
    if line.answer[0] == "done":
        return is_good(line.inner)
    return line.answer[0] == "stopped" and calls in (2, 3) and opens


def node_of(line):
    """The lane of whoever does a command."""
    for token in ("wallet", "watcher", "rogue", "node"):
        if line.get(token):
            return line.get(token)
    return "" if line.form in ("tick", "money", "fund", "chain") or line.form.startswith("call ") else OPERATOR
