"""Reads a line of a schedule by the grammar (grammar.py), and says what is wrong with one that isn't in it: for
tools/why, and for what reads logs and the input of nodes (inputs.py).
"""
import re

from grammar import count, near, shown

# Words with one blank between each two.
PLAIN = re.compile(r"[!-~]+(?: [!-~]+)*")


class Wrong(Exception):
    """What is wrong with a line: the reason, and how the line is spelled."""

    def __init__(self, reason, form=None):
        super().__init__(reason)
        self.reason, self.form = reason, form


class Line:
    """A line that is in the grammar: its first word, its tokens by name in order, and the command of a `cut`."""

    def __init__(self, name, tokens, form, command=None):
        self.name, self.tokens, self.form, self.command = name, tokens, form, command

    def get(self, name):
        return next((word for token, word in self.tokens if token == name), None)


# ---- the grammar

def look(text):
    """What nobody sees in a line, or stands in no line: each of these alone makes it a bad one."""
    if PLAIN.fullmatch(text) and text[0] not in "#/;-":
        return
    if text == "":
        raise Wrong("the line is empty, and a schedule has no empty line")
    if text.startswith("\xef\xbb\xbf"):
        raise Wrong("it begins with a byte order mark, three bytes (ef bb bf) that an editor put in front of the text: "
                    "save the file as UTF-8 without one, or take them off with  sed -i '1s/^\\xef\\xbb\\xbf//' FILE")
    if text.startswith(("\xff\xfe", "\xfe\xff")) or "\0" in text[:40]:
        raise Wrong("it has zero bytes or the mark of UTF-16: a schedule is plain ASCII, so save the file as that")
    if text.endswith("\r"):
        raise Wrong("it ends with a carriage return, as files of Windows have it (CR LF): lines end with a line feed "
                    "alone; take them off with  sed -i 's/\\r$//' FILE")
    if text.lstrip(" \t").startswith(("#", "//", ";", "--")):
        raise Wrong(f"a schedule has no comments, and this line begins with {shown(text.split()[0][:2])}")
    if "\t" in text:
        raise Wrong(f"it has a tab (behind {shown(text.split(chr(9))[0][-20:])}): words are parted by one blank")
    if not text.strip(" "):
        raise Wrong("the line has nothing but blanks, and a schedule has no empty line")
    if text.startswith(" "):
        raise Wrong("it begins with a blank: a line begins with its first word")
    if text.endswith(" "):
        raise Wrong("it ends with a blank, behind its last word")
    if "  " in text:
        before = text.split("  ")[0].split(" ")[-1]
        raise Wrong(f"it has two blanks behind {shown(before)}: words are parted by one blank")
    if found := re.search(r"[^ -~]", text):
        place = count(found.start(), "character")
        raise Wrong(f"it has {shown(found[0])} behind {place}, and a line is printable ASCII")


def read_line(words, grammar):
    """The line that the words spell."""
    name = words[0]
    if name == "call":
        return read_call(words, grammar)
    if name in grammar.lines:
        return read_tokens(name, words[1:], *grammar.lines[name], grammar)
    if name in grammar.commands:
        return read_command(words, grammar)
    known = [*grammar.lines, *grammar.commands, "call"]
    best = name.lower() if name.lower() in known else near(name, known)
    if best in known and best == name.lower():
        raise Wrong(f"{shown(name)} has big letters, and the words of a line have none: '{best}'")
    if name in grammar.calls:
        raise Wrong(f"{shown(name)} is a call of an account: write 'call <account> {name} ..'")
    raise Wrong(f"no line begins with {shown(name)}" + (f": did you mean '{best}'?" if best else ""))


def read_call(words, grammar):
    if len(words) < 3:
        raise Wrong(f"behind 'call' stand an account and a form: {', '.join(grammar.calls)}", "call <account> ..")
    wrong = grammar.no_number(words[1])
    if words[2] not in grammar.calls:
        best = near(words[2], grammar.calls)
        hint = f": did you mean '{best}'?" if best else f" ({', '.join(grammar.calls)})"
        raise Wrong(f"{shown(words[2])} is no form of a call{hint}", "call <account> ..")
    tokens, form = grammar.calls[words[2]]
    if wrong:
        raise Wrong(f"<account>: {wrong}", form)
    line = read_tokens("call", words[3:], tokens, form, grammar)
    line.tokens.insert(0, ("account", words[1]))
    return line


def read_command(words, grammar):
    tokens, form, _ = grammar.commands[words[0]]
    return read_tokens(words[0], words[1:], tokens, form, grammar)


def read_tokens(name, given, tokens, form, grammar):
    """The tokens of a form in these words, in order; what stands in brackets may be missing, all of it."""
    least = [it for it in tokens if it[0] != "[" and it[-1] != "]"]
    more = [it.strip("[]") for it in tokens if it not in least]
    found, command, at = [], None, 0
    for token in (it.strip("<>") for it in least):
        if token == "command":
            command = read_inner(given[at:], grammar, form)
            at = len(given)
            continue
        if at >= len(given):
            raise Wrong(f"<{token}> is missing: the line has {count(1 + len(given), 'word')}, which is too few", form)
        size = 3 if token == "outcome" and given[at] == "mix" else 1
        put(found, token, given[at : at + size], grammar, form)
        at += size
    if at < len(given) and more:
        if len(given) - at < len(more):
            raise Wrong(f"{more[len(given) - at]} is missing: {' '.join(more)} go together", form)
        for token in (it.strip("<>") for it in more):
            put(found, token, given[at : at + 1], grammar, form)
            at += 1
    if at < len(given) and given[at].startswith(("#", "//", "--")):
        raise Wrong(f"{shown(given[at])} is a word too many: a schedule has no comments", form)
    if at < len(given):
        raise Wrong(f"{shown(given[at])} is a word too many", form)
    return Line(name, found, form, command)


def put(found, token, words, grammar, form):
    wrong = no_outcome(words, grammar) if token == "outcome" else grammar.token(token, words[0])
    if wrong:
        raise Wrong(f"<{token}>: {wrong}", form)
    if token == "name" and words[0] == "op":
        raise Wrong("<name>: 'op' is the operator's name, and a line declares another one", form)
    found.append((token, " ".join(words)))


def no_outcome(words, grammar):
    if words[0] in ("old", "new"):
        return None
    if words[0] != "mix":
        return f"{shown(words[0])} is no outcome of a crash: old, new, or mix with a number and a hex"
    if len(words) < 3:
        return "behind 'mix' stand a number and a hex"
    wrong = grammar.no_number(words[1]) or grammar.no_hex(words[2])
    return wrong or ("the hex behind 'mix' has at least one byte" if words[2] == "0x" else None)


def read_inner(words, grammar, form):
    """The command of a `cut`."""
    if not words:
        raise Wrong("<command> is missing: the line of a command, as 'seal'", form)
    if words[0] not in grammar.commands:
        raise Wrong(f"<command>: {shown(words[0])} is no command ({', '.join(grammar.commands)})", form)
    try:
        return read_command(words, grammar)
    except Wrong as wrong:
        raise Wrong(f"<command>: {wrong.reason}", f"{form}, with the command {wrong.form}") from None


class Found:
    """The line that ends a replay: its number, its text, what is wrong, and whether it passes a limit."""

    def __init__(self, number, text, wrong, too_long=False):
        self.number, self.text, self.wrong, self.too_long = number, text, wrong, too_long

    def last_line(self):
        return f"{'too long' if self.too_long else 'bad line'} {self.number}"


def no_room(text, number, end, grammar):
    """The limit that a line passes."""
    if number > grammar.most_lines:
        return f"an input has at most {grammar.most_lines:,} lines"
    if len(text) > grammar.line_bytes:
        return f"the line has {len(text):,} bytes, and a line has at most {grammar.line_bytes:,}"
    if end > grammar.input_bytes:
        return f"the input has at most {grammar.input_bytes:,} bytes, and they end inside this line"
    return None
