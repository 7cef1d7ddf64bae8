"""The grammar that docs/FORMATS.md has in its tables, read for tools/why and tools/forms: there is no other copy of
it.

Of `## Lines and words` the table of tokens, of `## The lines of a schedule` the three tables of lines, of `## Words of
the program` the forms and the words of each, of `## The runs of nodes` and `## Runs over a log` their commands, what is
refused of `## Refusals`, and the numbers of `## Limits`. A token without a row of its own is a number.
"""
import functools
import os
import re

TOP = os.path.dirname(os.path.dirname(os.path.realpath(__file__)))
PAGE = f"{TOP}/docs/FORMATS.md"
CODE = re.compile(r"`([^`]+)`")
LINKED = re.compile(r"\[([^\]]*)\]\([^)]*\)")
# A word with more letters is near none, and with more digits it is no number.
MOST_LETTERS = 40
# The tokens that are names, each of them of one kind of node.
NAMES = ("name", "wallet", "watcher", "rogue", "node")


class Unreadable(Exception):
    """The page doesn't have what is read of it."""


def section(text, heading):
    """What stands below a heading of the page."""
    found = re.search(rf"^## {re.escape(heading)}\n(.*?)(?=^## |\Z)", text, re.M | re.S)
    if not found:
        raise Unreadable(f"docs/FORMATS.md has no part '{heading}'")
    return found[1]


def tables(text):
    """The tables of a text: each a list of rows, which are lists of cells, with its head first."""
    found, last = [], None
    for line in text.splitlines():
        if not line.startswith("|"):
            last = None
            continue
        cells = [cell.strip().replace("\0", "|") for cell in line.replace("\\|", "\0").strip("|").split("|")]
        if all(re.fullmatch(r":?-+:?", cell) for cell in cells):
            continue
        if last is None:
            found.append([])
        last = found[-1]
        last.append(cells)
    return found


def rows_under(text, *head):
    """The rows of the tables whose first cells are these."""
    rows = [row for table in tables(text) if tuple(table[0][: len(head)]) == head for row in table[1:]]
    if not rows:
        raise Unreadable(f"docs/FORMATS.md has no table with the head {' | '.join(head)}")
    return rows


def number_of(text):
    return int(text.replace(",", ""))


@functools.cache
def refusals():
    """The table of refusals of the page."""
    with open(PAGE, encoding="utf-8") as file:
        return read_refusals(file.read())


def read_refusals(text):
    """What is refused: each cause with how it is spelled, what it means, and what a person does."""
    found = {}
    for row in rows_under(section(text, "Refusals"), "cause", "it means", "what to do"):
        for spelled in CODE.findall(row[0]):
            found[spelled.split()[0]] = (spelled, row[1].replace("`", ""), LINKED.sub(r"\1", row[2]).replace("`", ""))
    return found


# ---- how a token is spelled

DIGITS = r"\d[\d,]*"


class Spelling:
    """How a token is spelled, as its cell of the page says it: `why_not` has what is wrong with a word, or None."""

    def __init__(self, said, grammar):
        self.said = said
        self.grammar = grammar
        # (what stands behind a colon or a full stop explains, and spells nothing)
        self.head = re.split(r"[:.;] |: ", said)[0]

    def why_not(self, word):
        head = self.head
        if head.startswith("`old`"):
            return None  # (several words: see Grammar.outcome)
        if found := re.fullmatch(rf"a number from ({DIGITS}) to ({DIGITS})", head):
            return self.grammar.no_number(word, number_of(found[1]), number_of(found[2]))
        if found := re.fullmatch(rf"a number up to ({DIGITS})", head):
            return self.grammar.no_number(word, 0, number_of(found[1]))
        if found := re.fullmatch(r"(\d+) or (\d+)", head):
            return None if word in found.groups() else f"it is {head}, and not {shown(word)}"
        if found := re.fullmatch(rf"a hex of ({DIGITS}) bytes(, or a name)?", head):
            return self.hex_or_name(word, number_of(found[1]), bool(found[2]))
        if head == "a hex, or `#` and a number":
            return self.grammar.no_bytes(word)
        if head == "`-` for the deposit, or bytes":
            return None if word == "-" else self.grammar.no_bytes(word, "`-`, ")
        if head == "a hex":
            return self.grammar.no_hex(word)
        if head == "a number" or head.startswith("decimal digits"):
            return self.grammar.no_number(word)
        if head.startswith("a letter `a` to `z`"):
            return self.grammar.no_name(word)
        if head.startswith("`0x` and an even number of digits"):
            return self.grammar.no_hex(word)
        raise Unreadable(f"docs/FORMATS.md spells a token as '{self.said}', which tools/grammar.py doesn't know")

    def hex_or_name(self, word, size, may_be_name):
        if may_be_name and not word.startswith(("0x", "0X")) and len(word) != 2 * size:
            wrong = self.grammar.no_name(word)
            return wrong and f"a hex of {size} bytes or a declared name stands here: {wrong}"
        return self.grammar.no_hex(word, size)


def shown(word, most=40):
    """A word as a person can see it: what has no picture is named, and a long one is cut."""
    if word == "":
        return "nothing"
    out = "".join(ch if " " < ch <= "~" else named(ch) for ch in word[:most])
    return f"'{out}{'..' if len(word) > most else ''}'"


def seen(line, most=70):
    """A line as a person can see it: as `shown`, but a blank that parts two words is a blank."""
    cut = line[:most] + (".." if len(line) > most else "")
    parts = re.split(r"(?<=[!-~]) (?=[!-~])", cut)
    return " ".join("".join(ch if "!" <= ch <= "~" else named(ch) for ch in part) for part in parts) or "(empty)"


UNSEEN = {"\r": "a carriage return", "\t": "a tab", " ": "a blank", "\0": "a zero byte", "\v": "a vertical tab",
          "\f": "a form feed", "\x1b": "an escape"}


def count(number, of):
    return f"{number:,} {of}" + ("" if number == 1 else "s")


def named(ch):
    return f"<{UNSEEN[ch].split(' ', 1)[1]}>" if ch in UNSEEN else f"<byte {ord(ch):02x}>"


class Grammar:
    def __init__(self, path=PAGE):
        try:
            with open(path, encoding="utf-8") as file:
                text = file.read()
        except OSError as error:
            raise Unreadable(f"{path}: {error.strerror}") from None
        self.tokens = {row[0]: Spelling(row[1], self) for row in rows_under(section(text, "Lines and words"), "token")}
        self.last_number = number_of(re.search(rf"at most ({DIGITS})", self.tokens["number"].said)[1])
        self.name_bytes = number_of(re.search(rf"({DIGITS}) bytes at most", self.tokens["name"].said)[1])
        lines = section(text, "The lines of a schedule")
        self.lines, self.calls = {}, {}
        for row in rows_under(lines, "line", "what it does"):
            for form in CODE.findall(row[0]):
                self.put_line(form.split(), form)
        self.commands = {}
        for row in rows_under(lines, "command", "of"):
            words = CODE.findall(row[0])[0].split()
            self.commands[words[0]] = (words[1:], CODE.findall(row[0])[0], row[1])
        self.read_words(text)
        self.read_runs(text)
        self.refusals = read_refusals(text)
        self.read_limits(section(text, "Limits"))

    def put_line(self, words, form):
        if words[:2] == ["call", "<account>"]:
            self.calls[words[2]] = (words[3:], form)
        else:
            self.lines[words[0]] = (words[1:], form)

    def read_words(self, text):
        """The forms of the program: what each reads and writes, and how its words are spelled."""
        part = section(text, "Words of the program")
        usage = re.search(r"^usage: plasma .*$", text, re.M)
        if not usage:
            raise Unreadable("docs/FORMATS.md doesn't have the usage line")
        self.usage = usage[0]
        self.forms = []
        for row in rows_under(part, "form", "reads", "writes"):
            for form in CODE.findall(row[0]):
                self.forms.append((form.split(), row[1], row[2]))
        self.words = {}
        for row in rows_under(part, "word", "of", "spelling"):
            for word in CODE.findall(row[0]):
                for of in CODE.findall(row[1]):
                    self.words[of, word.strip("<>")] = Spelling(row[2], self)

    def read_runs(self, text):
        """The commands of each form that reads a log, by their first word: the tokens, and how it is typed."""
        self.runs, form = {}, ""
        for row in rows_under(section(text, "The runs of nodes"), "form", "command"):
            form = CODE.findall(row[0])[0] if row[0] else form
            typed = CODE.findall(row[1])[0]
            self.runs.setdefault(form, {})[typed.split()[0]] = (typed.split()[1:], typed)
        for row in rows_under(section(text, "Runs over a log"), "command", "answer"):
            typed = CODE.findall(row[0])[0]
            self.runs.setdefault("archive", {})[typed.split()[0]] = (typed.split()[1:], typed)

    def read_limits(self, part):
        rows = {row[0]: row[1] for row in rows_under(part, "what", "limit")}

        def number(begins):
            said = next((limit for what, limit in rows.items() if what.startswith(begins)), "")
            found = re.search(DIGITS, said)
            if not found:
                raise Unreadable(f"docs/FORMATS.md has no limit of '{begins}'")
            return number_of(found[0])

        self.line_bytes = number("a line,")
        self.input_bytes = number("the input,")
        self.most_lines = number("lines")
        self.mail_bytes = number("all mail items")
        self.most_wallets = number("wallets")

    # ---- the kinds of tokens: each says what is wrong with a word, or nothing

    def no_number(self, word, least=0, most=None):
        most = self.last_number if most is None else most
        whole = f"a number from {least:,} to {most:,}" if (least, most) != (0, self.last_number) else "a number"
        if not re.fullmatch(r"[0-9]+", word):
            return self.number_spelling(word, whole)
        if len(word) > 1 and word[0] == "0":
            return f"{shown(word)} has a zero in front, and a number has one spelling" + (
                f": {int(word)}" if len(word) <= MOST_LETTERS else "")
        if len(word) > MOST_LETTERS or int(word) > most:
            of = ", the last one that 8 bytes hold" if most == self.last_number else ""
            return f"{shown(word)} is more than {most}{of}"
        return f"{shown(word)} is less than {least}" if int(word) < least else None

    def number_spelling(self, word, whole):
        bare = word.replace(",", "").replace("_", "").replace("'", "").lstrip("+")
        if re.fullmatch(r"-[0-9]+", word):
            return f"{shown(word)} is below 0, and {whole} stands here"
        if re.fullmatch(r"[0-9]+", bare) and len(bare) <= MOST_LETTERS:
            return f"{shown(word)} has more than digits in it: write {int(bare)}"
        if word.startswith(("0x", "0X")):
            return f"{shown(word)} is a hex, and {whole} in decimal digits stands here"
        return f"{shown(word)} is not {whole}"

    def no_hex(self, word, size=None):
        of = f"a hex of {size} bytes, which is 0x and {2 * size} digits" if size is not None else "a hex"
        if not word.startswith("0x"):
            if word.startswith("0X"):
                return f"{shown(word)} begins with a big X: a hex begins with 0x"
            if re.fullmatch(r"[0-9a-fA-F]+", word) and (size is None or len(word) == 2 * size):
                return f"{shown(word)} has no 0x in front, and {of} stands here"
            return f"{shown(word)} is not {of}"
        digits = word[2:]
        if found := re.search(r"[^0-9a-f]", digits):
            if found[0] in "ABCDEF":
                return f"{shown(word)} has a big letter, '{found[0]}': the digits of a hex are 0 to 9 and a to f"
            return f"{shown(word)} has {shown(found[0])} in it, which is no digit of a hex (0 to 9, a to f)"
        if size is not None and len(digits) != 2 * size:
            has = f"{shown(word)} has {count(len(digits), 'digit')} behind 0x"
            return f"{has}, and {2 * size} stand here, for {size} bytes"
        if len(digits) % 2:
            return f"{shown(word)} has {count(len(digits), 'digit')} behind 0x, and a byte has two"
        return None

    def no_bytes(self, word, other=""):
        if word.startswith("#"):
            wrong = self.no_number(word[1:])
            return wrong and f"behind # the number of a line stands: {wrong}"
        if word.startswith(("0x", "0X")):
            return self.no_hex(word)
        return f"{shown(word)} is neither {other}a hex (0x and digits) nor # and the number of a line"

    def no_name(self, word):
        if not re.fullmatch(r"[a-z][a-z0-9]*", word):
            if re.fullmatch(r"[A-Za-z][A-Za-z0-9]*", word):
                return f"{shown(word)} has a big letter, and a name has none"
            return f"{shown(word)} is no name: a letter a to z, and then letters or digits"
        if len(word) > self.name_bytes:
            return f"{shown(word)} has {len(word)} letters, and a name has at most {self.name_bytes}"
        return None

    def token(self, name, word, form=None):
        """What is wrong with the word as this token of a line, or as this word of a form of the program."""
        if form is not None and (form, name) in self.words:
            return self.words[form, name].why_not(word)
        if name in NAMES and form is None:
            return self.no_name(word)
        return self.tokens[name].why_not(word) if name in self.tokens else self.no_number(word)


def near(word, known):
    """The known word that is nearest, if one is near: one letter more, less, other or changed in place is one step."""
    if len(word) > MOST_LETTERS:
        return None
    best = min(known, key=lambda it: (steps(word.lower(), it), it), default=None)
    return best if best is not None and steps(word.lower(), best) <= max(1, len(best) // 3) else None


def steps(one, other):
    before, row = [], list(range(len(other) + 1))
    for i, a in enumerate(one, 1):
        last, row, older = row, [i], before
        for j, b in enumerate(other, 1):
            cost = min(last[j] + 1, row[j - 1] + 1, last[j - 1] + (a != b))
            if i > 1 and j > 1 and a == other[j - 2] and one[i - 2] == b:
                cost = min(cost, older[j - 2] + 1)
            row.append(cost)
        before = last
    return row[-1]
