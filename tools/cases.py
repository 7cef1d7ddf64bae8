"""Reads the cases of crates/run_cases/data and crates/run_signer_cases/data (docs/CASES.md has their form), and gives
the input of each run that they make and what is expected of it. No program is run: a run that takes what an earlier
one printed is left out.
"""
import os
import re

TOP = os.path.dirname(os.path.dirname(os.path.realpath(__file__)))
# The programs that play cases: the files of each lie in its data/.
PLAYERS = ("run_cases", "run_signer_cases")
NAMES = "names"
# What begins something else, so that the run in front of it is whole.
CHANGES = ("run", "let", "notes", "leaves", "cut", "digest", "folder")
HOLE = "{?"


def data_of(player):
    return f"{TOP}/crates/{player}/data"


def place_of(file):
    """Where a file of cases lies; that of the names is the first player's."""
    return next(place for it in PLAYERS if os.path.isfile(place := f"{data_of(it)}/{file}"))


class Unknown(Exception):
    """A name that only a run would bind."""


class Run:
    """A run: its words and input, whether these aren't known, the status that it ends with, and the lines that are
    expected."""

    def __init__(self, case, words):
        self.case, self.words = case, words
        self.input, self.unknown = bytearray(), False
        self.status, self.lines, self.has_text = "Done", [], False


def lines_of(texts):
    """The lines in front of the first case, and those of each case, with each part put in at its place."""
    head, cases, parts, open_part = [], [], {}, None
    for line in (line for text in texts for line in text.split("\n")):
        if not line or line.startswith("#"):
            continue
        if open_part is None and line.startswith("part "):
            open_part = parts.setdefault(line[5:], [])
            continue
        if open_part is not None and line == "end":
            open_part = None
            continue
        if line.startswith("case ") and open_part is None:
            cases.append([])
        into = open_part if open_part is not None else cases[-1] if cases else head
        into.extend(parts[line[3:]] if line.startswith("do ") else [line])
    return head, cases


def tables_of(lines):
    """The title of a case, its tables, and its other lines."""
    title, tables, body, table = "", [], [], None
    for line in lines:
        if table is not None:
            if line == "end":
                tables.append(table)
                table = None
            else:
                table[1].extend(rows_of(line))
        elif line.startswith("each "):
            table = ([it.strip() for it in line[5:].split("|")], [])
        elif line.startswith("case "):
            title = line[5:]
        else:
            body.append(line)
    return title, tables, body


def rows_of(line):
    first, *others = line.split("|")
    found = re.fullmatch(r"\s*(\d+)\.\.(\d+)\s*", first)
    for place in range(int(found[1]), int(found[2]) + 1) if found else [None]:
        yield [first if place is None else str(place), *others]


def expand(text, names):
    """The text, in which what stands in braces is replaced."""

    def number(word):
        return int(names.get(word, word) or "")

    def value(found):
        inside = found[1]
        if "*" in inside:
            part, times = inside.split("*", 1)
            return part * number(times)
        if found := re.fullmatch(r"u(32|64) (.*)", inside):
            return number(found[2]).to_bytes(int(found[1]) // 8, "big").hex()
        name, _, span = inside.partition("/")
        if name not in names or names[name] is None:
            raise Unknown(name)
        begins, _, ends = (span or "0..").partition("..")
        return names[name][2 * number(begins) : 2 * number(ends) if ends else None]

    return re.sub(r"\{([^{}]*)\}", value, text)


class Played:
    """One combination of a case's rows, line by line."""

    def __init__(self, case, names):
        self.case, self.names, self.run = case, names, None

    def take(self, line):
        """Takes a line; gives the run in front of it where that is whole now."""
        asked, arrow, answer = line.partition(" => ")
        first, _, rest = line.partition(" ")
        done = None
        if arrow:
            self.ask(asked.rstrip(), 1)
            self.answer(answer)
        elif first.startswith("<"):
            self.ask(rest, int(first[1:] or "1"))
        elif first == ">":
            self.expect(rest)
        elif first in CHANGES:
            done, self.run = self.run, None
            self.change(first, rest)
        elif self.run:
            self.note(first, rest)
        return done

    def ask(self, text, times):
        if self.run and not self.run.unknown:
            try:
                self.run.input += (expand(text, self.names) + "\n").encode() * times
            except Unknown:
                self.run.unknown = True

    def answer(self, answer):
        """The answer to the last line of the input. A bad line ends a replay."""
        if answer == "bad line" and self.run.words == ["replay"]:
            self.run.status = "BadLine"
            answer += f" {self.run.input.count(10)}"
        self.expect(answer)

    def expect(self, pattern):
        self.run.lines.append(pattern)
        for name in re.findall(r"\{\?([^}]*)\}", pattern):
            self.names.setdefault(name, None)

    def change(self, first, rest):
        if first == "run":
            try:
                self.run = Run(self.case, [word for word in expand(rest, self.names).split(" ") if word])
            except Unknown:
                self.run = Run(self.case, [])
                self.run.unknown = True
        if first == "let":
            name, _, value = rest.partition(" = ")
            try:
                self.names[expand(name, self.names)] = expand(value, self.names)
            except Unknown:
                self.names[name] = None

    def note(self, first, rest):
        if first == "output":
            self.run.unknown = True
        elif first == "unended":
            del self.run.input[-1:]
        elif first == "ends":
            self.run.status = expand(rest, self.names)
        elif first == "text":
            self.run.has_text = True

    def last_line(self):
        """The last line that is expected of the run, if it is said."""
        try:
            return expand(self.run.lines[-1], self.names) if self.run.lines else None
        except Unknown:
            return None


def combinations(tables):
    """Each combination of a row of each table, as names."""
    if not tables:
        yield []
        return
    (columns, rows), *others = tables
    for row in rows:
        for rest in combinations(others):
            yield [*zip(columns, row), *rest]


def runs(file):
    """The runs of a file of cases, each with its last line that is expected; without those whose input isn't known."""
    texts = []
    for name in (NAMES, file):
        with open(place_of(name), encoding="utf-8", newline="") as it:
            texts.append(it.read())
    head, cases = lines_of(texts)
    begun = Played(file, {})
    for line in head:
        begun.take(line)
    for case in cases:
        title, tables, body = tables_of(case)
        for row in combinations(tables):
            played = Played(f"{file}: {title}", dict(begun.names))
            for name, value in row:
                played.names[name] = expand(value.strip(), played.names) if "{" in value else value.strip()
            for line in [*body, "let end = "]:
                last = played.last_line() if played.run and line.split(" ")[0] in CHANGES else None
                run = played.take(line)
                if run and not run.unknown:
                    run.last = last
                    yield run


def files():
    """The files of cases."""
    return sorted({name for it in PLAYERS for name in os.listdir(data_of(it))} - {NAMES, "wrong"})
