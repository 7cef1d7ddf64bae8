"""Plays the cases of crates/run_cases/data and crates/run_signer_cases/data (docs/CASES.md has their form) by a program
over files, and gives each run as a vector. A run that needs what no program over files and pipes has (a call that
fails, the digest of few values) isn't played, and says so; nor is what stands behind it in its case, where that takes
what it left.
"""
import hashlib
import os
import re
import sys

HERE = os.path.dirname(os.path.abspath(__file__))
TOP = os.path.dirname(HERE)
sys.path[:0] = [f"{TOP}/tools", f"{TOP}/bench"]
import cases  # noqa: E402
from agreeing import Step  # noqa: E402
from cases import NAMES, Unknown, combinations, expand, lines_of, place_of, tables_of  # noqa: E402

STATUSES = {"Done": 0, "Refused": 1, "Usage": 2, "BadLine": 3, "ReadFault": 4, "WriteFault": 5, "DeviceFault": 6,
            "NoMemory": 7, "TooLong": 8, "NotJournal": 9, "AlreadyMade": 10}
FILES = {"notes": "notes.journal", "leaves": "leaves.journal"}
# The forms that keep files, and those that judge openings.
OVER_FILES = ("wallet", "operator", "watcher", "init", "hss")
OPENING = ("replay", "brief", "wallet", "operator", "watcher", "audit", "archive")
STOPS = ("run", "let", "notes", "leaves", "cut", "digest", "folder")
HOLE = re.compile(r"\{\?([^{}]*)\}")


class Wrong(Exception):
    """A run isn't as the case says."""


class Asked:
    """A run of a case: its words, its input, what it needs, and what is expected."""

    def __init__(self, words):
        self.words, self.input, self.needs, self.pieces = words, [], [], None
        self.lines, self.count, self.status, self.digest, self.has = [], 0, "Done", None, []
        self.unended = self.takes_output = False


class Player:
    """A case's combination of rows, line by line: the vectors of its runs."""

    def __init__(self, program, folder, names):
        self.program, self.folder, self.names = program, folder, names
        self.files, self.asked, self.output, self.toy, self.lost = {}, None, b"", False, set()
        self.vectors = []

    def take(self, line):
        try:
            self.take_known(line)
        except Unknown:
            first, _, rest = line.partition(" ")
            if first == "run":
                self.asked = Asked([])
            elif first == "let":
                self.names[rest.partition(" = ")[0]] = None
            elif first in FILES:
                self.lost.add(first)
            if self.asked:
                self.asked.needs.append("what an earlier run wrote")

    def take_known(self, line):
        asked, arrow, answer = line.partition(" => ")
        first, _, rest = line.partition(" ")
        if arrow and self.asked:
            self.ask(self.text(asked.rstrip()), 1)
            self.answer(answer)
        elif first.startswith("<") and self.asked:
            self.ask(self.text(rest), int(first[1:] or "1"))
        elif first == ">":
            self.asked.lines.append(rest)
        elif first in STOPS:
            self.end_run()
            getattr(self, f"take_{first}")(rest)
        elif self.asked:
            self.note(first, rest)

    def text(self, text):
        return expand(text, self.names)

    def ask(self, line, times):
        self.asked.input.append((times, line.encode().decode("latin-1") + "\n"))
        self.asked.count += times

    def answer(self, answer):
        number = self.asked.count
        if self.asked.words == ["replay"]:
            if answer == "bad line":
                answer, self.asked.status = f"bad line {number}", "BadLine"
            else:
                answer = f"{number} {answer}"
        self.asked.lines.append(answer)

    def note(self, first, rest):
        asked = self.asked
        if first == "ends":
            asked.status = self.text(rest)
        elif first == "text":
            count, asked.digest = self.text(rest).split(" ")
        elif first == "has":
            asked.has.append(tuple(rest.split(" ", 1)))
        elif first == "pieces":
            asked.pieces = [(int(size), int(times)) for times, size in
                            (word.split("x") if "x" in word else ("1", word) for word in self.text(rest).split(" ")
                             if word)]
        elif first in ("fail", "fuse"):
            asked.needs.append(f"{first} {self.text(rest)}")
        elif first == "output":
            asked.takes_output = True
        elif first == "unended":
            asked.unended = True

    # ---- disks and names

    def take_run(self, rest):
        self.asked = Asked([word for word in self.text(rest).split(" ") if word])

    def take_let(self, rest):
        name, _, value = rest.partition(" = ")
        self.names[self.text(name)] = self.text(value)

    def set_disk(self, disk, content):
        self.files[FILES[disk]] = content
        self.lost.discard(disk)

    def take_notes(self, rest, disk="notes"):
        self.set_disk(disk, bytes.fromhex(self.text(rest)[2:]))

    def take_leaves(self, rest):
        self.take_notes(rest, "leaves")

    def take_cut(self, rest):
        disk, size = self.text(rest).split(" ")
        if disk not in self.lost:
            self.set_disk(disk, self.files.get(FILES[disk], b"")[: int(size)])

    def take_digest(self, rest):
        self.toy = self.text(rest).strip() == "toy"

    def take_folder(self, _):
        pass

    # ---- runs

    def end_run(self):
        asked, self.asked = self.asked, None
        if not asked:
            return
        form = asked.words[0] if asked.words else ""
        needs = asked.needs + (["the digest of few values"] if self.toy and form in OPENING else [])
        if self.lost and form in OVER_FILES:
            needs.append("what an earlier run left")
        if asked.takes_output:
            asked.input = [(1, self.output.decode("latin-1"))]
        if asked.unended and asked.input:
            times, text = asked.input.pop()
            asked.input += [(times - 1, text)] * (times > 1) + [(1, text[:-1])]
        vector = {"words": asked.words, "input": asked.input, "pieces": asked.pieces}
        if needs:
            self.unplayed(asked, vector, needs)
        else:
            self.played(asked, vector)

    def unplayed(self, asked, vector, needs):
        """A run that no program over files can be given: what is expected stays as the case has it."""
        vector |= {"needs": needs, "expected": [self.shown(line) for line in asked.lines],
                   "status": STATUSES[asked.status]}
        self.vectors.append(vector)
        self.lost = {"notes", "leaves"}
        for line in asked.lines:
            for name in HOLE.findall(line):
                if name not in self.names:
                    self.names[name] = None

    def shown(self, line):
        try:
            return HOLE.sub("..", line) if "{?" in line else self.text(line)
        except Unknown:
            return ".."

    def played(self, asked, vector):
        vector["before"] = dict(self.files)
        content = "".join(text * times for times, text in asked.input).encode("latin-1")
        did = self.program.run(self.folder, Step(asked.words, content, self.files))
        self.output, self.files = did.text, dict(did.files)
        if did.status != STATUSES[asked.status]:
            raise Wrong(f"status {did.status}, and {asked.status} is expected")
        if asked.digest and hashlib.sha256(did.text).hexdigest() != asked.digest:
            raise Wrong("the text hasn't the digest that is expected")
        if not asked.digest:
            self.match_lines(asked.lines, did.text.decode("latin-1"))
        for disk, pattern in asked.has:
            self.match_disk(self.files.get(FILES[disk], b""), pattern)
        self.vectors.append(vector | {"text": did.text, "status": did.status, "after": did.files})

    def match_lines(self, patterns, text):
        lines = text.split("\n")[:-1] if text.endswith("\n") else text.split("\n")
        lines = [] if not text else lines
        if patterns[:1] == [".."]:
            patterns = patterns[1:]
            lines = lines[len(lines) - len(patterns) :] if patterns else []
        if len(lines) != len(patterns):
            raise Wrong(f"{len(lines)} lines, and {len(patterns)} are expected")
        for line, pattern in zip(lines, patterns):
            self.match(line, pattern)

    def match_disk(self, content, pattern):
        pattern = pattern.strip()
        if re.fullmatch(r"\d+", self.text(HOLE.sub("", pattern))):
            if len(content) != int(self.text(pattern)):
                raise Wrong(f"a disk has {len(content)} bytes, and not {pattern}")
        else:
            self.match("0x" + content.hex(), pattern)

    def match(self, line, pattern):
        """Whether a line is as expected; what stands at a name that isn't known yet is its value from here on."""
        parts, new, end = [], [], 0
        for hole in HOLE.finditer(pattern):
            name = hole[1]
            parts.append(re.escape(self.text(pattern[end : hole.start()])))
            known = self.names.get(name)
            if known is not None:
                parts.append(re.escape(known))
            elif name in new:
                parts.append(f"(?P=n{new.index(name)})")
            else:
                parts.append(f"(?P<n{len(new)}>.*?)")
                new.append(name)
            end = hole.end()
        parts.append(re.escape(self.text(pattern[end:])))
        found = re.fullmatch("".join(parts), line)
        if not found:
            raise Wrong(f"{line[:200]!r} is written, and {pattern[:200]!r} is expected")
        self.names |= {name: found[f"n{place}"] for place, name in enumerate(new)}


def read(file):
    with open(place_of(file), encoding="utf-8", newline="") as text:
        return text.read()


def vectors_of(file, program, folder):
    """The cases of a file, each with the vectors of its runs, and what isn't as the case says."""
    head, listed = lines_of([read(NAMES), read(file)])
    begun = Player(program, folder, {})
    for line in head:
        begun.take(line)
    for case in listed:
        title, tables, body = tables_of(case)
        for row in combinations(tables):
            player = Player(program, folder, dict(begun.names))
            for name, value in row:
                player.names[name] = expand(value.strip(), player.names) if "{" in value else value.strip()
            words = ", ".join(f"{name} {value.strip()[:40]}" for name, value in row)
            try:
                for line in body:
                    player.take(line)
                player.end_run()
            except (Wrong, Unknown) as wrong:
                player.vectors.append({"wrong": str(wrong)})
            yield f"{title}{': ' * bool(words)}{words}", player.vectors


def files():
    return cases.files()
