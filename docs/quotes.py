"""Holds what pages quote of the sources to the sources. docs/check tells what it finds.

A fence with the word `rattle` behind it is a quote. What stands between blank lines of it has to stand so, line by
line, in one file of src, specs or proofs: in one of those that the paragraph above the fence names, where it names
any. Of the indentation only the first line's may be another. `..` marks what is left out: alone on a line it stands
for lines of the same item, and in a line for a part of it; where a quote ends before its item does, it ends with one.
Any other fence is commands, input or answers, and has no line that looks like Rattle.
"""
import re
from collections import namedtuple

QUOTES = "rattle"
# What a line of Rattle begins with, or has anywhere. (What a shell is given stands behind a `$`.)
CODE = re.compile(
    r"\s*(?:(?:abbrev |unfoldable )?pub[ (]|(?:requires|ensures)\b.*\{|(?:ghost |unsafe )?(?:fn|use|impl|trait) \w"
    r"|let (?:mut )?\w+(?:: [^=]*)? = )|(?!\$ ).*[≡≢→∷λ⊎ℕ]"
)
# The name that a line declares.
DECLARED = re.compile(
    r"\s*(?!(?:ensures|requires|ghost|use|let|if|match)\b)(?:abbrev |unfoldable )?(?:pub(?:\(crate\))? )?"
    r"(?:(?:record|data|fn|struct|enum|trait|const) )?(\w+)"
)

# A fence: the number of its first line, the word behind it, its lines, and the paragraph above it.
Fence = namedtuple("Fence", "number word lines above")
# A run of lines of a page, with the number of the first one; and whether something is left out in front of it.
Run = namedtuple("Run", "number lines behind")


def fences(text):
    """The fences of a page, without their own indentation."""
    lines, at = text.split("\n"), 0
    while at < len(lines):
        opened = re.match(r"( *)(```+|~~~+)[ ]*(\S*)", lines[at])
        if opened:
            first = at + 1
            at = next((n for n in range(first, len(lines)) if lines[n].strip() == opened[2]), len(lines))
            inside = [line.removeprefix(opened[1]).rstrip() for line in lines[first:at]]
            yield Fence(first + 1, opened[3], inside, above(lines[: first - 1]))
        at += 1


def above(lines):
    """The paragraph in which the lines end."""
    kept = "\n".join(lines).rstrip("\n")
    return kept.rpartition("\n\n")[2]


def quotes(fence):
    """The quotes of a fence: each a list of runs, and whether it ends with what is left out."""
    runs, behind = [], False
    for number, line in enumerate([*fence.lines, ""], fence.number):
        if line.strip() == "..":
            behind = True
        elif line:
            if behind or not runs:
                runs.append(Run(number, [], behind))
            runs[-1].lines.append(line)
            behind = False
        else:
            if runs:
                yield runs, behind
            runs, behind = [], False


def indent(line):
    return len(line) - len(line.lstrip())


def is_so(said, stands, shift):
    """Whether a line of a page is this one of a source, further in by so much; `..` stands for any part of it."""
    if indent(stands) - indent(said) != shift:
        return False
    if said.strip() == stands.strip():
        return True
    parts = [re.escape(part.strip()) for part in said.strip().split("..")]
    return len(parts) > 1 and bool(re.fullmatch(r".*".join(parts), stands.strip()))


def belongs(line, first):
    """Whether a line that stands behind another, or a run of them, is of the item that begins with that."""
    if not line.strip() or indent(line) != indent(first):
        return bool(line.strip()) and indent(line) > indent(first)
    declared = DECLARED.match(first)
    return line.strip()[0] in "{})]" or bool(declared) and re.match(r"\s*(\w*)", line)[1] == declared[1]


class Sources:
    """The lines of the sources, and where each stands."""

    def __init__(self, texts):
        self.lines = {path: text.split("\n") for path, text in texts.items()}
        self.places = {}
        for path, lines in self.lines.items():
            for place, line in enumerate(lines):
                self.places.setdefault(line.strip(), []).append((path, place))

    def named(self, paragraph):
        """The sources that a paragraph names, and the names among them that are of none."""
        paths, unknown = set(), []
        for name in re.findall(r"`([\w./-]+\.(?:rt|antt))`", paragraph):
            found = {path for path in self.lines if f"/{path}".endswith(f"/{name}")}
            paths |= found
            unknown += [] if found else [name]
        return paths, unknown

    def begins(self, run):
        """Where the first line of a run may stand."""
        first = run.lines[0]
        if first.strip() in self.places:
            return self.places[first.strip()]
        if ".." in first:
            return [(path, place) for path, lines in self.lines.items() for place, line in enumerate(lines)
                    if is_so(first, line, indent(line) - indent(first))]
        return []

    def told_so(self, run, path, place):
        """How many lines of a run stand at a place."""
        lines = self.lines[path][place : place + len(run.lines)]
        shift = indent(lines[0]) - indent(run.lines[0]) if lines else 0
        wrong = (n for n, (said, stands) in enumerate(zip(run.lines, lines)) if not is_so(said, stands, shift))
        return next(wrong, len(lines))

    def furthest(self, runs, ended, path, place):
        """How far a quote stands that begins at a place: None where it does to its end; else the number of the page's
        line that doesn't, that line, and the place of what stands there."""
        lines, first = self.lines[path], self.lines[path][place]
        for run in runs:
            places = [place]
            if run is not runs[0]:
                behind = (n for n in range(place, len(lines)) if lines[n].strip() and not belongs(lines[n], first))
                places = range(place, next(behind, len(lines)))
            counts = {at: self.told_so(run, path, at) for at in places}
            best = max(counts, key=counts.get, default=None)
            if best is None or counts[best] < len(run.lines):
                told = counts[best] if best is not None else 0
                return run.number + told, run.lines[told], (best if best is not None else place) + told
            place = best + len(run.lines)
        last = runs[-1].number + len(runs[-1].lines)
        if not ended and place < len(lines) and belongs(lines[place], first):
            return last, "", place
        return None

    def miss(self, runs, ended, paths):
        """What is wrong with a quote: the number of the page's line, and what is to be said of it."""
        tried = {at: self.furthest(runs, ended, *at) for at in self.begins(runs[0])}
        whole = [path for (path, _), why in tried.items() if why is None]
        if whole and (not paths or paths & set(whole)):
            return None
        first = runs[0].lines[0].strip()
        if whole:
            return runs[0].number, f"quotes '{first}' of {' or '.join(sorted(paths))}, and it stands in {whole[0]}"
        near = {at: why for at, why in tried.items() if at[0] in paths} or tried
        if not near:
            return runs[0].number, f"quotes '{first}', which stands in no source{self.instead(first, paths)}"
        (path, _), (number, said, place) = max(near.items(), key=lambda it: it[1][0])
        stands = self.lines[path][place].strip() if place < len(self.lines[path]) else ""
        if not said:
            return number, f"ends a quote without '..', and {path}:{place + 1} goes on with '{stands}'"
        return number, f"quotes '{said.strip()}', and {path}:{place + 1} has '{stands}'"

    def instead(self, first, paths):
        """What the sources have of the name that a line declares, or of its clause."""
        begins = DECLARED.match(first) or re.match(r"(?:ensures|requires) \w+", first)
        alike = re.compile(rf"\s*{re.escape(begins[0])}\b") if begins else None
        for path in sorted(paths or self.lines) if begins else ():
            for place, line in enumerate(self.lines[path]):
                if alike.match(line):
                    return f"; {path}:{place + 1} has '{line.strip()}'"
        return ""


def quote_misses(pages, sources):
    """Quotes of the pages that don't stand so in the sources, and fences that look like quotes and aren't marked."""
    held = Sources(sources)
    for page, text in pages.items():
        for fence in fences(text):
            if fence.word != QUOTES:
                for number, line in enumerate(fence.lines, fence.number):
                    if CODE.match(line):
                        yield f"{page}:{number} looks like Rattle, and its fence has no '{QUOTES}' behind it"
                        break
                continue
            paths, unknown = held.named(fence.above)
            for name in unknown:
                yield f"{page}:{fence.number} is to stand in {name}, which isn't there"
            for runs, ended in quotes(fence):
                miss = held.miss(runs, ended, paths)
                if miss:
                    yield f"{page}:{miss[0]} {miss[1]}"


# What a source declares, in code and in definitions.
IN_CODE = re.compile(r"\b(?:fn|struct|enum|trait|const|mod|type) (\w+)")
IN_SPECS = re.compile(r"^ *(?:abbrev |unfoldable )?pub (?:(?:record|data|mod) )?([\w']+)", re.M)
# A list of code spans, with what stands behind it.
LISTED = re.compile(r"((?:`[\w:]+`(?:, (?:and )?| and )?)+)(?: (in|of) `(\w+)`)?")
# The columns of tables that name what is declared.
COLUMNS = {"code": ".rt", "definition": ".antt", "by the definition": ".antt"}


def tables(text):
    """The rows of a page's tables: the number of the line, and the cells by what stands at their heads."""
    heads = None
    for number, line in enumerate(text.split("\n"), 1):
        cells = [cell.strip() for cell in line.strip("| ").split(" | ")] if line.startswith("|") else None
        if heads and cells and not re.fullmatch(r"[|\s:-]+", line):
            yield number, dict(zip(heads, cells))
        heads = (heads or cells) if cells else None


def declared(sources):
    """What is declared, by file; a type of code is in definitions too."""
    types = re.compile(r"\b(?:struct|enum) (\w+)")
    code = {path: {*IN_CODE.findall(text)} for path, text in sources.items() if path.endswith(".rt")}
    specs = {path: {*IN_SPECS.findall(text)} for path, text in sources.items() if "/specs/" in path}
    specs |= {path: {*types.findall(text)} for path, text in sources.items() if path.endswith(".rt")}
    return {".rt": code, ".antt": specs}


def table_misses(pages, sources):
    """Names in the columns of code and of definitions that aren't declared: in any file; in those of the crate that
    stands behind `in`, in one with the record that stands behind `of`, or in the file of the same row."""
    there = declared(sources)
    crates = {path.split("/")[1] for path in sources}
    for page, text in pages.items():
        for number, row in tables(text):
            for head in row.keys() & COLUMNS:
                files = there[COLUMNS[head]]
                for names, word, place in named_in(row[head], row.get("file", "")):
                    known = {name for path, it in files.items() if is_in(path, it, word, place) for name in it}
                    for name in names:
                        if not {*name.split("::")} <= known | crates:
                            where = f"no file {word} {place}" if place else "no file"
                            yield f"{page}:{number} has {name} under '{head}', and {where} declares it"


def is_in(path, names, word, place):
    """Whether a file with these names is meant by what stands behind a list of names."""
    return not place or place == path or place in path.split("/") or (word == "of" and place in names)


def named_in(cell, beside):
    """The lists of names in a cell, each with `in` and a crate, `of` and a record, or neither; or with the file of the
    cell beside it."""
    file = re.search(r"`([\w./-]+\.(?:rt|antt))`", beside)
    for names, word, place in LISTED.findall(cell):
        yield re.findall(r"`([\w:]+)`", names), *(("in", file[1]) if file else (word, place))
