"""Files of antt, read without a compiler in the layout of `rt fmt`: what they import, and what they declare.

An item begins where no bracket is open, at the indentation of the file, or of the body of a `module` that it stands
in; what is indented further goes on with it. A declaration is a signature, perhaps a line `unfolding ..`, and its
clauses; a `where` below a clause, with all that is declared in it, is part of that clause.
"""
import collections
import re

# What ends a name; a quoted text or a comment; a comment over many lines; a name that doesn't hang by a dot on
# what stands before it, as a field does, and what another module has.
APART = r'\s(){}.;,@"«»'
SILENT = re.compile(rf'"(?:\\.|[^"\\])*"|(?<![^{APART}])--.*')
BLOCK = re.compile(r"\{-.*?-\}", re.S)
NAME = re.compile(rf"(?<!\S\.)(?<![^{APART}])[^{APART}]+")
# An item's marks and its first word behind them; what opens or closes, or parts a name from its type or its term.
HEAD = re.compile(r" *((?:(?:pattern|axiom|unfoldable|abbrev|pub) )*)(\S+)")
PARTING = re.compile(r"[(){}\[\]]|(?<!\S)[:=](?!\S)")
TYPE = re.compile(r"(?:→|(?<!\S):)\s+Type\s+(?:\w+|\([^()]*\))$")
USE = re.compile(r" *(?:unfoldable )?(pub )?use ([^\s{]+?)(?:\.\{(.*)\}| as (\S+))?$", re.S)
# In the braces of a `use` line, a group of names behind the module that has them, or a name; and a line with groups.
GROUP = re.compile(r"\s*([^\s,{}]+\.)\{([^{}]*)\}|([^,{}]+)")
GROUPED = re.compile(r"^( *(?:unfoldable )?(?:pub )?use [^\s{]+\.)\{([^{}]*\{.*)\}$", re.M)
# A line with the names of one module of this repository, and how long one with those of several may be.
ALONE = re.compile(r"use (Rattle\.(?!std\.)\w+\.\w+)\.(\S+\.\{[^{}]*\})$")
WIDEST = 240
# What an item may begin with that is neither a signature nor a clause; the last two have items of their own.
OTHERS = ("use", "mod", "open", "infix", "infixl", "infixr", "ruleset", "record", "data", "unfolding", "deriving")
AROUND, ENDS = ("module", "mutual"), ("where", "mutual")
PLACE = "◌"

# An item: its marks, its first word, and its lines without comments, each by its number.
Item = collections.namedtuple("Item", "marks word lines")
# A declaration with a type: its name, its marks, its line, its type, and its clauses as items.
Declaration = collections.namedtuple("Declaration", "name marks line type clauses")
# What a `use` line brings: as it is written there, and the name that it has in the file.
Import = collections.namedtuple("Import", "written name line passed")


def code_lines(text):
    """The lines of a text without its comments and quoted texts; each sign stays in its column."""
    if "{-" in text:
        text = BLOCK.sub(lambda found: re.sub(r"[^\n]", " ", found[0]), text)
    for line in text.split("\n"):
        if '"' in line or "--" in line:
            line = SILENT.sub(lambda found: "" if found[0][0] == "-" else '"' + "." * (len(found[0]) - 2) + '"', line)
        yield line.rstrip()


def item_of(lines):
    found = HEAD.match(lines[0][1])
    return Item(found[1].split(), found[2], lines)


def items_of(text):
    """The items of a file, those of modules among them."""
    lines, levels, depth = [], [0], 0
    for number, line in enumerate(code_lines(text), 1):
        bare = line.lstrip()
        if not bare:
            continue
        if not depth:
            column = len(line) - len(bare)
            if lines and column > levels[-1] and is_around(lines):
                levels.append(column)
            while column < levels[-1]:
                levels.pop()
            if column == levels[-1] and lines:
                yield item_of(lines)
                lines = []
        lines.append((number, line))
        depth += sum(map(line.count, "({[")) - sum(map(line.count, ")}]"))
    if lines:
        yield item_of(lines)


def is_around(lines):
    """Whether lines are the head of a module or the like, whose items are below it."""
    return lines[-1][1].endswith(ENDS) and item_of(lines).word in AROUND


def joined(item):
    return "\n".join(line for _, line in item.lines)


def parting(text):
    """The place of the first `:` or `=` of an item that stands in no bracket, or None."""
    depth = 0
    for found in PARTING.finditer(text):
        if found[0] in ":=" and not depth:
            return found.start()
        depth += (found[0] in "({[") - (found[0] in ")}]")
    return None


def declarations_of(items):
    """The declarations with a type, of the file and of its modules."""
    found = []
    for item in items:
        if item.word in OTHERS + AROUND:
            continue
        text = joined(item)
        place = parting(text)
        if place is not None and text[place] == ":":
            found.append(Declaration(item.word, item.marks, item.lines[0][0], text[place:], []))
        elif place is not None and found:
            found[-1].clauses.append(item)
    return found


def is_lemma(it):
    """Whether a declaration is proved: it has clauses, isn't marked as a definition, and its type ends in no Type."""
    return bool(it.clauses) and not {"abbrev", "unfoldable"} & {*it.marks} and not TYPE.search(it.type)


def proof_lines(declaration):
    return sum(len(clause.lines) for clause in declaration.clauses)


def is_one_line(declaration):
    """Whether there is one clause, and what stands behind its `=` is on one line, beside it or below it."""
    text = joined(declaration.clauses[0])
    return len(declaration.clauses) == 1 and "\n" not in text[parting(text) + 1 :].strip()


def imports_of(item):
    """What a `use` line brings, each name or the module; a glob brings nothing that is named."""
    passed, path, names, other = USE.match(joined(item)).groups()
    if names is None:
        last = path.rpartition(".")[2]
        return [Import(path, other or last, item.lines[0][0], passed)] if last != "*" else []
    groups = ((path, among.split(",")) for path, among in groups_in(names))
    each = (f"{path}{' '.join(it.split())}" for path, among in groups for it in among if it.strip())
    return [Import(it, re.split(r"[ .]", it)[-1].strip("«»"), item.lines[0][0], passed) for it in each]


def groups_in(names):
    """The groups of what stands in the braces of a `use` line, with the paths to them; a name by itself has none."""
    return [(path, among or name) for path, among, name in GROUP.findall(names)]


def in_groups(names):
    """What stands in the braces for names that are written with their paths: those of one module in one group."""
    found = {}
    for path, dot, name in (it.rpartition(".") for it in names):
        found.setdefault(path + dot, []).append(name)
    return ", ".join(f"{path}{{{', '.join(each)}}}" if path else ", ".join(each) for path, each in found.items())


def ungrouped(text):
    """The text with a `use` line for each module, where one line has the names of several."""
    return GROUPED.sub(lambda it: "\n".join(f"{it[1]}{path}{{{names.strip()}}}" for path, names in groups_in(it[2])
                                            if names.strip()), text)


def grouped(text):
    """The text with what it brings of one crate's modules in one `use` line, or in as many as are no longer than one
    may be.
    """
    kept, begun = [], {}
    for line in ungrouped(text).split("\n"):
        found = ALONE.match(line)
        root, group = found.groups() if found else (line, "")
        groups = begun.get(root) if found else None
        if groups and len(f"use {root}.{{{', '.join([*groups, group])}}}") <= WIDEST:
            groups.append(group)
            continue
        kept.append((root, [group] if found else []))
        begun[root] = kept[-1][1]
    return "\n".join(f"use {root}.{', '.join(groups) if len(groups) == 1 else '{' + ', '.join(groups) + '}'}"
                     if groups else root for root, groups in kept)


def standing(items):
    """The names that stand outside `use` lines or begin their paths, and the parts of operators."""
    text = "\n".join(joined(it) for it in items if it.word != "use")
    found = {*NAME.findall(text)}
    found |= {part for name in found if PLACE in name for part in name.split(PLACE)}
    return found | {USE.match(joined(it))[2].partition(".")[0] for it in items if it.word == "use"}


def unused(items):
    """The imports that nothing uses: their name doesn't stand, nor do all parts of an operator."""
    there = standing(items)
    for it in (it for item in items if item.word == "use" for it in imports_of(item)):
        parts = {*filter(None, it.name.split(PLACE))}
        if not it.passed and it.name not in there and not (PLACE in it.name and parts <= there):
            yield it


def without_unused(text):
    """The text without the imports that nothing uses, and without the `use` lines that then bring nothing."""
    items, lines = [*items_of(text)], text.split("\n")
    gone = {*unused(items)}
    for item in reversed([it for it in items if it.word == "use"]):
        brought = imports_of(item)
        left = [it.written for it in brought if it not in gone]
        if len(left) == len(brought):
            continue
        first, last = item.lines[0][0] - 1, item.lines[-1][0]
        code = joined(item)
        behind = lines[last - 1][len(item.lines[-1][1]) :]
        lines[first:last] = [code[: code.index("{") + 1] + in_groups(left) + "}" + behind] if left else []
    return re.sub(r"\n{3,}", "\n\n", "\n".join(lines)).lstrip("\n") if gone else text
