"""The terms of proofs in files of antt, and the call of `grind` that may stand in the place of one: for bench/shorter.
It reads the layout of `rt fmt`, as antt.py does.
"""
import collections
import itertools
import re

import antt

OPENING, CLOSING = "({[", ")}]"
CHAR = rf"[^{antt.APART}\[\]]"
NAME = re.compile(rf"(?<![^\s(){{}};,\[\]]){CHAR}+(?:\.{CHAR}+)*")
WORD = re.compile(f"{CHAR}+")
WHERE = re.compile(r"\n +where *(?=\n)")
LAMBDA = re.compile(r"λ ([^.]*?)\. ")
LET = re.compile(rf"(?<![^\s(\[{{])let +({CHAR}+)")
ARM = re.compile(r"\| ([^|]*?) ↦")
TOKEN = re.compile(r"(?<![^\s(\[{])let(?=\s)|↦|(?<=\s)in(?=\s)|[({]")
LET_OR_IN = re.compile(r"(?<![^\s(\[{])let(?=\s)|(?<=\s)in(?=\s)")
EQUALS, ARROW, COMMA, SEMICOLON = (re.compile(it) for it in (r"(?<=\s)=(?=\s)", "→", ",", ";"))
PATTERN, SPACE, TO_BRACKET = re.compile(r"[^\s(){}]+"), re.compile(r"\s*"), re.compile(r"[^\s(){};,\[\]]*")
NOWHERE = re.compile("(?!)")
BAR, ENDING = re.compile(r"(?<=\s)\|(?=\s)"), re.compile(r"(?<=\s)\|(?=\s)|[,;]")
# What is no argument's name, and what ends an application.
KEPT = {*"let in elim as λ where open use if then else with tt true false refl zero suc inl inr arith".split()}
OPERATORS = {*"in ↦ = ∙ ∷ ++ ≡ → λ : + - * / % < ≤ == && || × ⊎ let elim where if then else as ^ |".split()}

# A lemma: what its signature says, its lines from nought, and where it and its clauses are in the text.
Lemma = collections.namedtuple("Lemma", "name marks type first last start end clauses")
# A term that a call may take the place of.
Term = collections.namedtuple("Term", "kind start end")


def masked(text):
    """The text without its comments and quoted texts, with each sign in its place."""
    return "\n".join(code.ljust(len(line)) for line, code in zip(text.split("\n"), antt.code_lines(text)))


def lemmas_of(text):
    return [*lemmas_in(text.split("\n"))]


def lemmas_in(lines, indent=0, start=0):
    """The lemmas of lines that are so far indented, where the first of them begins at a place of the text."""
    starts = [start, *(start + count for count in itertools.accumulate(len(line) + 1 for line in lines))]
    for it in antt.declarations_of(antt.items_of("\n".join(line[indent:] for line in lines))):
        if antt.is_lemma(it):
            ends = [(clause.lines[0][0] - 1, clause.lines[-1][0] - 1) for clause in it.clauses]
            clauses = [(starts[first], starts[last] + len(lines[last])) for first, last in ends]
            first = it.line - 1
            yield Lemma(it.name, it.marks, it.type, first, ends[-1][1], starts[first], clauses[-1][1], clauses)


def locals_of(code, start, end):
    """The lemmas that a `where` declares, by the lines below it."""
    lines = code[start:end].split("\n")
    indents = [len(line) - len(line.lstrip()) for line in lines if line.strip()]
    return [*lemmas_in(lines, min(indents, default=0), start)]


def next_at(code, at, end, sought):
    """The first place where no bracket is open and what is sought stands, or where the bracket around it closes."""
    depth = 0
    while at < end:
        if code[at] in CLOSING:
            if not depth:
                return at
            depth -= 1
        elif not depth and sought.match(code, at):
            return at
        depth += code[at] in OPENING
        at += 1
    return end


def behind_bracket(code, at, end):
    """The place behind the bracket that opens at a place."""
    return next_at(code, at + 1, end, NOWHERE) + 1


def proofs_in(code, clause):
    """The terms of a clause that have two lines or more, and what stands in them behind a `λ`."""
    for kind, start, end in terms_of(code, *clause):
        end = start + len(code[start:end].rstrip())
        start = end - len(code[start:end].lstrip())
        while "\n" in code[start:end]:
            yield Term(kind, start, end)
            found = LAMBDA.match(code, start, end)
            start = found.end() if found else end


def terms_of(code, start, end):
    """The terms of a clause, those of its `where` among them."""
    place = antt.parting(code[start:end])
    if place is None:
        return
    begin = start + place + 1
    below = WHERE.search(code, begin, end)
    stop = below.start() if below else end
    if below:
        yield "where", begin, end
        for lemma in locals_of(code, below.end() + 1, end):
            for clause in lemma.clauses:
                yield from terms_of(code, *clause)
    yield "side", begin, stop
    for token in TOKEN.finditer(code, begin, stop):
        yield from BEHIND[token[0]](code, token.end(), stop)


def own_in(code, at, end):
    """The place of the first `in` that is of no `let` behind this place, or where what is around it ends."""
    lets = 0
    while True:
        at = next_at(code, at, end, LET_OR_IN)
        if at >= end or code[at] in CLOSING or code.startswith("in", at) and not lets:
            return at
        lets += 1 if code.startswith("let", at) else -1
        at += 2


def let_terms(code, at, end):
    begin = next_at(code, at, end, EQUALS) + 1
    at = own_in(code, begin, end)
    if code.startswith("in", at) and at < end:
        yield "let", begin, at


def arm_terms(code, at, end):
    yield "arm", at, next_at(code, at, end, BAR)


def body_terms(code, at, end):
    yield "body", at, own_in(code, at, next_at(code, at, end, ENDING))


def field_terms(code, at, end):
    while True:
        begin = next_at(code, at, end, EQUALS) + 1
        if begin > end or code[begin - 1] != "=":
            return
        at = next_at(code, begin, end, SEMICOLON)
        yield "field", begin, at
        if not code.startswith(";", at):
            return
        at += 1


def part_terms(code, at, end):
    while True:
        begin, at = at, next_at(code, at, end, COMMA)
        yield "part", begin, at
        if not code.startswith(",", at):
            return
        at += 1


BEHIND = {"let": let_terms, "↦": arm_terms, "in": body_terms, "{": field_terms, "(": part_terms}


def has_lemmas(path):
    """Whether what is imported from this module may be a lemma; std's most used names are mostly none."""
    return ".proofs." in path and not path.endswith(".proofs.Common")


def passed_on(texts):
    """What lemma files pass on by `pub use` and is no lemma, by the names of these files."""
    found = {}
    for file, text in texts.items():
        items = antt.items_of(antt.ungrouped(text)) if "pub use " in text else []
        items = [item for item in items if item.word == "use"]
        words = [item for item in items if not has_lemmas(antt.USE.match(antt.joined(item))[2])]
        found[file] = {it.name for item in words for it in antt.imports_of(item) if it.passed}
    return found


def known_in(text, words=None):
    """The names of lemmas that a file declares, or imports from proofs, but for words that the file there passes on."""
    found = {it.name for it in lemmas_of(text)}
    for item in antt.items_of(antt.ungrouped(text)):
        path = antt.USE.match(antt.joined(item))[2] if item.word == "use" else ""
        if has_lemmas(path):
            names = {it.name for it in antt.imports_of(item)} - (words or {}).get(path.rpartition(".")[2], set())
            found |= {name for name in names if antt.PLACE not in name and not name[0].isupper()}
    return found


def bound_in(code):
    """The names that a term binds."""
    groups = [re.sub(r":[^)]*\)", " ", it) for it in LAMBDA.findall(code)] + LET.findall(code) + ARM.findall(code)
    return {name for group in groups for name in WORD.findall(group)} - KEPT


def application(code, at, end):
    """The application that begins with the name at a place."""
    begin = at
    while True:
        at = last = TO_BRACKET.match(code, at, end).end()
        at = SPACE.match(code, at, end).end()
        word = WORD.match(code, at, end)
        if code.startswith("[]", at) and at < end:
            at += 2
        elif code[at:end][:1] == "(":
            at = behind_bracket(code, at, end)
        elif not word or word[0] in OPERATORS:
            return " ".join(code[begin:last].split())


def call_of(lemma, code, term, known, steps):
    """The call of `grind` with the lemmas that a term cites, and with its calls of the lemma that it proves."""
    bound, own, cited = bound_in(code[term.start : term.end]), [], []
    for found in NAME.finditer(code, term.start, term.end):
        name = found[0].partition(".")[0]
        if name == lemma.name and term.kind != "whole":
            call = application(code, found.start(), term.end)
            if not {*WORD.findall(call)} & (bound | {"_"}):
                own.append(call)
        elif name in known - bound and name != lemma.name:
            cited.append(name)
    return f"grind ({', '.join(['arith', 'common_steps', *dict.fromkeys(own + cited)])}) steps {steps}"


def patterns_of(code, start, end):
    """The patterns of a clause."""
    at, found = WORD.search(code, start, end).end(), []
    end = start + antt.parting(code[start:end])
    while code[at:end].strip():
        at += len(code[at:end]) - len(code[at:end].lstrip())
        stop = behind_bracket(code, at, end) if code[at] in OPENING else PATTERN.match(code, at, end).end()
        found.append(code[at:stop])
        at = stop
    return found


def binders_of(kind):
    """The names of the explicit arguments by a type, and None for each that has none there."""
    at = 1
    while at < len(kind):
        end = next_at(kind, at, len(kind), ARROW)
        at += len(kind[at:end]) - len(kind[at:end].lstrip())
        groups = []
        while at < end and kind[at] in "({":
            stop = behind_bracket(kind, at, end)
            groups.append(kind[at:stop])
            at = stop + len(kind[stop:end]) - len(kind[stop:end].lstrip())
        if groups and all(" : " in it for it in groups):
            yield from (name for it in groups if it[0] == "(" for name in it[1:].partition(" : ")[0].split())
        else:
            yield None
        at = end + 1


def arguments_of(lemma, code, others):
    """Other names for a lemma's arguments, by its clauses or its type; None where the clauses don't have as many."""
    rows = [patterns_of(code, *clause) for clause in lemma.clauses if antt.parting(code[slice(*clause)]) is not None]
    if len({*map(len, rows)}) != 1:
        return None
    names, binders = [], binders_of(lemma.type)
    for column in zip(*rows):
        if column[0][0] == "{":
            if len({*column}) > 1:
                return None
            names.append(column[0])
            continue
        fitting = [it for it in [*column, next(binders, None)] if it and re.fullmatch(f"[a-z]{CHAR}*", it)]
        fitting = [it for it in fitting if it not in KEPT | others and it not in names]
        names.append(fitting[0] if fitting else "_")
    return names


def candidates(lemma, code, known, steps):
    """What may stand in the place of a lemma's terms: each term, and a call, of all clauses behind their arguments."""
    if len(lemma.clauses) > 1:
        term = Term("whole", lemma.clauses[0][0], lemma.end)
        call = call_of(lemma, code, term, known, steps)
        names = arguments_of(lemma, code, {*WORD.findall(call)})
        calls = [it[0] for it in NAME.finditer(code, term.start, lemma.end)].count(lemma.name)
        if names is not None and calls == len(lemma.clauses):
            indent = " " * (len(code[term.start : lemma.end]) - len(code[term.start : lemma.end].lstrip()))
            yield term, f"{indent}{' '.join([lemma.name, *names])} = {call}"
    inside = {it.name for clause in lemma.clauses for it in inner(code, *clause)}
    terms = {}
    for term in (term for clause in lemma.clauses for term in proofs_in(code, clause)):
        terms.setdefault(term[1:], term)
    for term in terms.values():
        yield term, call_of(lemma, code, term, known if term.kind == "where" else known | inside, steps)


def inner(code, start, end):
    """The lemmas that a clause's own `where` declares."""
    below = WHERE.search(code, start, end)
    return locals_of(code, below.end() + 1, end) if below else []
