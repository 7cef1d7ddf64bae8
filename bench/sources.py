"""The functions of a crate's code, with their contracts and bodies, found by reading, without a compiler.

Comments, texts and characters are blanked first, so that a place in the code is one in the file.
"""
import os
import re

# What is no code: a comment, a text, a character.
SILENT = re.compile(r"//[^\n]*|b?\"(?:\\.|[^\"\\])*\"|b?'(?:\\[^']+|[^'\\\n])'", re.S)
HEAD = re.compile(r"^(?:pub )?(impl|trait)\b([^{;]*)\{", re.M)
FUNCTION = re.compile(r"^ *(?:pub(?:\([a-z]+\))? )?fn (\w+)", re.M)
TYPE = re.compile(r"^(?:pub(?:\([a-z]+\))? )?(struct|enum) (\w+)", re.M)
USE = re.compile(r"^ *(pub(?:\([a-z]+\))? )?use ([^;]+);", re.M)
CLAUSE = re.compile(r"\b(?:(?:requires|ensures)\b\s*\w*|ghost \w+:)\s*$")
CLOSING = {"(": ")", "[": "]", "{": "}", "<": ">"}
# (an arrow closes nothing)
PAIRS = {begin: re.compile(rf"\{begin}|{'(?<![-=])' if begin == '<' else ''}\{end}") for begin, end in CLOSING.items()}


def end_of(text, at):
    """The place behind the bracket that closes the one at a place."""
    depth = 0
    for found in PAIRS[text[at]].finditer(text, at):
        depth += 1 if found[0] == text[at] else -1
        if not depth:
            return found.end()
    return len(text)


def begin_of(text, end):
    """The place of the bracket that the one in front of a place closes."""
    close = text[end - 1]
    open_ = next(it for it, other in CLOSING.items() if other == close)
    depth = 0
    for place in range(end - 1, -1, -1):
        depth += (text[place] == close) - (text[place] == open_)
        if not depth:
            return place
    return 0


def parts(text, mark=","):
    """The parts of a list, whose marks stand in no bracket."""
    found, depth, first = [], 0, 0
    for place, sign in enumerate(text):
        if sign in "([{<":
            depth += 1
        elif sign in ")]}" or sign == ">" and text[place - 1 : place] not in ("-", "="):
            depth -= 1
        elif sign == mark and not depth:
            found.append(text[first:place].strip())
            first = place + 1
    return [part for part in [*found, text[first:].strip()] if part]


def bounds_in(text):
    """The type parameters of a list in angle brackets, each with the names of its traits."""
    found = {}
    for part in parts(text):
        name, _, traits = part.partition(":")
        found[name.strip()] = re.findall(r"\b[A-Z]\w*", traits)
    return found


def behind_bounds(text):
    """The type parameters with which a text begins, and what stands behind them."""
    if not text.startswith("<"):
        return {}, text
    end = end_of(text, 0)
    return bounds_in(text[1 : end - 1]), text[end:]


class Function:
    """A function: where it stands, of what it is, and its parts."""

    def __init__(self, source, match, block):
        text = source.code
        self.source, self.name, self.at = source, match[1], match.start()
        self.owner, self.trait, outer = (block.owner, block.trait, block.bounds) if block else (None, None, {})
        self.block = block
        inner, _ = behind_bounds(text[match.end() :])
        at = text.index("(", end_of(text, match.end()) if inner else match.end())
        end = end_of(text, at)
        self.bounds = {**outer, **inner}
        self.parameters = [parameter for parameter in parts(text[at + 1 : end - 1])]
        # Of each clause its place in the code, and that of what stands in front of it.
        self.clauses, self.places, self.body, self.body_at = [], [], None, None
        self.gives = self.read(text, end)

    def read(self, text, at):
        """Reads the clauses and the body, and gives the text of the type in front of them."""
        first, gives = at, None
        while at < len(text):
            if text[at] in "[(":
                at = end_of(text, at)
            elif text[at] == "{":
                end = end_of(text, at)
                clause = CLAUSE.search(text[first:at])
                gives = text[first:at] if gives is None else gives
                if not clause:
                    self.body, self.body_at = text[at:end], at
                    break
                self.clauses.append(text[at:end])
                self.places.append((first, at, end))
                at = first = end
            elif text[at] == ";":
                gives = text[first:at] if gives is None else gives
                break
            else:
                at += 1
        return re.split(r"\b(?:requires|ensures|where)\b", gives or "")[0].replace("->", "", 1).strip()

    @property
    def title(self):
        return f"{self.owner}::{self.name}" if self.owner else self.name

    @property
    def count(self):
        """How many arguments stand in the brackets of a call by a dot."""
        return len([it for it in self.parameters if not re.fullmatch(r"&?\s*(?:mut )?self", it)])

    @property
    def place(self):
        return f"{self.source.path}:{self.source.code.count(chr(10), 0, self.at) + 1}"


class Block:
    """An `impl` or a `trait`."""

    def __init__(self, source, match):
        self.kind, self.begin, self.end = match[1], match.start(), end_of(source.code, match.end() - 1)
        self.bounds, head = behind_bounds(match[2].strip())
        plain = head
        while re.search(r"<[^<>]*>", plain):
            plain = re.sub(r"<[^<>]*>", "", plain)
        names = re.findall(r"\w+(?:::\w+)*", plain.partition(" where ")[0].partition(":")[0] if self.kind == "trait"
                           else plain.partition(" where ")[0])
        names = [name.split("::")[-1] for name in names if name not in ("for", "mut")]
        self.trait = names[0] if len(names) > 1 or self.kind == "trait" else None
        self.owner = names[-1] if names else None


class Source:
    """A file: its code, what it uses, and what it declares."""

    def __init__(self, crate, path, text):
        self.crate, self.path, self.text = crate, path, text
        self.module = os.path.splitext(os.path.basename(path))[0]
        self.code = SILENT.sub(lambda it: re.sub(r"[^\n]", " ", it[0]), text)
        self.uses, self.hands_on = {}, {}
        for public, said in USE.findall(self.code):
            for path_, name in self.named(re.sub(r"\s+", "", said.replace(" as ", "@"))):
                self.uses[name] = path_
                if public:
                    self.hands_on[name] = path_
        blocks = [Block(self, match) for match in HEAD.finditer(self.code)]
        self.functions = []
        for match in FUNCTION.finditer(self.code):
            block = next((it for it in blocks if it.begin < match.start() < it.end), None)
            self.functions.append(Function(self, match, block))
        self.blocks = blocks
        self.types = dict(self.declared())

    def named(self, said, before=()):
        """The paths of a `use`, each with its name here."""
        for part in parts(said):
            head, brace, rest = part.partition("{")
            path = [*before, *(it for it in head.split("::") if it)]
            if brace:
                yield from self.named(rest[:-1], path)
                continue
            *front, last = path
            whole, _, here = last.partition("@")
            if whole == "self":
                whole = front.pop()
            yield [*front, whole], here or whole

    def declared(self):
        """The structs and enums, each with the texts of the types of its fields, by `field` or `Variant.field`."""
        for match in TYPE.finditer(self.code):
            bounds, rest = behind_bounds(self.code[match.end() :])
            at = match.end() + len(self.code[match.end() :]) - len(rest)
            begin = re.compile(r"[{(;]").search(self.code, at).start()
            fields = {}
            if self.code[begin] != ";":
                inside = self.code[begin + 1 : end_of(self.code, begin) - 1]
                inside = re.sub(r"#\[[^\]]*\]", "", inside)
                fields = dict(self.fields(inside, match[1] == "enum", self.code[begin] == "("))
            yield match[2], (fields, bounds)

    def fields(self, inside, variants, numbered):
        for number, part in enumerate(parts(inside)):
            part = re.sub(r"^pub(?:\([a-z]+\))? ", "", part)
            if variants:
                name = re.match(r"\w+", part)
                rest = part[name.end() :].strip() if name else ""
                if rest[:1] in ("(", "{"):
                    for field, said in self.fields(rest[1:-1], False, rest[0] == "("):
                        yield f"{name[0]}.{field}", said
            elif numbered:
                yield str(number), part
            else:
                name, _, said = part.partition(":")
                yield name.strip(), said.strip()
