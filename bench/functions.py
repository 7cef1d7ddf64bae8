"""The functions of a crate's sources, in the layout of `rt fmt`: where they stand, which may call which, and their
paths as the check has them.
"""
import collections
import glob
import os
import re

HEAD = re.compile(r"^( *)(?:pub(?:\([a-z]+\))? )?(?:const )?(?:unsafe )?fn (\w+)")
OWNER = re.compile(r"^(?:impl|(?:pub(?:\([a-z]+\))? )?trait) (?:([\w:]+) for )?&?(\w+)")
# A function: its file, its lines, where its body begins, the type and the trait that it is a method of, its name.
Function = collections.namedtuple("Function", "file first body last owner name")


def text_of(path):
    with open(path, encoding="utf-8") as file:
        return file.read()


def functions_of(file, text):
    """The functions of a source file in the layout of `rt fmt`, by their indentation."""
    found, owner, head, above, body = [], None, None, None, None
    for number, line in enumerate(text.split("\n"), 1):
        if line[:1].strip() and line not in ("where", "{"):
            owner = owner_in(line)
        # The check names a function's first line, which may be an attribute.
        if line.lstrip().startswith("#[") and not above or not line:
            above = number if line else None
        match = HEAD.match(line)
        if match:
            head, body, above = (above or number, match[1], match[2]), None, None
        if not head:
            continue
        if re.match(head[1] + r"(\S.*)?\{(\})?$", line):
            body = body or number
        if body and (line == head[1] + "}" or line.endswith("{}") and number == body):
            found.append(Function(file, head[0], body, number, owner if head[1] else None, head[2]))
            head = None
    return found


def owner_in(line):
    """The type and the trait of an `impl`, or the trait that is declared, by the line that it begins with."""
    while re.search(r"<[^<>]*>", line):
        line = re.sub(r"<[^<>]*>", "", line)
    match = OWNER.match(line)
    return (match[2], (match[1] or "").rpartition("::")[2]) if match else None


def may_call(text, function):
    """Whether a function of this text may call the other one, by its name: a method behind a dot or its type."""
    name = re.escape(function.name)
    if not function.owner:
        return bool(re.search(rf"(?<![.\w]){name}\b", text))
    owners = {*function.owner, "Self"}
    before = {match[1] for match in re.finditer(rf"(\w+)\s*::\s*{name}\b", text)}
    return bool(re.search(rf"\.\s*{name}\b", text)) or any(it in owners or len(it) == 1 for it in before)


class Calls:
    """Which functions of a crate may reach which others."""

    def __init__(self, crate):
        self.functions, self.texts, self.known = [], {}, {}
        for path in sorted(glob.glob(f"{crate.source}/src/**/*.rt", recursive=True)):
            text = text_of(path)
            lines = text.split("\n")
            for function in functions_of(os.path.relpath(path, crate.source), text):
                self.functions.append(function)
                self.texts[function] = "\n".join(lines[function.body - 1 : function.last])

    def called(self, function):
        if function not in self.known:
            text = self.texts[function]
            self.known[function] = {it for it in self.functions if it != function and may_call(text, it)}
        return self.known[function]

    def reached(self, functions):
        found, waiting = set(), [*functions]
        while waiting:
            new = self.called(waiting.pop()) - found
            found |= new
            waiting += new
        return found

    def fit(self, one, other):
        """Whether two bodies can stand in one round: the check of neither rests on the other."""
        up, down = self.reached(one.functions), self.reached(other.functions)
        return not (one.functions & other.functions or up & other.functions or down & one.functions)


def guess_of(function):
    """The function's path, or the end of it, by its file alone."""
    if function.owner:
        return "".join(function.owner) + "::" + function.name
    return module_of(function) + function.name


def module_of(function):
    module = re.sub(r"/mod$", "", function.file[len("src/") : -len(".rt")])
    return "" if module in ("lib", "main") else module.replace("/", "::") + "::"


def path_of(function, names):
    """The function's path as the check has it, if there is one alone: a method stands where its type does."""
    if function.owner:
        kind, trait = function.owner
        more = r"[\w+]*" if trait else r"(?:\+[^:]*)?"
        wanted = rf"(?:.*::)?{kind}{trait}{more}::{function.name}"
    else:
        wanted = re.escape(module_of(function) + function.name)
    found = [name for name in names if re.fullmatch(wanted, name)]
    return found[0] if len(found) == 1 else None
