"""Which functions of the sources each function calls, found by reading, without a compiler.

A call by a name is followed through `use`; a call of a method through the type of what stands in front of the dot:
that of a parameter, a field, a `let` or a pattern, or what a function gives. Where that is a type parameter, the call
may be one of each implementation of the traits that it is bound by. Where the type isn't found, it may be one of each
method of that name with so many arguments, in the crates that can be seen, and is guessed.
"""
import re
from collections import defaultdict, namedtuple

from sources import begin_of, end_of, parts

CALL = re.compile(r"\b([a-z_]\w*)(?:::<[^;{}()]*>)?\(")
WORDS = {"if", "match", "while", "for", "return", "in", "let", "else", "loop", "move", "fn"}
# What a call of the library gives, by its name: its own type again, the first type in it, or an option of that.
SAME = set("as_ref as_mut as_deref take clone copied cloned iter iter_mut into_iter as_slice map_err ok_or".split())
FIRST = {"unwrap", "expect", "unwrap_or", "unwrap_or_default"}
OPTION = {"get", "get_mut", "first", "last", "pop", "next"}

# A type as it is used: that of a crate, one of the library (`crate` is None), or a parameter with its traits.
Used = namedtuple("Used", "crate name arguments traits")
# A call that may come: where in the body, of what, and whether its kind was only guessed.
Edge = namedtuple("Edge", "at to guessed")


class Calls:
    """What calls what."""

    def __init__(self, sources, below):
        self.below, self.crates = below, {source.crate for source in sources}
        # Functions by their titles, those of no type by crate and name, methods by name.
        self.titles, self.free, self.alike = defaultdict(list), defaultdict(list), defaultdict(list)
        # Methods by the crate and the name of their type, and by the trait; the traits of each type.
        self.methods, self.implemented, self.traits = defaultdict(list), defaultdict(list), defaultdict(list)
        # The types; and what each crate hands on of others by `pub use`.
        self.types, self.handed = {}, defaultdict(dict)
        # What was found: the types of names in bodies, and the calls of functions.
        self.locals, self.found = {}, {}
        for source in sources:
            for name, kind in source.types.items():
                self.types[source.crate, name] = (source, *kind)
            self.handed[source.crate].update({name: (source, path) for name, path in source.hands_on.items()})
            for function in source.functions:
                if not function.owner:
                    self.free[source.crate, function.name].append(function)
        for source in sources:
            self.enter(source)

    def enter(self, source):
        """Enters the functions of a file and the traits of its types, once all types are known."""
        for function in source.functions:
            self.titles[function.title].append(function)
            if function.owner and function.body:
                self.alike[function.name].append(function)
                self.methods[self.home(source, function.owner), function.owner, function.name].append(function)
                if function.trait:
                    self.implemented[function.trait, function.name].append(function)
        for block in source.blocks:
            if block.trait and block.owner:
                self.traits[self.home(source, block.owner), block.owner].append(block.trait)

    def item(self, source, names):
        """The crate, the module where one is named, and the name of what a path means in a file."""
        seen = set()
        while True:
            names = [*source.uses[names[0]], *names[1:]] if names[0] in source.uses else names
            crate = names[0] if names[0] in self.crates else source.crate
            front = names[-2] if len(names) > 1 else None
            module = front if front not in ("super", "crate", "self", crate) else None
            if names[0] in ("std", "core", "alloc"):
                return None, None, names[-1]
            key = crate, names[-1]
            handed = self.handed[crate].get(names[-1])
            if key in self.free or key in self.types or key in seen or not handed:
                return crate, module or (source.module if len(names) == 1 else None), names[-1]
            seen.add(key)
            source, names = handed

    def home(self, source, name):
        """The crate of a type or a trait that is named so in a file."""
        return self.item(source, [name])[0]

    def used(self, said, source, bounds, own):
        """The type that a text means in a file, with these parameters, and in an `impl` of this type."""
        said = re.sub(r"^(?:&\s*|'\w+\s+|mut\s+|dyn\s+|impl\s+)+", "", said.strip())
        if said[:1] in ("[", "("):
            types = parts(said[1:-1].partition(";")[0] if said[0] == "[" else said[1:-1])
            inside = [self.used(it, source, bounds, own) for it in types]
            return Used(None, "slice" if said[0] == "[" else "tuple", inside, [])
        match = re.match(r"([\w:]+)(<.*>)?$", said, re.S)
        if not match:
            return None
        *front, name = match[1].split("::")
        if name == "Self" or front[:1] == ["Self"]:
            return own if not front else None
        if name in bounds:
            return Used(None, name, [], bounds[name])
        arguments = [self.used(it, source, bounds, own) for it in parts(match[2][1:-1] if match[2] else "")]
        if name in ("Box", "Rc", "Ref", "RefMut") and arguments:
            return arguments[0]
        crate = self.item(source, [*front, name])[0]
        return Used(crate if (crate, name) in self.types else None, name, arguments, [])

    def own(self, function):
        """The type of which a function is a method."""
        if not function.owner or function.owner == function.trait:
            return Used(None, "Self", [], [function.trait])
        crate = self.home(function.source, function.owner)
        return Used(crate if (crate, function.owner) in self.types else None, function.owner, [], [])

    def given(self, function):
        """The type of what a function gives."""
        return self.used(function.gives, function.source, function.bounds, self.own(function))

    def of(self, used, name):
        """The methods of that name that a value of a type has."""
        if used.traits:
            return [it for trait in used.traits for it in self.implemented[trait, name]]
        found = self.methods[used.crate, used.name, name]
        traits = self.traits[used.crate, used.name]
        return found or [it for trait in traits for it in self.implemented[trait, name] if it.owner == trait]

    def field(self, used, name):
        """The type of a field: of a tuple by its number, of a variant by `Variant.field`."""
        if used.name == "tuple" and not used.crate:
            return used.arguments[int(name)] if name.isdigit() and int(name) < len(used.arguments) else None
        source, fields, bounds = self.types.get((used.crate, used.name), (None, {}, {}))
        return self.used(fields[name], source, bounds, used) if name in fields else None

    def functions(self, source, names):
        """The functions that a path means, without a type in front."""
        crate, module, name = self.item(source, names)
        found = self.free.get((crate, name), [])
        near = [it for it in found if module and module in it.source.path.replace(".rt", "").split("/")]
        return near or found

    def called(self, function, path):
        """The functions that a path in front of a bracket means in a function's body."""
        names = re.sub(r"<[^:]*>", "", path.replace("::<", "<")).split("::")
        if len(names) == 1 or not names[-2][:1].isupper():
            return self.functions(function.source, names)
        if names[-2] in function.bounds and len(names) == 2:
            return [it for trait in function.bounds[names[-2]] for it in self.implemented[trait, names[-1]]]
        used = self.used("::".join(names[:-1]), function.source, function.bounds, self.own(function))
        return self.of(used, names[-1]) if used and used.crate else []

    def type_of(self, function, said, at):
        """The type of an expression in a body, None where it isn't found."""
        said = re.sub(r"^(?:&\s*|mut\s+|\*|\s)+", "", said)
        match = re.match(r"((?:\w+(?:::<[^()]*?>)?::)*\w+)(?:::<[^()]*?>)?", said)
        if said.startswith("("):
            end = end_of(said, 0)
            inside = [self.type_of(function, it, at) for it in parts(said[1 : end - 1])]
            used, rest = (inside[0] if len(inside) == 1 else Used(None, "tuple", inside, [])), said[end:]
        elif not match:
            return None
        else:
            used, rest = self.first_of(function, match[1], said[match.end() :], at)
        while used and rest.strip():
            used, rest = self.behind(function, used, rest.strip())
        return used

    def first_of(self, function, path, rest, at):
        """The type of what an expression begins with, and what is left of it."""
        if rest.startswith("("):
            found = [it for it in map(self.given, self.called(function, path)) if it]
            rest = rest[end_of(rest, 0) :]
            if not found and path[:1].isupper() and "::" in path and not path.split("::")[-1][0].islower():
                return self.used(path.rpartition("::")[0], function.source, function.bounds, self.own(function)), rest
            return (found[0] if found else None), rest
        if re.match(r"\s*\{", rest) and path.split("::")[-1][:1].isupper():
            used = self.used(path, function.source, function.bounds, self.own(function))
            return used, rest[end_of(rest, rest.index("{")) :]
        if "::" in path:
            return None, rest
        return (self.own(function) if path == "self" else self.local(function, path, at)), rest

    def behind(self, function, used, rest):
        """The type with the next thing behind a dot, a question mark or a bracket, and what is left."""
        first = used.arguments[0] if used.arguments else None
        if rest[0] in "?[":
            return first, rest[1:] if rest[0] == "?" else rest[end_of(rest, 0) :]
        match = re.match(r"\.\s*(\w+)(?:::<[^()]*?>)?(\()?", rest)
        if not match:
            return None, ""
        name = match[1]
        if not match[2]:
            return self.field(used, name), rest[match.end() :]
        rest = rest[end_of(rest, match.end() - 1) :]
        found = [it for it in map(self.given, self.of(used, name)) if it]
        if found:
            return found[0], rest
        if used.crate:
            return None, rest
        known = {**dict.fromkeys(SAME, used), **dict.fromkeys(FIRST, first)}
        known |= dict.fromkeys(OPTION, Used(None, "Option", [first], []))
        return known.get(name), rest

    def local(self, function, name, at):
        """The type of a name in a body: that of a parameter, a `let` or a pattern in front of a place."""
        key = function, name, at
        if key not in self.locals:
            # (what leads to itself has no type)
            self.locals[key] = None
            self.locals[key] = self.local_of(function, name, at)
        return self.locals[key]

    def local_of(self, function, name, at):
        body, own = function.body, self.own(function)
        for match in reversed([*re.finditer(rf"\blet (?:mut )?{name}\b(?:: ([^=;]+?))? = ", body[:at])]):
            if match[1]:
                return self.used(match[1], function.source, function.bounds, own)
            return self.type_of(function, parts(body[match.end() :].split(" else {")[0], ";")[0], match.start())
        found = self.in_pattern(function, name, at)
        if found:
            return found
        for parameter in function.parameters:
            word, _, said = parameter.partition(":")
            if word.replace("mut ", "").strip() == name:
                return self.used(said, function.source, function.bounds, own)
        return None

    def in_pattern(self, function, name, at):
        """The type of a name that a pattern in front of a place binds."""
        body = function.body
        pattern = rf"((?:\w+::)*\w*)\s*([({{])([^(){{}}]*\b{name}\b[^(){{}}]*)[)}}]"
        for match in reversed([*re.finditer(pattern, body[:at])]):
            inside = parts(match[3])
            place = next((n for n, it in enumerate(inside) if re.search(rf"(?:^|[ :]){name}$", it)), None)
            if place is None:
                continue
            field = str(place) if match[2] == "(" else re.match(r"(?:mut |ref )?(\w+)", inside[place])[1]
            *front, last = match[1].split("::")
            if last in ("Some", "Ok", "Err", ""):
                used = self.matched(function, match.start())
                if used and last and last != "Err":
                    return used.arguments[0] if used.arguments else None
                if used and not last:
                    return self.field(used, field)
                continue
            used = self.used("::".join(front or [last]), function.source, function.bounds, self.own(function))
            found = self.field(used, f"{last}.{field}" if front else field) if used else None
            if found:
                return found
        loops = [*re.finditer(rf"\bfor {name} in ([^{{]+)\{{", body[:at])]
        used = self.type_of(function, loops[-1][1], loops[-1].start()) if loops else None
        return used.arguments[0] if used and used.arguments else None

    def matched(self, function, at):
        """The type of what a pattern at a place is held against."""
        body = function.body
        line = re.match(r"[^;{}]*? = ([^;]*?)(?:;| else \{| \{\n)", body[at:])
        if line and re.search(r"\blet (?:\w+::)*$", body[:at]):
            return self.type_of(function, line[1], at)
        around = [it for it in re.finditer(r"\bmatch ([^{}]+?) \{", body[:at]) if end_of(body, it.end() - 1) > at]
        return self.type_of(function, around[-1][1], around[-1].start()) if around else None

    def edges(self, function):
        """The calls of a body, in their order."""
        if function not in self.found:
            self.found[function] = [*self.calls(function)] if function.body else []
        return self.found[function]

    def calls(self, function):
        body = function.body
        for match in CALL.finditer(body):
            front = body[: match.start()]
            if front.rstrip()[-1:] == "." and front.rstrip()[-2:] != "..":
                used = self.type_of(function, receiver(body, len(front.rstrip()) - 1), match.start())
                found, guessed = (self.of(used, match[1]), False) if used else (self.guesses(function, match), True)
            elif match[1] in WORDS or front[-1:] == "'":
                continue
            else:
                path = re.search(r"(?:\w+(?:::<[^(){}]*>)?::)*$", front)[0]
                found, guessed = self.called(function, path + match[1]), False
            yield from (Edge(match.start(), it, guessed) for it in found)

    def guesses(self, function, match):
        """The methods that a call may mean of which the type isn't found."""
        given = function.body[match.end() - 1 : end_of(function.body, match.end() - 1)]
        seen = {function.source.crate, *self.below[function.source.crate]}
        return [it for it in self.alike[match[1]] if it.source.crate in seen and it.count == len(parts(given[1:-1]))]

    def way(self, start, ends, guesses=False):
        """The shortest chain of calls from one function to one of others, each with the function that makes it; of
        guessed calls only where there is no other. None where there is none."""
        came, todo = {start: None}, [start]
        while todo:
            following = []
            for function in todo:
                if function in ends and function is not start:
                    chain = []
                    while came[function]:
                        edge, before = came[function]
                        chain.insert(0, (edge, before))
                        function = before
                    return chain
                for edge in self.edges(function):
                    if edge.to not in came and edge.to.body and (guesses or not edge.guessed):
                        came[edge.to] = edge, function
                        following.append(edge.to)
            todo = following
        return None if guesses else self.way(start, ends, True)


def receiver(text, dot):
    """The expression in front of a dot."""
    at = dot
    while at:
        sign = text[at - 1]
        if sign.isspace():
            if text[at:].lstrip()[:1] != ".":
                break
            at -= 1
        elif sign in ")]":
            at = begin_of(text, at)
        elif sign in "?." or sign.isalnum() or sign == "_" or text[at - 2 : at] == "::":
            at -= 2 if text[at - 2 : at] == "::" else 1
        elif sign == ">" and "::<" in text[:at]:
            at = begin_of(text, at)
        else:
            break
    return text[at:dot].strip()
