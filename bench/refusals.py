"""What a check says of a wrong body: which goals it leaves open, and which stored terms it finds wrong. bench/bodies
says what makes a refusal.
"""
import re

REFUSED, PROOF, LIMIT = "refused", "refused only by a proof", "refused only by a limit"
DROPPED, WITHOUT = "refused at a dropped term", "refused without an invariant"
ELSEWHERE, PROVED, BAD, UNTRIED = "refused elsewhere", "NOT REFUSED", "bad edit", "not tried"

# What the check says of a function, and the lines that tell why.
STATUS = re.compile(r"^fn (\S+): (.*)$", re.M)
TOLD = re.compile(r"^(?:note: )?(?:\./)?(\S+?):(\d+):\d+: (.*)")
LIMITED = re.compile(r"antt ran out of |outgrew the memory limit|stopped at the step limit")

# A stored term that the check finds wrong: its file, its name, and why; and where its goal is gone, or another name.
STORED = re.compile(r"^(?:\./)?(proofs/\S+/(?:Answers|Invariants)\.antt):\d+:\d+: error: `([^`]+)`(.*)", re.M)
GONE = re.compile(r"is not in scope|has no field|has no `")
# What it says of a goal that is left open; the second of a type's invariant.
OPEN = re.compile(r"^note: (?:\./)?src/\S+: (?:it is not proved that|`search` found no proof)")
INVARIANTS = "/Invariants.antt"


class Told:
    """What checks said, the last one of each function that was asked for, and the last one of all."""

    def __init__(self):
        self.last, self.of = "", {}

    def add(self, said, paths):
        self.last = said
        self.of.update({path: said for path in paths})

    def said(self, path):
        return self.of.get(path, self.last)


def unread(line, texts):
    """Whether the prover couldn't read a text of src/, specs/ or a changed file: as rt has it."""
    at = re.match(r"(?:\./)?(\S+?):\d+:\d+: error: (?:(`[^`]*`): )?(.*)", line)
    if not at or at[1] not in texts and not at[1].startswith(("src/", "specs/")):
        return False
    said = re.sub(r"`[^`]*`", "", at[3])
    words = r"is not in scope|has no field|is no name|operand is missing|expected the end|cannot continue"
    return not at[2] or bool(re.search(words, said))


def telling(lines):
    """The lines that tell why something isn't proved."""
    return [line for line in lines if TOLD.match(line) and (": error" in line or line.startswith("note: "))]


def first_told(lines, dropped):
    """The word for a refusal, and the line that tells most of it: of a goal that is open, if there is one."""
    told, names = telling(lines), {name for _, name, _ in dropped}
    left = [line for line in told if OPEN.match(line)]
    if not left:
        return (PROOF, told[0][:200] + without(dropped)) if told else (UNTRIED, "no goal is open, and no line says why")
    # A goal that is false at some values tells most. One whose term was dropped tells less than another, and one of
    # an invariant less than one of a clause. Where a term's goal is gone, it may have been the term of any.
    was_stored = lambda it: any(f"`{name}`" in it for name in names)
    is_false = lambda it: "values at which this goal is false" in it
    line = min(left, key=lambda it: (not is_false(it), was_stored(it), "the loop" in it))
    if any(file.endswith(INVARIANTS) for file, _, _ in dropped):
        return WITHOUT, line[:200] + without(dropped)
    is_weak = not is_false(line) and (was_stored(line) or any(GONE.search(why) for _, _, why in dropped))
    return DROPPED if is_weak else REFUSED, line[:200] + without(dropped)


def without(dropped):
    """What a line says of the terms that were dropped."""
    return "; without " + ", ".join(name for _, name, _ in dropped) if dropped else ""


def folders_of(path):
    """Where the stored terms of a function stand: before the name of one that calls itself there is a +."""
    return tuple(f"proofs/{it}/".replace("::", "/") for it in (path, re.sub(r"(\w+)$", r"+\1", path)))


def own_lines(function, path, said):
    """The telling lines of a function: those in its lines, or in the files of its proofs."""
    found, folders = [], folders_of(path)
    for line in telling(said.split("\n")):
        file, number = TOLD.match(line).group(1, 2)
        if file.startswith(folders) or file == function.file and function.first <= int(number) <= function.last:
            found.append(line)
    return found


def judged(crate, body, paths, told, drops):
    """What the check says of the changed functions themselves, or None where that isn't clear."""
    found = []
    for function, path in zip(body.functions, paths):
        said = told.said(path)
        # A closure's name has the function's behind fn.
        names = tuple(f"{crate.name}::{it}::" for it in (path, re.sub(r"(\w+)$", r"fn::\1", path)))
        statuses = [it for name, it in STATUS.findall(said) if f"{name}::".startswith(names)]
        dropped, own = [it for it in drops if it[0].startswith(folders_of(path))], own_lines(function, path, said)
        if own and any(not it.startswith(("proved", "could not tell", "no proof: it calls")) for it in statuses):
            found.append(first_told(own, dropped))
        elif statuses and all(it == "proved" for it in statuses):
            found.append((PROVED, f"{path} is still proved" + without(dropped)))
        else:
            found.append(None)
    # Of several functions one that is refused suffices.
    order = [REFUSED, DROPPED, None, WITHOUT, PROOF, UNTRIED, PROVED]
    return min(found, key=lambda it: order.index(it and it[0]))
