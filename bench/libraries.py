"""The crates of crates.txt, the libraries that a check of one reads, and where these are built."""
import os
import subprocess

from functions import text_of

TOP = os.path.dirname(os.path.dirname(os.path.abspath(__file__)))
PARTS = ("src", "specs", "proofs")


def kit_of():
    """The folder of the toolchain."""
    return os.path.dirname(subprocess.run(["rt", "doc"], stdout=subprocess.PIPE, check=True).stdout.decode().strip())


class Crate:
    """A crate of crates.txt: its folder, the kit's libraries that it names, and those of the repository."""

    def __init__(self, name, words, crates):
        self.name, self.words = name, words
        # Where its libraries and kept work are, and where its files are read: a copy, once it is tried.
        self.folder = self.source = f"{TOP}/crates/{name}"
        self.rlib = f"{self.folder}/out/rlib"
        self.deps = [crates[word] for word in words if word in crates]
        self.of_kit = ["std", *[word for word in words if word not in crates]]

    def below(self):
        found = []
        for dep in self.deps:
            found += [it for it in [*dep.below(), dep] if it not in found]
        return found

    def reading(self, kit):
        """A check that reads the libraries."""
        root = "src/main.rt" if os.path.isfile(f"{self.folder}/src/main.rt") else "src/lib.rt"
        words = [f"{kit}/bin/rattle", "check", "--crate-name", self.name, root]
        for name in self.of_kit:
            words += ["--extern", f"{name}={kit}/rlibs/{name}.rlib"]
        words += ["-L", f"dependency={kit}/rlibs"]
        for dep in self.deps:
            words += ["--extern", f"{dep.name}={dep.rlib}/{dep.name}.rlib"]
        for dep in self.below():
            words += ["-L", f"dependency={dep.rlib}"]
        words += ["--antt-project", f"{kit}/rattle/logic/antt-project.json", "--logic-built", f"{kit}/logic_built"]
        return words

    def command(self, kit, kept, only):
        """The check that rt makes of an edit, over the kept work."""
        words = [*self.reading(kit), "--jobs", "1", "--links", f"{self.name}=", "--incremental", kept]
        for path in only:
            words += ["--only", path]
        return words


def crates():
    found = {}
    with open(f"{TOP}/crates.txt", encoding="utf-8") as file:
        lines = [line.partition("#")[0].partition(":") for line in file]
    waiting = {head.split()[0]: words.split() for head, _, words in lines if head.strip()}
    while waiting:
        ready = [name for name, words in waiting.items() if not {*words} & {*waiting}]
        if not ready:
            raise SystemExit("crates.txt: these stand on one another: " + ", ".join(waiting))
        for name in ready:
            found[name] = Crate(name, waiting.pop(name), found)
    return found


def is_built(folder, crate, parts=PARTS):
    """Whether a checkout has the crate's library, made of the sources that stand here. Then it is taken."""
    there = f"{folder}/crates/{crate.name}"
    if not os.path.isfile(f"{there}/out/rlib/{crate.name}.rlib/format"):
        return False
    for part in parts:
        one, other = files_of(f"{crate.folder}/{part}"), files_of(f"{there}/{part}")
        if one != other or any(text_of(f"{crate.folder}/{part}/{it}") != text_of(f"{there}/{part}/{it}") for it in one):
            return False
    crate.rlib = f"{there}/out/rlib"
    return True


def files_of(folder):
    return {os.path.relpath(f"{at}/{name}", folder) for at, _, names in os.walk(folder) for name in names}


def ran_in(folder, words):
    """What a command said, and its status."""
    how = {"stdin": subprocess.DEVNULL, "stdout": subprocess.PIPE, "stderr": subprocess.STDOUT, "errors": "replace"}
    ran = subprocess.run(words, cwd=folder, **how)
    return ran.stdout, ran.returncode


def has_libraries(crate, built):
    """Finds the libraries below in the other checkout, or builds them: nothing, or why they aren't there."""
    if built:
        lacking = [it.name for it in crate.below() if not is_built(built, it)]
        return f"{built} has no {lacking[0]} of these sources" if lacking else ""
    # This holds the locks of rt for seconds where the proof would for minutes.
    said, status = ran_in(crate.folder, ["rt", "check", "--jobs", "1", "--only", ""])
    return said if status else ""
