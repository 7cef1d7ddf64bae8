"""Runs of two programs, compared byte for byte, and made smaller where they differ. For bench/agree and what plays its
cases.
"""
import collections
import gzip
import hashlib
import importlib.machinery
import importlib.util
import os
import re
import signal
import subprocess
import sys
import tempfile
import traceback

try:
    # (of strings this short the digest that Python has itself takes three fifths of the time)
    from _sha256 import sha256 as short_sha256  # Python before 3.12
except ImportError:
    from _sha2 import sha256 as short_sha256

hashlib.sha256 = short_sha256
TOP = os.path.dirname(os.path.dirname(os.path.abspath(__file__)))
JOURNALS = ("notes.journal", "leaves.journal")
LONGEST = 120  # seconds of a processor that one run may take
WAITING = 3600  # seconds until a run is given up, on a machine that has other work
FORGET = 500  # runs

# A run: its words, its input, and the files that the folder is given before it; None leaves what the run before left.
Step = collections.namedtuple("Step", "words input files", defaults=[b"", None])
# Runs in one folder. The marks say what the case was made for.
Case = collections.namedtuple("Case", "kind steps marks", defaults=[()])
# What a run wrote, how it ended, and the files behind it.
Did = collections.namedtuple("Did", "text status files")


def put(folder, files):
    """Gives a folder these files, and no other journals."""
    for name in JOURNALS:
        path = f"{folder}/{name}"
        if os.path.exists(path):
            os.chmod(path, 0o600)
            os.remove(path)
        if name in files:
            with open(path, "wb") as file:
                file.write(files[name])
            os.chmod(path, 0o600)


def found(folder):
    """The journals of a folder."""
    files = {}
    for name in JOURNALS:
        if os.path.exists(f"{folder}/{name}"):
            with open(f"{folder}/{name}", "rb") as file:
                files[name] = file.read()
    return files


class Program:
    """A program that is started for each run."""

    def __init__(self, path):
        self.words = [path]

    def run(self, folder, step):
        if step.files is not None:
            put(folder, step.files)
        done = subprocess.run([*self.words, *step.words], input=step.input, stdout=subprocess.PIPE,
                              stderr=subprocess.DEVNULL, cwd=folder, timeout=WAITING, check=False)
        return Did(done.stdout, done.returncode, found(folder))


class Module:
    """A program in Python that is read once, and run here. It has a function `run`, which takes the words and gives the
    status, reads and writes by the numbers 0 and 1, and keeps nothing between two runs but what it computed of the
    same words."""

    def __init__(self, path):
        folder = os.path.dirname(path)
        names = [name[:-3] for name in os.listdir(folder) if name.endswith(".py")]
        for name in names:
            sys.modules.pop(name, None)  # (another one's part)
        sys.path.insert(0, folder)
        loader = importlib.machinery.SourceFileLoader("second_opinion_program", path)
        self.module = importlib.util.module_from_spec(importlib.util.spec_from_loader(loader.name, loader))
        loader.exec_module(self.module)
        sys.path.remove(folder)
        self.parts = {name: sys.modules[name] for name in names if name in sys.modules}
        self.kept = [it for part in self.parts.values() for it in vars(part).values() if hasattr(it, "cache_clear")]
        self.runs = 0

    def replay(self):
        """A replay line by line: a function that gives the answer of the next line, or None where it ends the run."""
        world, ends = self.parts["world"].World(), (self.parts["refusals"].BadLine, self.parts["refusals"].Ended)

        def answer(line):
            try:
                return world.answer(len(world.mail) + 1, line)
            except ends:
                return None

        return answer

    def run(self, folder, step):
        self.runs += 1
        if self.runs % FORGET == 0:
            self.forget()
        if step.files is not None:
            put(folder, step.files)
        here, streams = os.getcwd(), [os.dup(0), os.dup(1)]
        read, written = (os.memfd_create(name) for name in ("read", "written"))
        with open(read, "r+b") as given, open(written, "r+b") as told:
            given.write(step.input)
            given.seek(0)
            try:
                os.chdir(folder)
                os.dup2(read, 0)
                os.dup2(written, 1)
                status = self.status_of(step.words)
            finally:
                os.chdir(here)
                for number, stream in enumerate(streams):
                    os.dup2(stream, number)
                    os.close(stream)
            told.seek(0)
            return Did(told.read(), status, found(folder))

    def status_of(self, words):
        signal.signal(signal.SIGPROF, too_long)
        signal.setitimer(signal.ITIMER_PROF, LONGEST)
        try:
            return self.module.run(words)
        except SystemExit as end:
            return end.code
        except Exception:
            traceback.print_exc()
            return 99
        finally:
            signal.setitimer(signal.ITIMER_PROF, 0)

    def forget(self):
        """What was computed is forgotten now and then, all but keys, so that it doesn't grow."""
        for it in self.kept:
            if "key" not in it.__name__:
                it.cache_clear()


class TooLong(Exception):
    """A run took too long. (A TimeoutError would be a device fault to the second opinion.)"""


def too_long(*_):
    raise TooLong


def kept_program(room):
    """The program that stands here: the one that `rt ci` built, or that of dist/."""
    built = f"{TOP}/crates/plasma/out/plasma"
    if os.path.exists(built):
        return built
    with gzip.open(f"{TOP}/dist/plasma.gz") as file, open(f"{room}/program", "wb") as program:
        program.write(file.read())
    os.chmod(f"{room}/program", 0o700)
    return f"{room}/program"


def played(program, case, room):
    """What came of each run of a case, in a folder that is empty at first."""
    with tempfile.TemporaryDirectory(dir=room) as folder:
        return [program.run(folder, step) for step in case.steps]


def differ(one, other):
    """The number of the first run that isn't the same, or None."""
    return next((place for place, (a, b) in enumerate(zip(one, other)) if a != b), None)


def first_line(a, b):
    """How two runs differ, in a line."""
    if a.text != b.text:
        ones, others = a.text.split(b"\n"), b.text.split(b"\n")
        place = next((at for at, pair in enumerate(zip(ones, others)) if pair[0] != pair[1]), min(len(ones),
                                                                                                  len(others)))
        texts = [(it[place][:200].decode("latin-1") if place < len(it) else "(no line)") for it in (ones, others)]
        return f"line {place + 1} of the text: {texts[0]!r} and {texts[1]!r}"
    if a.status != b.status:
        return f"status {a.status} and {b.status}"
    names = [name for name in JOURNALS if a.files.get(name) != b.files.get(name)]
    return f"the files {', '.join(names)}"


# ---- smaller cases

def renumbered(line, gone):
    """A line in which each # names the same line as before, where so many lines of these numbers are gone."""

    def number(match):
        at = int(match[1])
        return b"#0" if at in gone else b"#%d" % (at - sum(1 for it in gone if it < at))

    return re.sub(rb"#(\d+)", number, line)


def without(case, place, gone):
    """The case without some lines of a run, by their numbers from 1."""
    step = case.steps[place]
    lines = step.input.split(b"\n")
    kept = [renumbered(line, gone) for at, line in enumerate(lines, 1) if at not in gone]
    steps = [*case.steps]
    steps[place] = step._replace(input=b"\n".join(kept))
    return case._replace(steps=steps)


class Smaller:
    """Makes a case smaller, as long as it is one that two programs answer differently."""

    def __init__(self, programs, room, trials=400):
        self.programs, self.room, self.trials = programs, room, trials

    def differs(self, case):
        self.trials -= 1
        try:
            dids = [played(program, case, self.room) for program in self.programs]
        except subprocess.TimeoutExpired:
            return False
        return differ(*dids) is not None

    def __call__(self, case):
        dids = [played(program, case, self.room) for program in self.programs]
        case = case._replace(steps=case.steps[: (differ(*dids) or 0) + 1])
        place = 0
        while place < len(case.steps) - 1 and self.trials > 0:
            steps = [*case.steps]
            files = steps.pop(place).files
            if files is not None and steps[place].files is None:
                steps[place] = steps[place]._replace(files=files)
            tried = case._replace(steps=steps)
            if self.differs(tried):
                case = tried
            else:
                place += 1
        for place in reversed(range(len(case.steps))):
            case = self.fewer_lines(case, place)
        return case

    def fewer_lines(self, case, place):
        size = max(case.steps[place].input.count(b"\n") // 2, 1)
        while self.trials > 0:
            at, fewer = 1, False
            while at <= case.steps[place].input.count(b"\n") and self.trials > 0:
                tried = without(case, place, set(range(at, at + size)))
                if tried.steps[place].input != case.steps[place].input and self.differs(tried):
                    case, fewer = tried, True
                else:
                    at += size
            if size == 1 and not fewer:
                break
            size = max(size // 2, 1)
        return case


def vector(name, case, dids):
    """A case and what came of it, in the form of the vectors that release/vectors makes; the files stand before each
    run."""
    runs, before = [], {}
    for step, did in zip(case.steps, dids):
        before = before if step.files is None else step.files
        runs.append({"words": step.words, "input": [step.input.decode("latin-1")], "before": spelled(before),
                     "text": did.text.decode("latin-1"), "status": did.status, "after": spelled(did.files)})
        before = did.files
    return {"name": name, "kind": case.kind, "runs": runs}


def spelled(files):
    return {name: content.hex() for name, content in files.items()}
