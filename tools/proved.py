"""The proved programs as files that can be run: plasma, which is the one that ./plasma runs, and `safe`. For
tools/safe, stories and the benches.

The program `safe` is the first of these: what PLASMA_SAFE names; the one that the gate proved and built here, where its
SHA-256 is the one that was left beside it and no source is newer; the one that dist/ keeps, where the sources are still
those that it was made from, or where there are none, as in a release.
"""
import gzip
import hashlib
import os
import re
import subprocess
import tempfile

from grammar import TOP

BUILT = f"{TOP}/crates/safe/out/safe"
PACKED, MADE = f"{TOP}/dist/safe.gz", f"{TOP}/dist/safe.made"


class Program:
    """The program that ./plasma runs here, as a path, where it is a proved one; else None. A kept one is unpacked for
    as long as this lasts."""

    def __enter__(self):
        where = subprocess.run([f"{TOP}/plasma", "--where"], capture_output=True, text=True, check=False).stdout
        found = re.match(r"(/.*?)(?:: proved on|: PLASMA_PROGRAM|, with the SHA-256)", where)
        self.room = None
        if not found or not found[1].endswith(".gz"):
            return found and found[1]
        self.room = tempfile.TemporaryDirectory()
        path = f"{self.room.name}/plasma"
        with gzip.open(found[1]) as packed, open(path, "wb") as file:
            file.write(packed.read())
        os.chmod(path, 0o700)
        return path

    def __exit__(self, *_):
        if self.room:
            self.room.cleanup()


class Safe:
    """The program's path, or None where none is here. A kept one is unpacked for as long as this lasts."""

    def __enter__(self):
        self.room = None
        if os.environ.get("PLASMA_SAFE"):
            return os.environ["PLASMA_SAFE"]
        if is_proved():
            return BUILT
        program = kept()
        if program is None:
            return None
        self.room = tempfile.TemporaryDirectory()
        path = f"{self.room.name}/safe"
        with open(path, "wb") as file:
            file.write(program)
        os.chmod(path, 0o700)
        return path

    def __exit__(self, *_):
        if self.room:
            self.room.cleanup()


def digest(content):
    return hashlib.sha256(content).hexdigest()


def read(path):
    try:
        with open(path, "rb") as file:
            return file.read()
    except OSError:
        return None


def words_of(path):
    """The words of a line that dist/make wrote: the sums of a program and of its sources; none where there is none."""
    words = (read(path) or b"").decode("latin-1").split(" ")
    return (words[1], words[3]) if len(words) > 5 and words[0] == "program" else (None, None)


def is_proved():
    """The program that passed the gate is here, and no source was changed since."""
    program = read(BUILT)
    if program is None or digest(program) != words_of(f"{os.path.dirname(BUILT)}/passed")[0]:
        return False
    made = os.stat(BUILT).st_mtime_ns
    return all(os.stat(path).st_mtime_ns <= made for path in sources())


def sources():
    yield f"{TOP}/crates.txt"
    for at, folders, names in os.walk(f"{TOP}/crates"):
        folders[:] = [name for name in folders if name != "out"]
        parts = os.path.relpath(at, f"{TOP}/crates").split(os.sep)
        if len(parts) > 1 and parts[1] in ("src", "specs", "proofs"):
            yield from [at, *(f"{at}/{name}" for name in names)]


def kept():
    """The bytes of the program that dist/ keeps, where it is of these sources."""
    packed, (program_sum, sources_sum) = read(PACKED), words_of(MADE)
    if packed is None or program_sum is None or not is_of(sources_sum):
        return None
    try:
        program = gzip.decompress(packed)
    except (OSError, EOFError):
        return None
    return program if digest(program) == program_sum else None


def is_of(sources_sum):
    """The sources here have that sum, or there are none."""
    if not os.path.exists(f"{TOP}/crates.txt"):
        return True
    done = subprocess.run([f"{TOP}/dist/sum"], stdout=subprocess.PIPE, text=True, check=False)
    return done.stdout.strip() == sources_sum
