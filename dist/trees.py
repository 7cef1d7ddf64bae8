"""A small tree with made-up programs, processor and kit, for dist/test."""
import os
import shutil
import subprocess
import tempfile
import time
import unittest

TOP = os.path.dirname(os.path.dirname(os.path.abspath(__file__)))
TAKEN = ("plasma", "dist/make", "dist/sum", "dist/wide", "docs/FORMATS.md")
TAKEN += tuple(f"tools/{name}" for name in (
    "forms", "grammar.py", "why", "lines.py", "inputs.py", "run_node", "marking.py", "marks.py", "node_files.py",
    "called.py", "processor.bash", "explain.bash",
))
# It writes its words and its input, and ends with the status that its second word is.
PROGRAM = """#!/bin/sh
echo "NAME ran: $*"
case $1 in replay | wallet) cat ;; esac
[ -z "${PLASMA_TEST_LAST:-}" ] || echo "$PLASMA_TEST_LAST"
exit ${PLASMA_TEST_STATUS:-0}
"""
# A kit: its line, its place, and a run that isn't proved.
KIT = """#!/bin/sh
case $1 in
    version) echo 'a-kit logic 1' ;;
    doc) echo "${0%/*}/START" ;;
    try) echo "tried: $*"; cat; echo "run=ended status=${PLASMA_TEST_STATUS:-0} proved=no" >&2
         exit ${PLASMA_TEST_STATUS:-0} ;;
esac
"""
# What a processor tells of itself; the flags are those that x86-64-v3 takes, and others.
PROCESSOR = """processor\t: 0
model name\t: made up, with avx2
vmx flags\t: vnmi avx2
flags\t\t: fpu sse sse2 pni ssse3 fma cx16 sse4_1 sse4_2 movbe popcnt xsave avx f16c lahf_lm abm bmi1 avx2 bmi2 erms
"""
DEEP = "crates/low/proofs/deep/er/A.antt"


def write(path, text, mode=0o644):
    os.makedirs(os.path.dirname(path), exist_ok=True)
    with open(path, "w", encoding="utf-8") as file:
        file.write(text)
    os.chmod(path, mode)


class Tree(unittest.TestCase):
    """A tree with two crates, and a folder with a kit that is on the path where a test puts it there."""

    def setUp(self):
        self.room = tempfile.mkdtemp(prefix="plasma test ")
        self.addCleanup(shutil.rmtree, self.room)
        self.top = f"{self.room}/tree"
        for path in TAKEN:
            os.makedirs(os.path.dirname(f"{self.top}/{path}"), exist_ok=True)
            shutil.copy(f"{TOP}/{path}", f"{self.top}/{path}")
        write(f"{self.top}/crates.txt", "low:\nplasma: low\n")
        for path in ("low/src/lib.rt", "low/specs/Lib.antt", "low/proofs/deep/er/A.antt", "plasma/src/main.rt"):
            write(f"{self.top}/crates/{path}", path)
        write(f"{self.room}/kit/rt", KIT, 0o755)
        for file, name in (("program", "kept"), ("wide", "wide")):
            write(f"{self.room}/{file}", PROGRAM.replace("NAME", name), 0o755)
        # (the processor is made up too, and only a launcher that was changed takes another one's word)
        self.put_in("plasma", "look_at_processor /proc/cpuinfo", f"look_at_processor '{self.room}/cpuinfo'")
        write(f"{self.room}/cpuinfo", PROCESSOR)
        self.path = os.environ["PATH"]
        # (the machine's own kit isn't asked)
        self.path = os.pathsep.join(it for it in self.path.split(os.pathsep) if not os.path.exists(f"{it}/rt"))

    def put_in(self, path, old, new):
        """Changes a text of the tree where that stands once."""
        with open(f"{self.top}/{path}", encoding="utf-8") as file:
            text = file.read()
        self.assertEqual(text.count(old), 1)
        write(f"{self.top}/{path}", text.replace(old, new), os.stat(f"{self.top}/{path}").st_mode)

    def run_in(self, words, input="", kit=True, folder=None, **env):
        path = f"{self.room}/kit{os.pathsep}{self.path}" if kit else self.path
        return subprocess.run(
            words, input=input, cwd=folder or self.room, capture_output=True, text=True, timeout=600,
            env={"PATH": path, "HOME": self.room, **env},
        )

    def plasma(self, *words, **how):
        return self.run_in([how.pop("launcher", f"{self.top}/plasma"), *words], **how)

    def make(self, *words, **how):
        return self.run_in([f"{self.top}/dist/make", *words], **how)

    def keep(self, *more):
        done = self.make("--program", f"{self.room}/program", *more)
        self.assertEqual(done.returncode, 0, done.stderr)
        return done.stdout

    def keep_both(self):
        return self.keep("--wide", f"{self.room}/wide")

    def build(self, later=5, *names):
        """A program that was proved here, and others: each is newer than each source."""
        built = f"{self.top}/crates/plasma/out/plasma"
        for number, end in enumerate(["", *names]):
            write(built + end, PROGRAM.replace("NAME", f"proved{end}"), 0o755)
            at = time.time() + later + number
            os.utime(built + end, (at, at))
        done = self.make("--passed")
        self.assertEqual((done.returncode, done.stdout, done.stderr), (0, "", ""))
        return built

    def build_both(self):
        return self.build(5, ".wide") + ".wide"

    def change(self, path=DEEP):
        with open(f"{self.top}/{path}", "a", encoding="utf-8") as file:
            file.write("changed")
