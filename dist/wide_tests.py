"""The tests of the program for processors with AVX2, for dist/test: how it is made and kept, and where it is run."""
import os
import shutil
import time

from trees import DEEP, PROCESSOR, Tree, write

# What builds and links a program there, as the file behind -o. It notes its words.
BUILDS = """#!/bin/sh
echo "$*" >> "${0%/*}/told"
[ -z "${PLASMA_TEST_STATUS:-}" ] || { echo 'rattle: no'; exit "$PLASMA_TEST_STATUS"; }
while [ "$1" != -o ]; do shift; done
cp "${0%/*}/../../wide" "$2"
echo "logic=proved functions=1 cpu=${PLASMA_TEST_CPU:-x86-64-v3} sum=1"
"""
FLAGS = "cx16 lahf_lm pni popcnt sse4_1 sse4_2 ssse3 abm avx avx2 bmi1 bmi2 f16c fma movbe xsave".split()


class Keeping(Tree):
    def test_the_line_of_a_program_for_one_processor(self):
        self.assertRegex(self.keep_both(), r"\nprogram [0-9a-f]{64} sources [0-9a-f]{64} processor x86-64-v3 kit a-kit "
                                           r"logic 1\n$")
        for old, new in ((" processor x86-64-v3", ""), ("v3", "v4")):
            self.keep_both()
            self.put_in("dist/wide.made", old, new)
            self.assertIn("isn't the program of the line dist/wide.made", self.make("--stale").stderr)
        # beside another program it would be run in its place
        self.keep()
        self.assertFalse({"wide.gz", "wide.made"} & {*os.listdir(f"{self.top}/dist")})
        self.make("--wide", f"{self.room}/wide")
        self.assertEqual(self.plasma("replay").stdout, "wide ran: replay\n")

    def test_what_dist_wide_made_of_an_earlier_gate_has_not_passed(self):
        folder = os.path.dirname(self.build_both())
        self.assertTrue(os.path.exists(f"{folder}/wide.passed"))
        self.build(9)
        self.assertFalse(os.path.exists(f"{folder}/wide.passed"))
        self.assertIn("out/plasma was changed since plasma.wide was built: run dist/wide", self.make().stderr)


class Widening(Tree):
    """dist/wide over a library and by compilers that are made up."""

    def setUp(self):
        super().setUp()
        for name in ("rattle", "rattle-link"):
            write(f"{self.room}/kit/bin/{name}", BUILDS, 0o755)
        self.library = f"{self.top}/crates/low/out/rlib/low.rlib"
        write(f"{self.library}/format", "a library")
        self.later(5)

    def later(self, seconds):
        at = time.time() + seconds
        os.utime(self.library, (at, at))

    def wide(self, *words, **how):
        return self.run_in([f"{self.top}/dist/wide", *words], **how)

    def test_what_it_makes(self):
        done = self.wide()
        self.assertEqual((done.returncode, done.stderr), (0, ""))
        self.assertRegex(done.stdout, r"^logic=proved .*\n[0-9a-f]{64}  crates/plasma/out/plasma.wide\n\d+ seconds\n$")
        built = f"{self.top}/crates/plasma/out/plasma.wide"
        self.assertEqual(self.run_in([built, "replay"]).stdout, "wide ran: replay\n")
        self.assertEqual(os.listdir(os.path.dirname(built)), ["plasma.wide"])
        with open(f"{self.room}/kit/bin/told", encoding="utf-8") as file:
            told = file.read()
        self.assertIn("--backend llvm --cpu x86-64-v3 ", told)
        self.assertIn(f"--extern low={self.library} ", told)

    def test_libraries_are_of_these_sources(self):
        # (a file of a library may be older: it is taken from what an earlier run on the machine made)
        os.utime(f"{self.library}/format", (1, 1))
        self.assertEqual(self.wide().returncode, 0)
        self.later(-99)
        done = self.wide()
        self.assertEqual((done.returncode, done.stdout), (1, ""))
        self.assertIn("newer than the build of its library", done.stderr)
        self.later(5)
        self.assertIn("there is no `rt` on the path", self.wide(kit=False).stderr)
        self.assertIn("is no program", self.wide("low").stderr)
        shutil.rmtree(self.library)
        self.assertIn("the library low isn't built", self.wide().stderr)

    def test_what_fails_leaves_no_program(self):
        for env, part in (({"PLASMA_TEST_STATUS": "1"}, "rattle ended with 1: rattle: no"),
                          ({"PLASMA_TEST_CPU": "x86-64"}, "no line that says proved for x86-64-v3")):
            built = self.build_both()
            done = self.wide(**env)
            self.assertEqual((done.returncode, done.stdout), (1, ""))
            self.assertIn(part, done.stderr)
            self.assertFalse(os.path.exists(built) or os.path.exists(f"{os.path.dirname(built)}/wide.passed"))


class Choosing(Tree):
    """Which of two programs is run: the one for processors with AVX2, or the one for every processor."""

    def runs(self, name, part, **how):
        self.assertEqual(self.plasma("replay", **how).stdout, f"{name} ran: replay\n")
        self.assertIn(part, self.plasma("--where", **how).stdout)

    def test_the_processor_tells(self):
        self.keep_both()
        self.runs("wide", f"{self.top}/dist/wide.gz, with the SHA-256 ")
        self.assertIn("; it is for processors with AVX2, and this is one", self.plasma("--where").stdout)
        self.assertIn("x86-64 processor, since PLASMA_WIDE=0 asks", self.plasma("--where", PLASMA_WIDE="0").stdout)
        self.runs("kept", f"{self.top}/dist/plasma.gz, with the SHA-256 ", PLASMA_WIDE="0")
        for flag in FLAGS:
            write(f"{self.room}/cpuinfo", PROCESSOR.replace(f" {flag} ", " ").replace(f": {flag} ", ": "))
            said = self.plasma("--where").stdout
            self.assertIn("dist/plasma.gz", said)
            self.assertIn(f"; it is for every x86-64 processor, and this one lacks {flag}\n", said)
        self.runs("kept", "lacks xsave")

    def test_a_processor_that_is_not_told(self):
        self.keep_both()
        head, _, flags = PROCESSOR.rpartition("flags")
        for text in (head, "", f"{head}Features{flags}", f"{head}flags2{flags}", PROCESSOR.replace(" ", " x")):
            write(f"{self.room}/cpuinfo", text)
            self.runs("kept", "this one lacks cx16 lahf_lm pni")
            self.assertEqual(self.plasma("replay").stderr, "")
        os.remove(f"{self.room}/cpuinfo")
        self.runs("kept", "this one lacks cx16")
        self.assertEqual(self.plasma("replay").stderr, "")
        os.remove(f"{self.top}/tools/processor.bash")
        self.runs("kept", "since tools/processor.bash isn't here")

    def test_proved_here(self):
        built = self.build_both()
        self.runs("proved.wide", f"{built}: proved on this machine, with the SHA-256 that the gate left")
        self.runs("proved.wide", "with AVX2, and this is one", PLASMA_PROVED="1")
        self.runs("proved", "since PLASMA_WIDE=0 asks", PLASMA_WIDE="0", PLASMA_PROVED="1")
        with open(built, "a", encoding="utf-8") as file:
            file.write("# other bytes")
        later = time.time() + 9
        os.utime(built, (later, later))
        self.runs("proved", "and none for AVX2 was proved beside it")
        self.build_both()
        os.remove(f"{os.path.dirname(built)}/wide.passed")
        self.runs("proved", "and none for AVX2 was proved beside it")
        self.build_both()
        write(f"{self.room}/cpuinfo", PROCESSOR.replace(" avx2 ", " "))
        self.runs("proved", "and this one lacks avx2")
        later = time.time() + 99
        os.utime(f"{self.top}/{DEEP}", (later, later))
        self.assertEqual(self.plasma("replay", PLASMA_PROVED="1").returncode, 125)

    def test_one_that_was_proved_here_comes_before_one_that_is_kept(self):
        self.keep_both()
        self.build()
        self.runs("proved", "and none for AVX2 was proved beside it")
        self.build_both()
        self.runs("proved.wide", "proved on this machine")

    def test_it_is_of_the_same_sources(self):
        self.keep_both()
        with open(f"{self.top}/dist/made", encoding="utf-8") as file:
            sources = file.read().split()[3]
        self.put_in("dist/wide.made", sources, "0" * 64)
        self.runs("kept", "none for AVX2, of the same sources, stands beside it")
        self.keep_both()
        self.put_in("dist/wide.made", "v3", "v4")
        self.runs("kept", "none for AVX2")
        self.keep_both()
        os.remove(f"{self.top}/dist/wide.gz")
        self.runs("kept", "none for AVX2")
        self.keep_both()
        self.change()
        self.assertEqual(self.plasma("replay", kit=False).returncode, 125)

    def test_a_release(self):
        self.keep_both()
        shutil.rmtree(f"{self.top}/crates")
        os.remove(f"{self.top}/crates.txt")
        self.runs("wide", "there are none here to compare; it is for processors with AVX2", kit=False)
        self.runs("kept", "there are none here to compare; it is for every", kit=False, PLASMA_WIDE="0")
        shutil.copy(f"{self.top}/dist/plasma.gz", f"{self.top}/dist/wide.gz")
        done = self.plasma("replay", kit=False)
        self.assertEqual((done.returncode, done.stdout), (125, ""))
        self.assertIn("dist/wide.gz isn't the program that dist/wide.made beside it names", done.stderr)
