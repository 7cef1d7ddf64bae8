"""The tests of what ./plasma says in a script's log, for tools/test: each wrong input that people type, and each wrong
line of a wallet's run, has its reason there, on one line; silent is what is asked to be. And of which of its two programs
it takes here, and that both answer the same.
"""
import os
import pty
import shutil
import subprocess
import tempfile
import unittest

from testing import HERE, Program

TOP = os.path.dirname(HERE)
LAUNCHER, BIN = f"{TOP}/plasma", f"{TOP}/bin"
CHAIN, LOG = "chain 1 9 100\n", f"chain 0x{1:064x} 9 100\n"
KEY, OWNER = "0x0000000500000004" + "0" * 96, "0x" + "0" * 128
MANY = CHAIN + "".join(f"wallet w{number} {100 + number} {number}\n" for number in range(66))
# The words, the input, the status, and a part of what is said; where nothing is said the run is as it should be.
TYPED = [
    ("", "", 2, "there are no words"),
    ("repaly", "", 2, "did you mean 'replay'?"),
    ("replay in", "", 2, "'plasma replay < in' reads that file"),
    ("make 7", "", 2, "<count> is missing"),
    ("make 7 10001", "", 2, "'10001' is more than 10000"),
    ("verify 0xAB", "", 2, "has a big letter, 'A'"),
    ("init wallet 0x1", "", 2, "has 1 digit behind 0x, and 64 stand here"),
    ("wallet", f"{LOG}--\nwho\n", 9, "this folder has no notes.journal"),
    ("replay", "", 0, "standard input is empty"),
    ("replay", f"{CHAIN}\n", 3, "a schedule has no empty line"),
    ("replay", f"{CHAIN}# x\n", 3, "a schedule has no comments"),
    ("replay", CHAIN.replace("\n", "\r\n"), 3, "take them off with  sed -i 's/\\r$//' FILE"),
    ("replay", "\xef\xbb\xbf" + CHAIN, 3, "a byte order mark"),
    ("replay", f"{CHAIN}fund 1 1 \n", 3, "ends with a blank"),
    ("replay", f"{CHAIN}fund\t1 1\n", 3, "it has a tab (behind 'fund')"),
    ("replay", f"{CHAIN}fund 1 1", 0, ""),
    ("replay", f"{CHAIN}fund 01 1\n", 3, "a number has one spelling: 1"),
    ("replay", f"{CHAIN}fund 1 99999999999999999999\n", 3, "is more than 18446744073709551615"),
    ("replay", f"{CHAIN}fund 1 -5\n", 3, "'-5' is below 0"),
    ("replay", f"{CHAIN}fund 1 1,000\n", 3, "write 1000"),
    ("replay", f"{CHAIN}call 22 deposit 300 {KEY.replace('5', 'A')}\n", 3, "has a big letter, 'A'"),
    ("replay", f"{CHAIN}call 22 deposit 300 0x00\n", 3, "112 stand here, for 56 bytes"),
    ("replay", f"{CHAIN}call 22 deposit 300 bob\n", 3, "no line before declares 'bob'"),
    ("replay", f"{CHAIN}wallet a 11 1\nwallet b 12 1\n", 3, "two wallets with one seed have one key"),
    ("replay", MANY, 3, "a schedule has at most 64 wallets"),
    ("replay", f"{CHAIN}wallet bob 11 1\naccept bob #99\n", 0, "#99 as <bytes> stands for no bytes"),
    ("replay", f"{CHAIN}call 22 deposit 300 {KEY}\n", 0, "line 2 is refused no-funds 0 300: the account has less"),
]
# The same of a wallet's run, in the folder of a wallet; and what a refusal of it means.
WALLET = [
    ("--\nwhoo\n", 3, "did you mean 'who'?"),
    ("--\nstate bob\n", 3, "give the number of the coin"),
    ("--\nsend 1 bob 3\n", 3, "give what 'who' answers in the receiver's folder"),
    ("--\nsend 1 0x00 3\n", 3, "128 stand here, for 64 bytes"),
    ("--\r\nwho\r\n", 3, "carriage return"),
    ("who\n", 3, "commands stand behind the line '--'"),
    ("", 3, "the line '--' isn't there"),
    ("--\nseal\n", 3, "'seal' is an operator's command"),
    ("--\naccept #4\n", 3, "give the hex itself"),
    (f"--\nsend 1 {OWNER}\n", 1, "the wallet doesn't hold the coin. What to do: state says what it is"),
]
# What a processor tells: of one that has all that x86-64-v3 takes, and of others.
ALL = "fpu pni ssse3 fma cx16 sse4_1 sse4_2 movbe popcnt xsave avx f16c lahf_lm abm bmi1 avx2 bmi2 avx512f"
TOLD = [
    (f"processor\t: 0\nvmx flags\t: vnmi\nflags\t\t: {ALL}\n\nprocessor\t: 1\nflags\t\t: fpu\n", ""),
    (f"flags\t\t: {ALL.replace(' avx2', '')}\n\nflags\t\t: {ALL}\n", "avx2"),
    (f"flags : {ALL.replace('avx2 bmi2', 'AVX2 bmi22')}", "avx2 bmi2"),
    (f"Features\t: {ALL}\n", None),
    (f"flags:{ALL}\n", None),
    ("flags\t\t:\n", None),
    ("flags", None),
    ("", None),
]


class Processor(unittest.TestCase):
    @staticmethod
    def lacking(path):
        words = ["bash", "-uc", '. "$0" && look_at_processor "$1" && echo "$lacking"', f"{HERE}/processor.bash", path]
        done = subprocess.run(words, capture_output=True, text=True, check=False)
        return done.returncode, done.stdout.strip(), done.stderr

    def test_what_a_processor_lacks(self):
        with tempfile.TemporaryDirectory() as room:
            whole = self.lacking(f"{room}/none")[1]
            self.assertEqual((len(whole.split()), self.lacking(room)), (16, (0, whole, "")))
            for text, lacks in TOLD:
                with open(f"{room}/cpuinfo", "w", encoding="utf-8") as file:
                    file.write(text)
                self.assertEqual(self.lacking(f"{room}/cpuinfo"), (0, whole if lacks is None else lacks, ""), text)

    def test_which_program_is_taken_here(self):
        env = {name: it for name, it in os.environ.items() if not name.startswith("PLASMA_")}
        said, other = (subprocess.run([LAUNCHER, "--where"], capture_output=True, text=True, check=True,
                                      env={**env, **more}).stdout for more in ({}, {"PLASMA_WIDE": "0"}))
        _, lacks, _ = self.lacking("/proc/cpuinfo")
        self.assertNotRegex(other, r"plasma\.wide|wide\.gz")
        if not other.startswith("/"):
            self.skipTest("no proved program is here")
        self.assertIn("it is for every x86-64 processor, since PLASMA_WIDE=0 asks for that", other)
        self.assertIn(f"and this one lacks {lacks}" if lacks else "AVX2", said)
        with open(f"{TOP}/examples/old-owner-exits/expected", encoding="utf-8") as file:
            expected = file.read()
        for more in ({}, {"PLASMA_WIDE": "0"}):
            with open(f"{TOP}/examples/old-owner-exits/input", "rb") as schedule:
                done = subprocess.run([LAUNCHER, "replay"], stdin=schedule, capture_output=True, text=True,
                                      env={**env, **more}, check=False)
            self.assertEqual((done.returncode, done.stdout), (0, expected))


class Launched(unittest.TestCase):
    @classmethod
    def setUpClass(cls):
        unpacked = Program()
        program = unpacked.__enter__()
        cls.addClassCleanup(unpacked.__exit__)
        if not program:
            raise unittest.SkipTest("no proved program is here")
        room = tempfile.TemporaryDirectory(dir=os.environ.get("TMPDIR", "/var/tmp"))
        cls.addClassCleanup(room.cleanup)
        cls.room = room.name
        cls.env = {name: it for name, it in os.environ.items() if not name.startswith("PLASMA_")}
        cls.env.update(PLASMA_PROGRAM=program, PLASMA_MARKS=f"{cls.room}/marks")
        os.makedirs(f"{cls.room}/wallet")
        cls.run_in("wallet", ["init", "wallet", f"0x{1:064x}", "11", f"0x{101:064x}"], "")

    @classmethod
    def run_in(cls, folder, words, text, **env):
        """Runs the launcher with input and both outputs in files, as a script has them; its status and its log."""
        place = os.path.join(cls.room, folder)
        with open(f"{cls.room}/in", "w", encoding="latin-1") as file:
            file.write(text)
        with open(f"{cls.room}/in", "rb") as given, open(f"{cls.room}/out", "wb") as out:
            done = subprocess.run([LAUNCHER, *words], stdin=given, stdout=out, stderr=subprocess.PIPE, cwd=place,
                                  env={**cls.env, **env}, check=False)
        return done.returncode, done.stderr.decode()

    def holds(self, found, status, part, what):
        """The status, and a log whose lines say each one thing, the reason among them."""
        self.assertEqual(found[0], status, what)
        lines = found[1].splitlines()
        self.assertLessEqual(len(lines), 2 if status in (4, 9) else 1, found[1])
        self.assertTrue(all(line.startswith("plasma: ") for line in lines), found[1])
        self.assertIn(part, found[1], what)
        self.assertEqual(bool(part), bool(lines), what)

    def test_each_wrong_input_has_its_reason_in_a_log(self):
        for words, text, status, part in TYPED:
            self.holds(self.run_in(".", words.split(), text), status, part, (words, text[:60]))

    def test_each_wrong_line_of_a_wallet_has_its_reason_in_a_log(self):
        for text, status, part in WALLET:
            text = LOG.replace("\n", "\r\n" if "\r" in text else "\n") + text
            self.holds(self.run_in("wallet", ["wallet"], text), status, part, text)
        self.holds(self.run_in("wallet", ["wallet"], f"{CHAIN}--\nwho\n"), 3, "a log has the hex of 32 bytes", CHAIN)

    def test_streams(self):
        shutil.copy(LAUNCHER, f"{self.room}/copied")
        for typed, status, part in (
            (f"'{LAUNCHER}' replay < none", 1, "none: No such file"),
            (f"'{LAUNCHER}' replay < /", 4, "standard input is a folder"),
            (f"'{LAUNCHER}' replay <&-", 4, "standard input is closed"),
            (f"'{LAUNCHER}' replay > /dev/full < in", 5, "a full device"),
            (f"PLASMA_PROGRAM='{BIN}/plasma' '{LAUNCHER}' replay < in", 125, "this launcher itself"),
            ("unset PLASMA_PROGRAM; ./copied replay < in", 125, "a copy of it alone is no use"),
            (f"(echo {CHAIN.strip()}; yes fund 1 1 | head -n 20000) | '{LAUNCHER}' replay | head -n 1", 0, ""),
            (f"'{LAUNCHER}' --help | head -n 1", 0, ""),
        ):
            with open(f"{self.room}/in", "w", encoding="utf-8") as file:
                file.write(CHAIN)
            done = subprocess.run(["bash", "-c", typed], capture_output=True, text=True, cwd=self.room, env=self.env,
                                  check=False)
            self.assertEqual(done.returncode, status, typed)
            self.assertIn(part, done.stderr, typed)
            self.assertEqual(bool(part), bool(done.stderr), typed)

    def test_a_terminal(self):
        master, slave = pty.openpty()
        self.addCleanup(os.close, master)
        run = subprocess.Popen([LAUNCHER, "replay"], stdin=slave, stdout=subprocess.PIPE, stderr=subprocess.PIPE,
                               cwd=self.room, env=self.env)
        os.close(slave)
        os.write(master, CHAIN.encode() + b"\x04")
        out, said = run.communicate(timeout=120)
        self.assertEqual((run.returncode, out), (0, b"1 chain\nno exhibit\n"))
        self.assertIn(b"end it with Ctrl-D", said)

    def test_what_is_asked_for_goes_to_standard_output(self):
        for words, part in ((["--help"], "Its forms:"), (["-h"], "Its forms:"), (["--help", "wallet"], "state <coin>"),
                            (["help", "make"], "plasma make <seed> <count>"), (["--version"], "plasma"),
                            (["--where"], "PLASMA_PROGRAM names it")):
            self.assertEqual(self.run_in(".", words, ""), (0, ""))
            with open(f"{self.room}/out", encoding="utf-8") as file:
                self.assertIn(part, file.read(), words)

    def test_silent_and_whole(self):
        for words, text, status, part in TYPED[1:]:
            if status != 9:
                self.assertEqual(self.run_in(".", words.split(), text, PLASMA_HINTS="0"), (status, ""), text[:60])
        _, said = self.run_in(".", ["make", "7"], "", PLASMA_HINTS="1")
        self.assertGreater(len(said.splitlines()), 4)
