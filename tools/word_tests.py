"""The tests of tools/forms, for tools/test: what is said of words that are no form."""
import os
import re
import subprocess
import unittest

from grammar import TOP, Grammar
from testing import HERE, script

GRAMMAR, FORMS = Grammar(), script("forms")


def typed(name, *words):
    return subprocess.run([f"{HERE}/{name}", *words], capture_output=True, text=True, timeout=600, check=False)


def text_of(path):
    with open(path, encoding="utf-8") as file:
        return file.read()


TAG = "0x" + "0" * 64
# Words that are no form, and a part of what is said of them.
WORDS = [
    ("", "there are no words"),
    ("--help", "Its forms:"),
    ("-h", "Its forms:"),
    ("help make", "plasma make <seed> <count>"),
    ("--version", "./plasma --where says which program"),
    ("repaly", "did you mean 'replay'?"),
    ("Replay", "did you mean 'replay'?"),
    ("replay README.md", "'replay' takes no further word, and reads standard input: 'plasma replay < README.md'"),
    ("replay tools/why", "'plasma replay < tools/why' reads that file"),
    ("tools/why", "plasma replay < tools/why"),
    ("make 7", "<count> is missing"),
    ("make 7 10001", "<count>: '10001' is more than 10000"),
    ("make 07 1", "<seed>: '07' has a zero in front"),
    ("make 7 1 1", "'1' is a word too many"),
    ("verify 0xAB 0x 0x", "<key>: '0xAB' has a big letter"),
    ("verify 0x 0x", "<signature> is missing"),
    ("init", "'init' needs a second word: wallet or operator or watcher"),
    ("init walet", "Did you mean 'init wallet'?"),
    ("init wallet 0x1 11 0x65", "<tag>: '0x1' has 1 digit behind 0x, and 64 stand here, for 32 bytes"),
    (f"init wallet {TAG} 11 0x65", "<seed>: what was typed has 2 digits behind 0x"),
    (f"init wallet {TAG} 11 {TAG} 5", "<ots> is missing: <lms> <ots> go together"),
    (f"init operator {TAG} 9 0x65", "<seed>: what was typed has 2 digits behind 0x"),
    (f"init operator {TAG} 9 {TAG} 5", "'5' is a word too many"),
    (f"init wallet {TAG} 11 {TAG} 6 5", "<ots>: it is 3 or 4"),
    (f"init watcher {TAG} 11 {TAG}", "is a word too many"),
    ("wallet ann", "'wallet' takes no further word"),
    ("archive ann", "'archive' takes no further word"),
    ("hss", "'hss' needs a second word: init or sign or verify"),
    ("hss sing 0x61", "Did you mean 'hss sign'?"),
    ("hss init 0x65", "<seed>: what was typed has 2 digits behind 0x"),
    ("hss sign", "<message> is missing"),
    ("hss sign 61", "<message>: '61' has no 0x in front"),
    ("hss verify 0x 0x", "<signature> is missing"),
    ("audit 0x 0x", "<key>: '0x' has 0 digits behind 0x, and 112 stand here, for 56 bytes"),
    (f"audit {TAG}{'0' * 48} 0x 0x", "'0x' is a word too many"),
    ("audti", "did you mean 'audit'?"),
]
RIGHT_WORDS = [
    "replay", "brief", "make 7 10000", "verify 0x 0x 0xab", "wallet", "operator", "watcher", f"init operator {TAG} 9",
    f"init operator {TAG} 9 {TAG}", f"init watcher {TAG} 9", f"init wallet {TAG} 11 {TAG}",
    f"init wallet {TAG} 11 {TAG} 6 3", f"hss init {TAG}", "hss sign 0x", "hss verify 0x 0x 0x",
    f"audit {TAG}{'0' * 48} 0x", "archive",
]


class Words(unittest.TestCase):
    def test_each_wrong_word_is_told(self):
        before = os.getcwd()
        self.addCleanup(os.chdir, before)
        os.chdir(TOP)
        for words, part in WORDS:
            said = "\n".join(FORMS.explain(words.split(), GRAMMAR))
            self.assertIn(part, said, words)

    def test_forms(self):
        for words in RIGHT_WORDS:
            self.assertFalse(FORMS.explain(words.split(), GRAMMAR), words)

    def test_as_a_person_types_them(self):
        done = typed("forms", "replay")
        self.assertEqual((done.returncode, done.stdout, done.stderr), (0, "", ""))
        done = typed("forms", "repaly")
        self.assertEqual((done.returncode, done.stdout), (1, ""))
        self.assertIn("did you mean 'replay'?", done.stderr)

    def test_the_program_s_answer(self):
        done = typed("forms", "--answer", "repaly")
        self.assertEqual((done.returncode, done.stdout), (2, GRAMMAR.usage + "\n"))
        source = "".join(text_of(f"{TOP}/crates/{it}") for it in ("run_cases/data/usage",))
        self.assertIn(GRAMMAR.usage, source)

    def test_the_usage_line_names_the_forms(self):
        names = re.fullmatch(r"usage: plasma (.*)", GRAMMAR.usage)[1].split(" | ")
        self.assertEqual(sorted(names), sorted({words[0] for words, _, _ in GRAMMAR.forms}))
