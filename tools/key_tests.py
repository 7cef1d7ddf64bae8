"""The tests of tools/hss_key and tools/operator_key, for tools/test."""
import os
import subprocess
import tempfile
import unittest

from testing import HERE

EXAMPLE = f"{os.path.dirname(HERE)}/examples/broken-promise/words"


def typed(name, *words):
    return subprocess.run([f"{HERE}/{name}", *words], capture_output=True, text=True, timeout=600, check=False)


class SignersKey(unittest.TestCase):
    # The public key of the seed 7 (the program finds signatures of that signer valid under it).
    key = ("0x00000002000000050000000448428bdb7ddd829410d6bbb924fdeb3a0bbfc2a67764888a322497ba51fbc375e4f597720bbf569c"
           "b38defcebb18bf32")

    def test_it_is_made_of_the_seed(self):
        with tempfile.TemporaryDirectory() as room:
            identity = bytes([0x31]) + (7).to_bytes(32, "big")
            for behind in (b"\0", b"\0\xa5"):
                with open(f"{room}/notes.journal", "wb") as file:
                    file.write(bytes.fromhex("50474a31a500000021") + identity + behind)
                done = typed("hss_key", room)
                self.assertEqual((done.returncode, done.stdout, done.stderr), (0, self.key + "\n", ""))

    def test_where_there_is_no_signer(self):
        with tempfile.TemporaryDirectory() as room:
            done = typed("hss_key", room)
            self.assertEqual((done.returncode, done.stdout), (1, ""))
            self.assertIn("No such file", done.stderr)
            for image in (b"", b"PGJ1\0", bytes.fromhex("50474a31a500000021") + bytes([1] * 33) + b"\0"):
                with open(f"{room}/notes.journal", "wb") as file:
                    file.write(image)
                done = typed("hss_key", room)
                self.assertEqual((done.returncode, done.stdout), (1, ""))
                self.assertIn("no signer's identity", done.stderr)
        self.assertEqual(typed("hss_key", "a", "b").returncode, 2)


class OperatorsKey(unittest.TestCase):
    # An operator's identity with a key: 26, the tag, the account 9 and the seed; and one without.
    head, tag = bytes.fromhex("50474a31a500000049"), (1).to_bytes(32, "big") + (9).to_bytes(8, "big")
    without = bytes.fromhex("50474a31a500000029") + b"\x21" + tag + b"\0"

    def key_of(self, room, image):
        with open(f"{room}/notes.journal", "wb") as file:
            file.write(image)
        return typed("operator_key", room)

    def test_it_is_the_top_key_of_a_signer_with_this_seed(self):
        with tempfile.TemporaryDirectory() as room:
            for behind in (b"\0", b"\xa5\0\0\0\x01\x24\0"):
                done = self.key_of(room, self.head + b"\x26" + self.tag + (7).to_bytes(32, "big") + behind)
                key = "0x" + SignersKey.key[len("0x00000002") :] + "\n"
                self.assertEqual((done.returncode, done.stdout, done.stderr), (0, key, ""))

    def test_it_is_the_key_of_an_example(self):
        with tempfile.TemporaryDirectory() as room:
            done = self.key_of(room, self.head + b"\x26" + self.tag + (109).to_bytes(32, "big") + b"\0")
            with open(EXAMPLE, encoding="utf-8") as file:
                self.assertEqual(done.stdout.strip(), file.read().split()[1])

    def test_where_there_is_none(self):
        with tempfile.TemporaryDirectory() as room:
            done = typed("operator_key", room)
            self.assertEqual((done.returncode, done.stdout), (1, ""))
            self.assertIn("No such file", done.stderr)
            for image in (b"", b"PGJ1\0", self.without, self.head + b"\x26" + self.tag):
                done = self.key_of(room, image)
                self.assertEqual((done.returncode, done.stdout), (1, ""))
                self.assertIn("no operator with a key", done.stderr)
        self.assertEqual(typed("operator_key", "a", "b").returncode, 2)
