"""The tests of tools/make_node, tools/verify_node and the run of an operator, for tools/test; and what those of the
marks begin with (mark_tests.py). What needs the proved program isn't tried where there is none.
"""
import gzip
import os
import pty
import re
import shutil
import subprocess
import tempfile
import unittest

import checking
import log_read
import marking
import marks
import node_files

HERE = os.path.dirname(os.path.abspath(__file__))
TOP = os.path.dirname(HERE)
TAG, SEED = (1).to_bytes(32, "big"), (101).to_bytes(32, "big")
CHAIN = f"chain 0x{TAG.hex()} 9 100\n"
WALLET = node_files.identity_bytes("wallet", TAG, 11, (5, 4), SEED)
WATCHER = node_files.identity_bytes("watcher", TAG, 14, None, None)


def transfer(coin, last=9):
    """A body of a transfer of a coin, from its block 1."""
    rest = coin.to_bytes(8, "big") + (1).to_bytes(8, "big") + bytes([coin]) * 64
    return b"PCT2" + TAG + rest + last.to_bytes(8, "big")


def leaves(*coins):
    """A journal of leaves with transfers of these coins."""
    numbered = (place.to_bytes(4, "big") + transfer(coin) for place, coin in enumerate(coins))
    return node_files.spelled(node_files.MARKER, *numbered)


def unpacked(room):
    """The proved program as a file, or None."""
    where = subprocess.run([f"{TOP}/plasma", "--where"], capture_output=True, text=True, check=False).stdout
    found = re.match(r"(/.*?)(?:: proved on|: PLASMA_PROGRAM|, with the SHA-256)", where)
    if not found or not found[1].endswith(".gz"):
        return found and found[1]
    with gzip.open(found[1]) as packed, open(f"{room}/program", "wb") as file:
        file.write(packed.read())
    os.chmod(f"{room}/program", 0o700)
    return f"{room}/program"


class Room(unittest.TestCase):
    """A folder for a node, and one for its marks."""

    def setUp(self):
        self.room = os.path.realpath(tempfile.mkdtemp())
        self.addCleanup(shutil.rmtree, self.room)
        self.node, self.env = f"{self.room}/node", {**os.environ, "PLASMA_MARKS": f"{self.room}/marks"}
        os.mkdir(self.node)

    def put(self, folder=None, **images):
        """Puts journals there."""
        for name, image in images.items():
            with open(f"{folder or self.node}/{name}.journal", "wb") as file:
                file.write(image)
            os.chmod(f"{folder or self.node}/{name}.journal", 0o600)

    def typed(self, tool, *words, folder=None, **how):
        return subprocess.run([f"{HERE}/{tool}", *words], capture_output=True, text=True, timeout=60, check=False,
                              env=self.env, cwd=folder or self.node, **how)

    def keeper(self):
        return marks.Marks(f"{self.room}/marks")

    def mark(self, folder=None):
        marking.renew(self.keeper(), folder or self.node, is_new=True)

    def refused(self, folder=None):
        """What is said of the folder; nothing where it goes on from its mark."""
        try:
            marking.looked_at(self.keeper(), folder or self.node)
            return ""
        except marks.Refused as error:
            return "\n".join(error.args[0])


class Nodes(Room):
    """What needs the program."""

    @classmethod
    def setUpClass(cls):
        cls.bin = tempfile.mkdtemp()
        cls.addClassCleanup(shutil.rmtree, cls.bin)
        cls.program = unpacked(cls.bin)

    def setUp(self):
        super().setUp()
        if not self.program:
            self.skipTest("no proved program is here")
        self.log = CHAIN

    def plasma(self, *words, folder=None, input="", **how):
        """A run of the program alone."""
        return subprocess.run([self.program, *words], input=input, capture_output=True, text=True, timeout=60,
                              cwd=folder or self.node, check=False, **how)

    def run_of(self, role, *lines, folder=None):
        done = self.plasma(role, folder=folder, input=self.log + "--\n" + "".join(f"{line}\n" for line in lines))
        self.assertEqual(done.returncode, 0, done.stdout)
        return done.stdout.splitlines()

    def made(self, name, *words):
        folder = f"{self.room}/{name}"
        os.makedirs(folder, exist_ok=True)
        self.assertEqual(self.plasma(*words, folder=folder).stdout, "made\n")
        return folder

    def test_make_node_and_init_make_equal_files(self):
        tag, seed = f"0x{TAG.hex()}", f"0x{SEED.hex()}"
        with open(f"{self.room}/seed", "w", encoding="utf-8") as file:
            file.write(f"{seed}\n")
        for number, (init, make) in enumerate((
            (["init", "wallet", tag, "11", seed], ["wallet", tag, "11"]),
            (["init", "wallet", tag, "11", seed, "6", "3"], ["wallet", tag, "11", "6", "3"]),
            (["init", "operator", tag, "9", seed], ["operator", tag, "9"]),
            (["init", "operator", tag, "9"], ["operator", tag, "9", "--without-key"]),
            (["init", "watcher", tag, str(2**64 - 1)], ["watcher", tag, str(2**64 - 1)]),
            (["hss", "init", seed], ["signer"]),
        )):
            folder, other = self.made(f"init{number}", *init), f"{self.room}/make{number}"
            os.mkdir(other)
            words = make if seed not in init else [*make, "--seed-from", f"{self.room}/seed"]
            # (not all of one seed may be marked)
            self.env["PLASMA_MARKS"] = f"{self.room}/marks{number}"
            self.assertEqual(self.typed("make_node", *words, folder=other).stdout, "made\n")
            self.assertEqual(marks.images_in(folder), marks.images_in(other), init)
            self.assertEqual({os.stat(f"{other}/{name}").st_mode & 0o777 for name in os.listdir(other)}, {0o600})
            self.assertEqual(self.typed("mark", "check", folder=other).stderr, "")

    def test_make_node_takes_new_files_and_new_seeds_alone(self):
        tag = f"0x{TAG.hex()}"
        self.assertEqual(self.typed("make_node", "wallet", tag, "11").stdout, "made\n")
        self.assertIn("already", self.typed("make_node", "wallet", tag, "11").stderr)
        seed = node_files.identity_in(marks.images_in(self.node)["notes.journal"]).seed
        with open(f"{self.room}/seed", "wb") as file:
            file.write(seed)
        os.mkdir(f"{self.room}/other")
        done = self.typed("make_node", "wallet", tag, "11", "--seed-from", f"{self.room}/seed",
                          folder=f"{self.room}/other")
        self.assertIn("this seed has a wallet of account 11 already", done.stderr)
        self.assertEqual(os.listdir(f"{self.room}/other"), [])
        for words in (("wallet",), ("wallet", tag), ("wallet", "0x1", "11"), ("wallet", tag, "011"),
                      ("owner", tag, "1"), ("wallet", tag, "11", f"0x{SEED.hex()}")):
            done = self.typed("make_node", *words, folder=f"{self.room}/other")
            self.assertNotEqual(done.returncode, 0, words)
            self.assertNotIn(SEED.hex(), done.stderr)
        self.assertEqual(os.listdir(f"{self.room}/other"), [])

    def test_a_seed_is_asked_for_at_a_terminal(self):
        one, other = pty.openpty()
        begun = subprocess.Popen([f"{HERE}/make_node", "signer", "--ask-seed"], stdin=other, stdout=subprocess.PIPE,
                                 stderr=other, cwd=self.node, env=self.env, start_new_session=True,
                                 preexec_fn=lambda: os.close(os.open(os.ttyname(other), os.O_RDWR)))
        os.close(other)
        said = os.read(one, 100)
        os.write(one, SEED.hex().encode() + b"\n")
        self.assertEqual(begun.communicate(timeout=60)[0], b"made\n")
        self.assertIn(b"seed", said)
        os.close(one)
        self.assertEqual(node_files.identity_in(marks.images_in(self.node)["notes.journal"]).seed, SEED)

    def world(self):
        """A wallet that was paid and has sent, an operator that has promised, and a watcher, with their log."""
        tag = f"0x{TAG.hex()}"
        ann = self.made("ann", "init", "wallet", tag, "11", f"0x{SEED.hex()}")
        bob = self.made("bob", "init", "wallet", tag, "12", f"0x{102:064x}")
        desk = self.made("desk", "init", "operator", tag, "9", f"0x{109:064x}")
        guard = self.made("guard", "init", "watcher", tag, "14")
        (owner,), (payee,) = self.run_of("wallet", "who", folder=ann), self.run_of("wallet", "who", folder=bob)
        self.log += "fund 11 1000\n" + f"call 11 deposit 300 0x{owner[18:]}\n" * 3
        _, _, first, _, second = self.run_of("wallet", "migrate", f"send 1 {payee} 9", f"send 2 {payee} 9", folder=ann)
        self.run_of("operator", "migrate", folder=desk)
        commit = self.run_of("operator", f"receipt {first} 9", "seal", folder=desk)[-1]
        self.log += f"{commit}\n"
        history = self.run_of("operator", "bundle 1 0", folder=desk)[-1]
        self.run_of("wallet", f"accept {history}", "migrate", f"send 1 {owner} 9", folder=bob)
        self.run_of("watcher", f"guard {history}", folder=guard)
        with open(f"{self.room}/log", "w", encoding="utf-8") as file:
            file.write(self.log)
        return {"ann": ann, "bob": bob, "desk": desk, "guard": guard}, second

    def faults(self, folder, reads_seed=True):
        """What is found, as lines. (Inside this process a key is made once.)"""
        with open(f"{self.room}/log", encoding="utf-8") as file:
            found = checking.Check(marks.images_in(folder), log_read.Log(file.read()), reads_seed).run()
        return "".join(f"{it.journal}: {it.what}: {it.money}\n" for it in found)

    def test_verify_node_as_a_person_types_it(self):
        nodes, _ = self.world()
        done = self.typed("verify_node", "--without-seed", nodes["ann"], f"{self.room}/log")
        self.assertEqual((done.returncode, done.stdout, done.stderr), (0, "", ""))
        os.remove(f"{nodes['bob']}/leaves.journal")
        done = self.typed("verify_node", nodes["bob"], f"{self.room}/log")
        self.assertEqual((done.returncode, done.stderr), (1, ""))
        self.assertRegex(done.stdout, r"^leaves.journal byte 0: the file isn't there. On it rests: .*\n$")
        for words, part in (([], "usage"), ([nodes["ann"], "none"], "No such file"), (["--fast", "x"], "usage")):
            done = self.typed("verify_node", *words)
            self.assertEqual((done.returncode, done.stdout), (2, ""))
            self.assertIn(part, done.stderr)
        self.assertIn("notes.journal byte 0", self.typed("verify_node", self.room).stdout)

    def test_verify_node_finds_what_changed(self):
        nodes, _ = self.world()
        for name, folder in nodes.items():
            self.assertEqual(self.faults(folder), "", name)
            self.assertEqual(self.faults(folder, reads_seed=False), "", name)
        for name, journal, place, part in (
            ("ann", "leaves", 13, "a gate changed"),
            ("ann", "leaves", 30, "no transfer of this chain"), ("ann", "leaves", 65, "never this key's"),
            ("bob", "notes", 200, "the history of coin 1, block 4: it doesn't open this block"),
            ("bob", "notes", 90, "the log has no coin"), ("guard", "notes", 400, "doesn't open"),
            ("desk", "notes", 300, "no sealed tree has the root of block 4"),
            ("desk", "leaves", 80, "no offer in the notes"),
            ("desk", "notes", 82, "a gate changed"), ("bob", "leaves", 2, "no journal"),
        ):
            images = marks.images_in(nodes[name])
            changed = bytearray(images[f"{journal}.journal"])
            changed[place] ^= 1
            self.put(folder=nodes[name], **{journal: bytes(changed)})
            found = self.faults(nodes[name])
            self.assertIn(part, found, (name, journal, place))
            self.put(folder=nodes[name], **{journal: images[f"{journal}.journal"]})

    def test_verify_node_finds_old_leaves(self):
        nodes, second = self.world()
        shutil.copytree(nodes["ann"], f"{self.room}/old")
        # (an exit of coin 2 shows what leaf 1 has signed)
        self.run_of("operator", f"offer {second}", folder=nodes["desk"])
        commit = self.run_of("operator", "seal", folder=nodes["desk"])[-1]
        self.log += f"{commit}\n"
        opening = self.run_of("operator", "prove 2 5", folder=nodes["desk"])[-1]
        with open(f"{self.room}/log", "a", encoding="utf-8") as file:
            file.write(f"{commit}\ncall 50 after 2 2 5 {opening}\n")
        self.assertEqual(self.faults(nodes["ann"]), "")
        images = marks.images_in(f"{self.room}/old")
        self.put(folder=f"{self.room}/old", leaves=node_files.spelled(
            *(it.bytes for it in node_files.Journal(images["leaves.journal"]).records[:2])))
        self.assertIn("leaf 1 has signed a transfer of coin 2 that isn't its message", self.faults(f"{self.room}/old"))

    def test_a_batch_of_receipts_loses_one(self):
        nodes, second = self.world()
        desk = nodes["desk"]
        (payee,) = self.run_of("wallet", "who", folder=nodes["bob"])
        third = self.run_of("wallet", f"send 3 {payee} 9", folder=nodes["ann"])[-1]
        text = f"{self.log}--\nreceipt {second} 9\nreceipt {third} 9\n"
        shutil.copytree(desk, f"{self.room}/bare")
        with open("/dev/full", "wb") as full:
            bare = subprocess.run([self.program, "operator"], input=text.encode(), stdout=full, cwd=f"{self.room}/bare",
                                  check=False)
            self.mark(desk)
            done = subprocess.run([f"{HERE}/run_node", self.program, "operator"], input=text.encode(), stdout=full,
                                  cwd=desk, env=self.env, check=False)
        self.assertEqual((bare.returncode, done.returncode), (5, 5))
        self.assertEqual(self.typed("operator_key", "--left", f"{self.room}/bare").stdout, "29 of 32 leaves are left\n")
        self.assertEqual(self.typed("operator_key", "--left", desk).stdout, "30 of 32 leaves are left\n")
        receipts = self.typed("verify_node", "--receipts", desk).stdout.splitlines()
        key = self.typed("operator_key", desk).stdout.strip()
        self.assertEqual(receipts[::2], ["promised 3 9", "promised 4 9"])
        audit = self.plasma("audit", key, receipts[-1], input=f"{self.log}--\n0x\n")
        self.assertEqual(audit.stdout, "refused not-yet 9\n")

    def test_an_init_is_marked_and_a_seed_is_used_once(self):
        words = ["init", "wallet", f"0x{TAG.hex()}", "11", f"0x{SEED.hex()}"]
        shell = f"exec {HERE}/run_node --init {self.program} 3< {self.room}/words"
        with open(f"{self.room}/words", "wb") as file:
            file.write(b"".join(word.encode() + b"\0" for word in words))

        def init(folder):
            os.makedirs(folder, exist_ok=True)
            return subprocess.run(["sh", "-c", shell], capture_output=True, text=True, env=self.env, cwd=folder,
                                  timeout=60, check=False)

        self.assertEqual(init(self.node).stdout, "made\n")
        self.assertEqual(self.typed("mark", "check").returncode, 0)
        self.assertEqual(init(self.node).stdout, "already made 83\n")
        done = init(f"{self.room}/other")
        self.assertEqual((done.returncode, done.stdout), (125, ""))
        self.assertIn("A seed is for one folder", done.stderr)
        # an init that was killed in front of the mark
        shutil.rmtree(f"{self.room}/marks")
        self.assertEqual(init(self.node).returncode, 10)
        self.assertEqual(self.typed("mark", "check").returncode, 0)
