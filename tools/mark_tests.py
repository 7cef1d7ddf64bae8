"""The tests of the marks, tools/burn_leaves and tools/run_node, for tools/test."""
import fcntl
import os
import shutil
import signal
import subprocess
import sys
import threading
import time

import marking
import marks
import node_files
from node_tests import CHAIN, HERE, TAG, WALLET, WATCHER, Room, leaves


class Marked(Room):
    def setUp(self):
        super().setUp()
        self.put(notes=node_files.spelled(WALLET), leaves=leaves(1, 2))
        self.mark()

    def test_journals_only_grow(self):
        self.assertEqual(self.refused(), "")
        self.put(leaves=leaves(1, 2, 3))
        self.assertEqual(self.refused(), "")
        marking.renew(self.keeper(), self.node)
        self.put(leaves=leaves(1, 2))
        self.assertRegex(self.refused(), r"leaves.journal is an old copy of 20.*: it ends at byte 279")

    def test_a_torn_record_behind_the_end_is_no_alarm(self):
        self.put(leaves=leaves(1, 2) + b"\0\0\0\x80" + bytes(50))
        self.assertEqual(self.refused(), "")

    def test_what_it_looks_like(self):
        other = node_files.identity_bytes("wallet", TAG, 12, (5, 4), bytes(32))
        for said, images in (
            ("leaves.journal is an old copy", {"leaves": leaves(1)}),
            ("leaves.journal isn't what the last run left, from byte 64 on", {"leaves": leaves(7, 8)}),
            ("that of another node, a wallet of account 11", {"notes": node_files.spelled(other)}),
            ("leaves.journal was changed in 1 place(s), first between bytes 96 and 128",
             {"leaves": leaves(1, 2)[:100] + b"x" + leaves(1, 2)[101:]}),
            ("behind this gate, which was open, stand records that no run would see",
             {"leaves": leaves(1, 2)[:13] + b"\xa4" + leaves(1, 2)[14:]}),
            ("notes.journal was changed", {"notes": b"x" + node_files.spelled(WALLET)[1:]}),
        ):
            self.put(notes=node_files.spelled(WALLET), leaves=leaves(1, 2))
            self.put(**images)
            self.assertIn(said, self.refused())
            self.assertIn("Don't run this folder", self.refused())
        os.remove(f"{self.node}/leaves.journal")
        self.assertIn("leaves.journal is gone", self.refused())

    def test_each_bit_of_both_files(self):
        images = {"notes": node_files.spelled(WALLET), "leaves": leaves(1, 2)}
        taken = []
        for name, image in images.items():
            for bit in range(8 * len(image)):
                changed = bytearray(image)
                changed[bit // 8] ^= 1 << bit % 8
                self.put(**{**images, name: bytes(changed)})
                if not self.refused():
                    taken.append((name, bit // 8))
        # (the end byte alone: whatever it is but an open gate, the journal ends there)
        self.assertEqual(set(taken), {("notes", len(images["notes"]) - 1), ("leaves", len(images["leaves"]) - 1)})

    def test_a_copy_that_is_run_leaves_the_other_one_behind(self):
        shutil.copytree(self.node, f"{self.room}/copy")
        self.assertEqual(self.refused(f"{self.room}/copy"), "")
        self.put(folder=f"{self.room}/copy", leaves=leaves(1, 2, 3))
        marking.renew(self.keeper(), f"{self.room}/copy")
        self.assertIn("old copy", self.refused())

    def test_a_node_without_a_key_has_a_mark_for_each_folder(self):
        for name in ("one", "two"):
            os.mkdir(f"{self.room}/{name}")
            self.put(folder=f"{self.room}/{name}", notes=node_files.spelled(WATCHER))
            self.mark(f"{self.room}/{name}")
        self.put(folder=f"{self.room}/one", notes=node_files.spelled(WATCHER, b"\x13" + bytes(16)))
        marking.renew(self.keeper(), f"{self.room}/one")
        self.assertEqual(self.refused(f"{self.room}/two"), "")
        shutil.copytree(f"{self.room}/one", f"{self.room}/three")
        self.assertEqual(self.refused(f"{self.room}/three"), "")
        # (an older copy of `one` goes on from the mark of `two`, and is none of it)
        os.mkdir(f"{self.room}/old")
        self.put(folder=f"{self.room}/one", notes=node_files.spelled(WATCHER, b"\x13" + bytes(16), b"\x13" + bytes(16)))
        marking.renew(self.keeper(), f"{self.room}/one")
        self.put(folder=f"{self.room}/old", notes=node_files.spelled(WATCHER, b"\x13" + bytes(16)))
        self.assertIn("has no mark", self.refused(f"{self.room}/old"))
        self.put(folder=f"{self.room}/one", notes=node_files.spelled(WATCHER))
        self.assertIn("old copy", self.refused(f"{self.room}/one"))

    def test_a_mark_that_is_made_meanwhile_is_no_alarm(self):
        read, other = marks.images_in, threading.Thread(target=marking.renew, args=(self.keeper(), self.node))

        def read_too_early(folder):
            found = read(folder)
            if not other.ident:
                self.put(leaves=leaves(1, 2, 3))
                other.start()
                other.join(0.3)
            return found

        self.addCleanup(setattr, marks, "images_in", read)
        marks.images_in = read_too_early
        marking.in_front(self.keeper(), self.node)
        other.join()
        marks.images_in = read
        self.put(leaves=leaves(1, 2))
        self.assertIn("old copy", self.refused())

    def test_a_node_without_a_key_that_is_moved(self):
        shutil.rmtree(f"{self.room}/marks")
        for name in ("one", "old"):
            os.mkdir(f"{self.room}/{name}")
            self.put(folder=f"{self.room}/{name}", notes=node_files.spelled(WATCHER))
        self.mark(f"{self.room}/one")
        os.rename(f"{self.room}/one", f"{self.room}/two")
        self.assertEqual(self.refused(f"{self.room}/two"), "")
        self.put(folder=f"{self.room}/two", notes=node_files.spelled(WATCHER, b"\x13" + bytes(16)))
        marking.renew(self.keeper(), f"{self.room}/two")
        self.assertEqual(self.refused(f"{self.room}/two"), "")
        # (the mark of the folder that is gone takes nothing older any more)
        self.assertEqual(len([*self.keeper().all()]), 1)
        self.assertIn("has no mark", self.refused(f"{self.room}/old"))

    def test_a_mark_that_is_damaged_is_none(self):
        path = next(f"{self.room}/marks/{name}" for name in os.listdir(f"{self.room}/marks") if name != "lock")
        with open(path, "a", encoding="utf-8") as file:
            file.write("x")
        self.assertIn("is damaged", self.refused())

    def test_the_marks_of_others_are_not_believed(self):
        os.chmod(f"{self.room}/marks", 0o777)
        with self.assertRaises(marks.Refused):
            self.keeper()

    def test_adopting(self):
        self.assertIn("has its mark", self.typed("mark", "adopt").stdout)
        shutil.rmtree(f"{self.room}/marks")
        self.assertIn("has no mark", self.typed("mark", "check").stderr)
        for answers in ("", "yes\nno\n2\n", "no\nyes\n2\n", "no\nno\n3\n", "no\nno\nmany\n"):
            done = self.typed("mark", "adopt", input=answers)
            self.assertEqual(done.returncode, 1, answers)
            self.assertIn("not marked", done.stderr)
        self.assertIn("marked\n", self.typed("mark", "adopt", input="no\nno\n2\n").stdout)
        self.assertEqual(self.typed("mark", "check").stderr, "")
        self.assertIn("2 leaves used", self.typed("mark", "show").stdout)
        self.put(leaves=leaves(1))
        done = self.typed("mark", "adopt", input="no\nno\n1\n")
        self.assertEqual((done.returncode, done.stdout), (1, ""))
        self.assertIn("old copy", done.stderr)

    def test_using_leaves_up(self):
        self.put(leaves=leaves(1))
        yes = "yes\nno\nyes\n"
        for bound, answers, part in (("1", yes, "at least 2"), ("33", yes, "at most 32"), ("3", "no\n", "nothing was")):
            self.assertIn(part, self.typed("burn_leaves", ".", bound, input=answers).stderr)
        self.assertIn("old copy", self.refused())
        self.assertIn("the next one is 3", self.typed("burn_leaves", ".", "3", input=yes).stdout)
        self.assertEqual(self.refused(), "")
        self.assertEqual(self.typed("verify_node", ".").stdout, "")
        self.assertIn("nothing of it is lost", self.typed("burn_leaves", ".", "4", input=yes).stderr)


class AroundARun(Room):
    """tools/run_node with a program that is made up."""

    def setUp(self):
        super().setUp()
        self.put(notes=node_files.spelled(WALLET), leaves=leaves(1))
        self.mark()

    def program(self, text):
        with open(f"{self.room}/program", "w", encoding="utf-8") as file:
            file.write(f"#!/bin/sh\n{text}\n")
        os.chmod(f"{self.room}/program", 0o700)
        return f"{self.room}/program"

    def run_node(self, text, *words, **how):
        return self.typed("run_node", self.program(text), *(words or ("wallet",)), **how)

    def test_status_streams_and_signals(self):
        done = self.run_node("cat; echo told >&2; exit 7", input="an input\n")
        self.assertEqual((done.returncode, done.stdout, done.stderr), (7, "an input\n", "told\n"))
        self.assertEqual(self.run_node("kill -9 $$").returncode, -9)
        begun = subprocess.Popen([f"{HERE}/run_node", self.program("exec sleep 60"), "wallet"], env=self.env,
                                 cwd=self.node)
        time.sleep(0.5)
        begun.send_signal(signal.SIGTERM)
        self.assertEqual(begun.wait(30), -15)

    def test_nothing_is_run_where_the_mark_doesnt_fit(self):
        self.put(leaves=leaves(2))
        done = self.run_node(f"touch {self.room}/ran")
        self.assertEqual((done.returncode, done.stdout), (125, ""))
        self.assertIn("nothing was run", done.stderr)
        self.assertFalse(os.path.exists(f"{self.room}/ran"))

    def test_what_a_run_added_is_marked(self):
        self.put(folder=self.room, leaves=leaves(1, 2))
        self.assertEqual(self.run_node("cat ../leaves.journal > leaves.journal").returncode, 0)
        self.put(leaves=leaves(1))
        self.assertIn("old copy", self.refused())

    def test_a_file_that_another_changed_meanwhile(self):
        done = self.run_node("echo sent; printf x | dd of=leaves.journal conv=notrunc status=none")
        self.assertEqual((done.returncode, done.stdout), (125, "sent\n"))
        self.assertIn("changed while the run had it open", done.stderr)

    def test_the_first_run_of_a_copy_without_a_key(self):
        notes = [node_files.spelled(WATCHER, *[b"\x13" + bytes(16)] * count) for count in range(3)]
        for name, records in (("one", 1), ("two", 0), ("copy", 1)):
            os.mkdir(f"{self.room}/{name}")
            self.put(folder=f"{self.room}/{name}", notes=notes[records])
        self.mark(f"{self.room}/one")
        self.mark(f"{self.room}/two")
        self.put(folder=self.room, notes=notes[2])
        for _ in range(2):
            done = self.run_node("cat ../notes.journal > notes.journal", "watcher", folder=f"{self.room}/copy")
            self.assertEqual((done.returncode, done.stderr), (0, ""))

    def test_older_bytes_that_are_put_over_answered_records(self):
        self.put(folder=self.room, leaves=leaves(1, 2), notes=leaves(1))
        lays = "dd status=none conv=notrunc of=leaves.journal if=../"
        done = self.run_node(f"echo sent; {lays}leaves.journal; {lays}notes.journal")
        self.assertEqual((done.returncode, done.stdout), (125, "sent\n"))
        self.assertIn("what was answered is lost", done.stderr)
        self.assertIn("old copy", self.run_node("exit 0").stderr)

    def test_what_was_answered_is_marked_also_where_the_file_went_away(self):
        self.put(folder=self.room, leaves=leaves(1, 2), notes=leaves(1))
        writes = "cat ../leaves.journal > leaves.journal; "
        for then, part in (
            ("cp -p ../notes.journal other; mv other leaves.journal", "leaves.journal lacks what the run wrote"),
            ("rm leaves.journal", "leaves.journal is gone"), ("mv leaves.journal other", "leaves.journal is gone"),
            ("sleep 0.4; cat ../notes.journal > leaves.journal", "leaves.journal lacks what the run wrote"),
        ):
            shutil.rmtree(f"{self.room}/marks")
            self.put(leaves=leaves(1))
            self.mark()
            done = self.run_node(f"{writes}echo sent; {then}")
            self.assertEqual((done.returncode, done.stdout), (125, "sent\n"), then)
            self.assertIn(part, done.stderr)
            # (the mark in front of the run would take these)
            self.put(leaves=leaves(1))
            self.assertIn("leaves.journal is an old copy", self.refused())
            self.assertIn("2 leaves used", self.typed("mark", "show").stdout)
            self.put(leaves=leaves(1, 2))
            self.assertEqual(self.refused(), "")

    def test_what_a_stopped_run_left_is_no_alarm(self):
        self.put(leaves=leaves(1) + leaves(1, 2)[len(leaves(1)) :])
        for text in ("exit 0", "exit 1", "kill -9 $$"):
            self.assertEqual(self.run_node(text).stderr, "")
        self.put(folder=self.room, leaves=leaves(1, 2))
        self.assertEqual(self.run_node("cat ../leaves.journal > leaves.journal").stderr, "")
        self.assertEqual(self.refused(), "")

    def test_what_another_run_writes_meanwhile_is_no_alarm(self):
        self.put(folder=self.room, leaves=leaves(1, 2)[:-1] + b"\0a record that is being written")
        with open(f"{self.node}/leaves.journal", "rb") as file:
            fcntl.flock(file, fcntl.LOCK_EX)
            done = self.run_node("cat ../leaves.journal > leaves.journal")
        self.assertEqual((done.returncode, done.stderr), (0, ""))
        self.put(leaves=leaves(1))
        self.assertIn("old copy", self.refused())

    def test_a_file_whose_sync_failed_is_not_marked(self):
        self.put(folder=self.room, leaves=leaves(1, 2))
        done = self.run_node("cat ../leaves.journal > leaves.journal; chmod 400 leaves.journal; exit 6")
        self.assertEqual((done.returncode, done.stderr), (6, ""))
        os.chmod(f"{self.node}/leaves.journal", 0o600)
        self.put(leaves=leaves(1))
        self.assertEqual(self.refused(), "")

    def test_where_marks_cant_be_kept(self):
        for named, part in (("relative", "begins with /"), ("/proc/none", "can't be kept")):
            self.env["PLASMA_MARKS"] = named
            done = self.run_node("echo ran")
            self.assertEqual((done.returncode, done.stdout), (125, ""))
            self.assertIn(part, done.stderr)

    def test_receipts_are_handed_on_one_at_a_time(self):
        reads = "import os\nwhile True:\n    data = os.read(0, 65536)\n    if not data: break\n"
        reads += "    print(data.count(b'receipt'), data.count(b'\\n'), flush=True)\n"
        with open(f"{self.room}/reads.py", "w", encoding="utf-8") as file:
            file.write(reads)
        long = "receipt 0x" + "ab" * 2632 + " 9\n"
        text = CHAIN * 900 + "--\nwho\n" + long * 3 + "seal\nbundle 1 0\n" + "receipt 0x00 9\n" * 40 + "receipt 0x01 9"
        done = self.run_node(f"exec {sys.executable} {self.room}/reads.py", "operator", input=text)
        counts = [tuple(map(int, line.split())) for line in done.stdout.splitlines()]
        self.assertEqual(sum(count for _, count in counts), text.count("\n"))
        self.assertEqual(sum(count for count, _ in counts), 44)
        self.assertLessEqual(max(count for count, _ in counts), 1)

    def test_an_input_that_is_none(self):
        shell = f"exec {HERE}/run_node {self.program('cat; exit 4')} operator"
        done = subprocess.run(["sh", "-c", f"{shell} <&- >&-"], stderr=subprocess.PIPE, text=True, env=self.env,
                              cwd=self.node, timeout=60, check=False)
        self.assertEqual(done.returncode, 4)
        self.assertIn("Bad file descriptor", done.stderr)
