"""What bench/flips and bench/old_files share: the lives of bench/kill's nodes, what a run over changed files comes to,
and the marks."""
import collections
import os
import re
import shutil
import subprocess
import sys

from nodes import JOURNALS, TOP, kill

sys.path.insert(0, f"{TOP}/tools")
import marking  # noqa: E402
import marks  # noqa: E402

# How a signed transfer and a receipt begin, and how long what is signed is.
SIGNED = {"0x50435431": 116, "0x50435432": 124, "0x50435231": 100}
KINDS = ("refused", "same", "signs twice", "told otherwise")
# A life: the case, and the journals behind each number of lines.
Life = collections.namedtuple("Life", "case states shown")


def cases(program, room):
    """Those of bench/kill, and a wallet with another type of key, whose leaves have no marker: `plain`."""
    folder, coins = f"{room}/plain", range(1, kill.COUNT + 1)
    os.mkdir(folder)
    subprocess.run([program, "init", "wallet", kill.TAG, "11", f"0x{106:064x}", "5", "3"], cwd=folder,
                   stdout=subprocess.DEVNULL, check=True)
    log = [f"chain {kill.TAG} 9 1000"]
    (owner,) = kill.done(program, folder, "wallet", log, ["who"])
    log += ["fund 11 1000000", *(f"call 11 deposit 1 0x{owner[18:]}" for _ in coins)]
    sends, states = [f"send {coin} 0x{coin + 40:0128x}" for coin in coins], [f"state {coin}" for coin in coins]
    return [*kill.cases(program, room), kill.Case(
        "plain", "wallet", folder, JOURNALS[1], log, sends,
        lambda count: (log, states + [f"again {coin}" for coin in coins[:count]]))]


def laid(folder, images):
    """Puts the files into a folder, and no others."""
    os.makedirs(folder, exist_ok=True)
    for name in JOURNALS:
        path = f"{folder}/{name}"
        if images.get(name) is None:
            if os.path.lexists(path):
                os.remove(path)
            continue
        with open(path, "wb") as file:
            file.write(images[name])
        os.chmod(path, 0o600)
    return folder


def images_in(folder):
    return marks.images_in(folder)


def signed_in(text):
    """What each leaf has signed, by the lines of an answer: the leaf, and the message."""
    found, head = {}, None
    for line in text.decode(errors="replace").splitlines():
        if line.startswith("signed "):
            head = line
        elif head:
            # (of a signer the answer has the leaf, and the words had the message)
            found[head] = line
            head = None
        elif line[:10] in SIGNED:
            data = bytes.fromhex(line[2:])
            size = SIGNED[line[:10]]
            found[data[size : size + 4]] = data[:size]
    return found


def life_of(program, case, room):
    """Runs the case line by line, and keeps the journals behind each."""
    folder, states, shown = kill.copied(case.base, f"{room}/life"), [], {}
    states.append(images_in(folder))
    for line in case.lines:
        written, status = kill.run(program, folder, case.role, case.log, [line])
        if status != 0:
            raise SystemExit(f"{case.name}: {line[:40]} ends with status {status}")
        shown.update(signed_in(written))
        states.append(images_in(folder))
    return Life(case, states, shown)


def asked(program, life, images, room):
    """What a run over these files answers: its status, the text, and the text of a run that signs."""
    folder = laid(f"{room}/asked", images)
    log, lines = life.case.asked(len(life.case.lines))
    text, status = kill.run(program, folder, life.case.role, log, lines)
    laid(folder, images)
    more, _ = kill.run(program, folder, life.case.role, log, probe(life, lines))
    return status, text, more


def probe(life, lines):
    """A line that binds the next leaf to another message than any line of the life."""
    if life.case.role == kill.SIGNER:
        return ["sign 0x63"]
    if life.case.name in ("send", "plain"):
        return [f"send {coin} 0x{coin:0128x}" for coin in (1, kill.COUNT + 1)]
    return lines[:1]


def judged(life, right, found):
    """What changed files lead to, beside what the right ones do."""
    status, text, more = found
    if status == 9 or status == 6:
        return "refused"
    for leaf, message in [*signed_in(text).items(), *signed_in(more).items()]:
        if leaf in life.shown and life.shown[leaf] != message:
            return "signs twice"
    return "same" if found == right else "told otherwise"


class Keeper:
    """Marks of one life, in a folder of their own."""

    def __init__(self, room, images, folder):
        self.folder = laid(folder, images)
        shutil.rmtree(f"{room}/marks-{os.path.basename(folder)}", ignore_errors=True)
        self.keeper = marks.Marks(f"{room}/marks-{os.path.basename(folder)}")
        marking.renew(self.keeper, self.folder, is_new=True)

    def takes(self, images):
        """Whether the launcher would run these files."""
        laid(self.folder, images)
        try:
            marking.looked_at(self.keeper, self.folder)
            return True
        except marks.Refused:
            return False
        except marking.NoNode:
            raise SystemExit("a node that has a mark isn't known any more")


def launcher_words(program, words):
    """The words of a run as the launcher makes it."""
    return [sys.executable, f"{TOP}/tools/run_node", program, *words]


def said(text):
    """The first line that the launcher says."""
    found = re.search(rb"plasma: (.*)", text)
    return found[1].decode(errors="replace") if found else ""


def run_marked(program, folder, keeper, words, given):
    """A run with marks: what it wrote, what was said, and its status."""
    ran = subprocess.run(launcher_words(program, words), input=given, capture_output=True, cwd=folder, timeout=120,
                         env={**os.environ, "PLASMA_MARKS": keeper})
    return ran.stdout, ran.stderr, ran.returncode
