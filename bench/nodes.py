"""What bench/faults and bench/power_cuts share: the commands of bench/kill, and runs that are given their input line
by line, so that each answer is written before the next line is there."""
import importlib.machinery
import importlib.util
import os
import shutil
import signal
import subprocess
import sys
import threading

HERE = os.path.dirname(os.path.abspath(__file__))
TOP = os.path.dirname(HERE)
LONGEST = 60  # seconds that one run may take


def loaded(name):
    """A script of this folder as a module."""
    loader = importlib.machinery.SourceFileLoader(name, f"{HERE}/{name}")
    module = importlib.util.module_from_spec(importlib.util.spec_from_loader(name, loader))
    loader.exec_module(module)
    return module


kill = sys.modules.get("kill") or loaded("kill")
JOURNALS = kill.JOURNALS
KEYED = "operator with a key"


def shim(room):
    """The shim of preload.c, or None where there is no compiler."""
    if not shutil.which("cc"):
        return None
    subprocess.run(["cc", "-shared", "-fPIC", "-O1", "-o", f"{room}/shim.so", f"{HERE}/preload.c", "-ldl"], check=True)
    return f"{room}/shim.so"


def fed(words, folder, pieces, sizes, between=None, **more):
    """Runs a program that is given each piece of its input once the answer to the one before is there, which has so
    many bytes: what it wrote, and its status. Behind each answer `between` is called with the piece's number. A run
    that takes too long is killed."""
    child = subprocess.Popen(words, stdin=subprocess.PIPE, stdout=subprocess.PIPE, stderr=subprocess.DEVNULL,
                             cwd=folder, bufsize=0, start_new_session=True, **more)
    timer = threading.Timer(LONGEST, os.killpg, (child.pid, signal.SIGKILL))
    timer.start()
    written, wanted = b"", 0
    try:
        for number, (piece, size) in enumerate(zip(pieces, sizes)):
            wanted += size
            while piece:
                piece = piece[child.stdin.write(piece):]
            while len(written) < wanted:
                got = os.read(child.stdout.fileno(), 1 << 20)
                if not got:
                    break
                written += got
            if between:
                between(number)
    except BrokenPipeError:
        pass
    child.stdin.close()
    written += child.stdout.read()
    status = child.wait()
    timer.cancel()
    child.stdout.close()
    return written, status


def pieces(case):
    """The input of a case in pieces: the log and the first line, and each other line."""
    first = kill.text_of(case.log, case.lines[:1])
    return [first, *(f"{line}\n".encode() for line in case.lines[1:])]


def shortened(case, count):
    """The case with fewer lines; a seal keeps the lay in front of it."""
    return case._replace(lines=case.lines[: count * (2 if case.name == "seal" else 1)])


def marked(folder):
    """The journals of a folder that their owner may not write."""
    return [name for name in JOURNALS if os.path.exists(f"{folder}/{name}")
            and not os.stat(f"{folder}/{name}").st_mode & 0o200]


def unmark(folder):
    """Gives the owner back the right to write."""
    for name in JOURNALS:
        if os.path.exists(f"{folder}/{name}"):
            os.chmod(f"{folder}/{name}", 0o600)


def content(folder):
    """The bytes of a folder's journals, by name."""
    found = {}
    for name in JOURNALS:
        if os.path.exists(f"{folder}/{name}"):
            with open(f"{folder}/{name}", "rb") as file:
                found[name] = file.read()
    return found


def owner_of(words):
    """The words of an init that makes a node of a role with a seed of its own."""
    tag = kill.TAG
    return {"wallet": ["init", "wallet", tag, "11", f"0x{101:064x}"], "operator": ["init", "operator", tag, "9"],
            KEYED: ["init", "operator", tag, "9", f"0x{105:064x}"], "watcher": ["init", "watcher", tag, "14"],
            kill.SIGNER: ["hss", "init", f"0x{104:064x}"]}[words]
