"""The runs of bench/kill --marks: those of the launcher, tools/run_node, and inits."""
import collections
import os
import random
import re
import shlex
import shutil
import signal
import subprocess
import sys
import tempfile
import time

from marked import launcher_words, marking, marks
from nodes import TOP, kill, owner_of

ROLES = ("wallet", "watcher", "operator", "operator with a key", kill.SIGNER)
CALL = re.compile(r"^(\w+)\((.*)$")
# The calls that change what is there. (In front of any other call the disk has what it had in front of the next one.)
CHANGING = {"write", "pwrite64", "fsync", "fdatasync", "rename", "chmod", "fchmod", "mkdir", "flock"}


class Launched(kill.Bare):
    """Runs between two looks at marks, which are in a folder of their own."""

    def __init__(self, program, room):
        super().__init__(program)
        self.room, self.marks, self.command = room, f"{room}/marks", f"{room}/launcher"
        self.looks, self.lasted = collections.Counter({"false alarms": 0}), {}
        with open(self.command, "w", encoding="utf-8") as file:
            file.write(f"#!/bin/sh\nexport PLASMA_MARKS={shlex.quote(self.marks)}\n"
                       f"exec {shlex.join(launcher_words(program, []))} \"$@\"\n")
        os.chmod(self.command, 0o700)

    def keeper(self):
        return marks.Marks(self.marks)

    def begin(self, folder):
        shutil.rmtree(self.marks, ignore_errors=True)
        marking.renew(self.keeper(), folder, is_new=True)

    def seconds(self, case, one):
        """How long a run takes with the launcher, which is measured once."""
        if case.name not in self.lasted:
            folder = kill.copied(case.base, f"{self.room}/timed")
            kept = f"{self.room}/timed-marks"
            shutil.rmtree(kept, ignore_errors=True)
            marking.renew(marks.Marks(kept), folder, is_new=True)
            begun = time.monotonic()
            subprocess.run(launcher_words(self.program, kill.words_of(case.role, case.lines)), cwd=folder,
                           input=kill.text_of(case.log, case.lines), stdout=subprocess.DEVNULL, check=True,
                           env={**os.environ, "PLASMA_MARKS": kept})
            self.lasted[case.name] = 1.2 * (time.monotonic() - begun)
        return self.lasted[case.name]

    def kill(self, child, chance):
        """Kills the launcher, the program below it, or both."""
        what = chance.choice(("launcher", "program", "both"))
        below = below_of(child.pid)
        self.looks[f"killed: {what}"] += 1
        if what == "program" and below:
            os.kill(below, signal.SIGKILL)
        elif what == "launcher":
            child.kill()
        elif child.poll() is None:
            os.killpg(child.pid, signal.SIGKILL)

    def holds(self, folder):
        try:
            _, mark, found = marking.looked_at(self.keeper(), folder)
        except (marks.Refused, marking.NoNode) as error:
            self.looks["false alarms"] += 1
            raise kill.Wrong(f"a false alarm: {error}") from error
        grown = any(found.ends[name] != end.place for name, end in mark.ends.items())
        self.looks["the journals go further than the mark" if grown else "the mark is the journals' end"] += 1

    def at_each_call(self, case, room):
        """Kills the launcher at each of its own calls on a mark or a journal."""
        _, status = self.traced(case, room)
        if status != 0:
            raise SystemExit(f"{case.name}: the launcher ends with status {status} under strace")
        seen, calls, folder = collections.Counter(), [], f"{room}/killed"
        with open(f"{room}/trace", encoding="utf-8", errors="replace") as file:
            for name, words in (match.groups() for match in map(CALL.match, file) if match):
                seen[name] += 1
                changes = name in CHANGING or "O_CREAT" in words
                if changes and (".journal" in words or self.marks in words or f"<{folder}>" in words):
                    calls.append((name, seen[name]))
        for name, count in calls:
            killed, status = self.traced(case, room, ["-e", f"inject={name}:signal=KILL:when={count}"])
            self.looks["killed: launcher, at a call"] += status == -9
            if status == -9:
                yield killed, None

    def traced(self, case, room, inject=()):
        """Runs the launcher under strace, which doesn't follow the program."""
        folder, given = kill.copied(case.base, f"{room}/killed"), kill.text_of(case.log, case.lines)
        self.begin(folder)
        words = ["strace", "-qq", "-y", "-s", "8", "-o", f"{room}/trace", "-e", "trace=%file,%desc", *inject]
        words += launcher_words(self.program, kill.words_of(case.role, case.lines))
        ran = subprocess.run(words, input=given, stdout=subprocess.PIPE, stderr=subprocess.DEVNULL, cwd=folder,
                             timeout=kill.LONGEST, env={**os.environ, "PLASMA_MARKS": self.marks})
        return kill.Killed(folder, given, ran.stdout, None), ran.returncode

    # ---- two at once

    def at_once(self, case, given, tally, until):
        """Three runs at once over a folder, of which one may be killed: each is done, or refused since another one is
        on the folder, and none is stopped by a mark. There are a fifth as many of these as kills."""
        chance = random.Random(f"{given.seed} {case.name} at once")
        for _ in range(given.kills // 5 + 1):
            if time.monotonic() > until:
                break
            folder = kill.copied(case.base, f"{self.room}/killed")
            self.begin(folder)
            runs = []
            for line in chance.sample(case.lines, min(3, len(case.lines))):
                runs.append(self.begun(folder, case, line))
                time.sleep(chance.uniform(0, 0.6 * self.seconds(case, None)))
            if chance.randrange(2):
                self.kill(runs[-1], chance)
            for run in runs:
                _, said = run.communicate()
                self.looks[f"at once: status {run.returncode}"] += 1
                if run.returncode not in (0, 1, 6, -signal.SIGKILL):
                    self.wrong_one(case.name, said.decode(errors="replace"), tally)
            try:
                self.holds(folder)
            except kill.Wrong as why:
                self.wrong_one(case.name, str(why), tally)

    def begun(self, folder, case, line):
        run = subprocess.Popen([self.command, *kill.words_of(case.role, [line])], cwd=folder, stdin=subprocess.PIPE,
                               stdout=subprocess.DEVNULL, stderr=subprocess.PIPE, start_new_session=True)
        try:
            run.stdin.write(kill.text_of(case.log, [line]))
            run.stdin.flush()
        except BrokenPipeError:
            pass
        run.stdin.close()
        run.stdin = None
        return run

    def wrong_one(self, name, why, tally):
        tally.wrong[name] += 1
        print(f"{name}, at once: {why}", flush=True)

    def show(self):
        print(", ".join(f"{what} {count}" for what, count in sorted(self.looks.items())))

    # ---- inits

    def inits(self, given, tally, until):
        """Kills inits; False where the time didn't suffice."""
        for role in ROLES:
            chance, lasts = random.Random(f"{given.seed} {role}"), None
            for _ in range(given.kills + 1):
                if time.monotonic() > until:
                    return False
                spent = self.init(role, lasts, chance, tally)
                # (the first one isn't killed, and tells how long one takes)
                lasts = lasts or 1.2 * spent
        return True

    def init(self, role, lasts, chance, tally):
        """An init that is killed, and typed again: then the node has its mark. How long it took."""
        folder = f"{self.room}/init"
        shutil.rmtree(folder, ignore_errors=True)
        shutil.rmtree(self.marks, ignore_errors=True)
        os.mkdir(folder)
        begun = time.monotonic()
        child = self.typed(role, folder)
        if lasts is not None:
            time.sleep(chance.uniform(0, lasts))
            self.kill(child, chance)
        child.communicate()
        spent = time.monotonic() - begun
        if lasts is not None and child.returncode == -signal.SIGKILL:
            tally.kills["init", "random", "after" if os.path.exists(f"{folder}/notes.journal") else "before"] += 1
            try:
                self.begun_again(role, folder)
            except kill.Wrong as why:
                tally.wrong["init"] += 1
                print(f"init {role}: {why}", flush=True)
        return spent

    def begun_again(self, role, folder):
        child = self.typed(role, folder)
        written, _ = child.communicate()
        if (written[:5], child.returncode) not in ((b"made\n", 0), (b"alrea", 10)):
            raise kill.Wrong(f"typed again it ends with status {child.returncode} and {written!r}")
        self.holds(folder)

    def typed(self, role, folder):
        """An init by the launcher, which has no seed among its words."""
        given = "".join(f"{word}\0" for word in owner_of(role)).encode()
        with tempfile.TemporaryFile() as file:
            file.write(given)
            file.flush()
            shell = f'exec "$@" 3< /proc/self/fd/{file.fileno()}'
            words = [sys.executable, f"{TOP}/tools/run_node", "--init", self.program]
            return subprocess.Popen(["sh", "-c", shell, "sh", *words], stdin=subprocess.DEVNULL, cwd=folder,
                                    stdout=subprocess.PIPE, stderr=subprocess.DEVNULL, start_new_session=True,
                                    pass_fds=[file.fileno()], env={**os.environ, "PLASMA_MARKS": self.marks})


def below_of(process):
    """The process that this one runs, if any."""
    try:
        with open(f"/proc/{process}/task/{process}/children", encoding="utf-8") as file:
            below = file.read().split()
        return int(below[0]) if below else None
    except OSError:
        return None
