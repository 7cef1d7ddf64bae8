"""What bench/faults tries beside failing calls: closed streams, disks that are full, and what has to be refused."""
import contextlib
import fcntl
import os
import resource
import shutil
import subprocess
import time

from judging import LAST, Wrong, answered, fresh, looked, looked_at, tried
from nodes import JOURNALS, content, fed, kill, owner_of, pieces


def streams(program, case, one, what, words, tally, room):
    """A run whose streams the shell closes, or lets be a device that is full."""
    folder = kill.copied(case.base, f"{room}/faulted")
    with open(f"{room}/input", "wb") as file:
        file.write(kill.text_of(case.log, case.lines))
    line = f'exec "$0" {" ".join(kill.words_of(case.role, case.lines))} < "$1/input" > "$1/output" {words}'
    status = subprocess.run(["sh", "-c", line, program, room], cwd=folder, stderr=subprocess.DEVNULL).returncode
    least = len(case.lines) if status == 0 else 0
    fit = {"output closed": {5}, "input closed": {3, 4}, "both closed": {3, 4, 5}, "error closed": {0},
           "output full": {5}}[what]
    if case.role == kill.SIGNER:
        # (it reads no input)
        fit = {"input closed": {0}, "both closed": {5}}.get(what, fit)
    tried(tally, case.name, what, status, fit, lambda: looked(program, case, one, folder, least, room))


def no_reader(program, case, one, tally, room):
    """A pipe of which nobody reads."""
    folder = kill.copied(case.base, f"{room}/faulted")
    end, begin = os.pipe()
    os.close(end)
    status = subprocess.run([program, *kill.words_of(case.role, case.lines)], stdout=begin, cwd=folder,
                            input=kill.text_of(case.log, case.lines)).returncode
    os.close(begin)
    tried(tally, case.name, "pipe without reader", status, {5}, lambda: looked(program, case, one, folder, 0, room))


def may_not_grow(program, case, one, tally, room):
    """A limit on the size of files: with the signal for it ignored it is a fault, else the run is killed."""
    size = os.stat(f"{case.base}/{case.journal}").st_size
    last = os.stat(f"{room}/whole/{case.journal}").st_size
    for number in range(1, 6):
        most = size + (last - size) * number // 6
        for ignores, fit in ((True, {6}), (False, {-25})):
            folder = kill.copied(case.base, f"{room}/faulted")
            status = subprocess.run(
                [program, *kill.words_of(case.role, case.lines)], input=kill.text_of(case.log, case.lines),
                stdout=subprocess.DEVNULL, cwd=folder, restore_signals=not ignores,
                preexec_fn=lambda: resource.setrlimit(resource.RLIMIT_FSIZE, (most, most)),
            ).returncode
            what = "size limit" if ignores else "size limit, kills"
            tried(tally, case.name, what, status, fit, lambda: looked(program, case, one, folder, 0, room))


def full_file_system(program, case, tally, room):
    """Runs on a file system that has room for less and less of what is to come. False where none can be had."""
    one = kill.whole(program, case, room)
    for pages in range(8):
        with mounted(["-t", "tmpfs", "-o", "size=1m", "tmpfs"], f"{room}/small") as small:
            if small is None:
                return False
            folder = kill.copied(case.base, f"{small}/node")
            left = os.statvfs(small).f_bavail
            with open(f"{small}/filler", "wb") as file:
                file.write(b"\0" * 4096 * (left - pages))
            words = [program, *kill.words_of(case.role, case.lines)]
            written, status = fed(words, folder, pieces(case), [len(it) for it in one.answers])
            os.remove(f"{small}/filler")
            whole = status == 0

            def look():
                count = answered(one, written, status)
                looked_at(program, case, one, folder, False, count, room, written)

            tried(tally, case.name, "file system full", status, {0, 6}, look)
            if whole:
                break
    return True


@contextlib.contextmanager
def mounted(words, at):
    """A file system that is mounted; None where that can't be had."""
    os.makedirs(at, exist_ok=True)
    done = subprocess.run(["mount", *words, at], stderr=subprocess.DEVNULL).returncode == 0
    try:
        yield at if done else None
    finally:
        if done:
            subprocess.run(["umount", at], check=True)


def refusals(program, case, tally, room):
    """What has to be refused, in a wallet's folder: each with what is done to it, and whether a run in its place ends
    with status 6 and changes nothing."""
    folder, aside = f"{room}/refused", f"{room}/aside"

    def link(name):
        os.rename(f"{folder}/{name}", f"{aside}/{name}")
        os.symlink(f"{aside}/{name}", f"{folder}/{name}")

    def replaced(make):
        def change(name):
            os.rename(f"{folder}/{name}", f"{aside}/{name}")
            make(f"{folder}/{name}")
        return change

    changes = [
        ("a link", link), ("a second name", lambda name: os.link(f"{folder}/{name}", f"{aside}/{name}")),
        ("a folder", replaced(os.mkdir)), ("a named pipe", replaced(os.mkfifo)),
        ("a mark", lambda name: os.chmod(f"{folder}/{name}", 0o400)), ("a lock", None),
    ]
    for name in JOURNALS:
        for what, change in changes:
            fresh(aside)
            kill.copied(case.base, folder)
            before = content(folder)
            with contextlib.ExitStack() as held:
                if change:
                    change(name)
                else:
                    fcntl.flock(held.enter_context(open(f"{folder}/{name}", "rb")), fcntl.LOCK_EX)
                try:
                    written, status = kill.run(program, folder, case.role, case.log, case.lines)
                except subprocess.TimeoutExpired:
                    written, status = b"", "none"
            tried(tally, case.name, f"{what} at {name[:6]}", status, {6},
                  lambda: unchanged(folder, aside, before, written), "refused")
    made(program, tally, room)
    while_open(program, case, tally, room)


def unchanged(folder, aside, before, written):
    """No journal has other bytes than before, where it stood and where it was put."""
    if written != LAST[6]:
        raise Wrong(f"written was {written[:80]!r}")
    for name, image in before.items():
        path = next(path for path in (f"{aside}/{name}", f"{folder}/{name}") if os.path.isfile(path))
        with open(path, "rb") as file:
            if file.read() != image:
                raise Wrong(f"{name} was changed")


def made(program, tally, room):
    """Inits: the mode of the files, a link to nothing, and one that another overtakes."""
    words, folder = owner_of("wallet"), fresh(f"{room}/made")

    def only_owner():
        for name in JOURNALS:
            mode = os.stat(f"{folder}/{name}").st_mode & 0o777
            if mode != 0o600:
                raise Wrong(f"{name} has the mode {mode:o}")

    status = subprocess.run([program, *words], cwd=folder, stdout=subprocess.DEVNULL,
                            preexec_fn=lambda: os.umask(0)).returncode
    tried(tally, "init", "modes under umask 0", status, {0}, only_owner, "refused")

    def nothing_made():
        if os.path.exists(f"{room}/nothing"):
            raise Wrong("the file behind the link was made")

    fresh(folder)
    os.symlink(f"{room}/nothing", f"{folder}/notes.journal")
    status = subprocess.run([program, *words], cwd=folder, stdout=subprocess.DEVNULL).returncode
    tried(tally, "init", "a link to nothing", status, {6}, nothing_made, "refused")
    for name in JOURNALS:
        overtaken(program, words, name, tally, room)


def overtaken(program, words, name, tally, room):
    """Two inits at once, of which the slow one found the file missing before the other began: one of them makes the
    node, and the other is refused."""
    folder, trace = fresh(f"{room}/made"), f"{room}/trace"
    subprocess.run(["strace", "-f", "-qq", "-y", "-o", trace, "-e", "trace=openat", program, *words], cwd=folder,
                   stdout=subprocess.DEVNULL, check=True)
    with open(trace, encoding="utf-8") as file:
        opened = [line for line in file if "openat(" in line]
    number = next(n for n, line in enumerate(opened, 1) if name in line and "O_CREAT" in line)
    fresh(folder)
    slow = subprocess.Popen(["strace", "-f", "-qq", "-o", "/dev/null", "-e", "trace=openat", "-e",
                             f"inject=openat:delay_enter=4000000:when={number}", program, *words],
                            cwd=folder, stdout=subprocess.PIPE)
    time.sleep(2)
    quick = subprocess.run([program, *words], cwd=folder, stdout=subprocess.PIPE)
    before = content(folder)
    written, _ = slow.communicate()

    def one_made():
        if sorted((written, quick.stdout)) != sorted((b"made\n", LAST[6])):
            raise Wrong(f"written was {written!r} and {quick.stdout!r}")
        if quick.returncode == 0 and content(folder) != before:
            raise Wrong("the files of the quick init were changed")
        (owner,) = kill.done(program, folder, "wallet", [f"chain {kill.TAG} 9 1000"], ["who"])
        if not owner.startswith("0x"):
            raise Wrong(f"who is answered {owner}")

    tried(tally, "init", f"overtaken at {name[:6]}", slow.returncode, {0, 6}, one_made, "refused")


def while_open(program, case, tally, room):
    """What is done to a journal between two lines of a run. Where the file stays, its records are looked at."""
    folder, aside = f"{room}/opened", f"{room}/aside"
    one = kill.whole(program, case, room)
    path = f"{folder}/{case.journal}"

    def replace():
        shutil.copy2(path, f"{folder}/new")
        os.rename(f"{folder}/new", path)

    def second_run():
        written, status = kill.run(program, folder, case.role, case.log, case.lines)
        if (written, status) != (LAST[6], 6):
            raise Wrong(f"the second run ends with status {status}")

    plan = [("replaced", replace, {6}, True), ("removed", lambda: os.remove(path), {6}, False),
            ("renamed", lambda: os.rename(path, f"{folder}/other"), {6}, False),
            ("cut", lambda: os.truncate(path, 5), {6}, False),
            ("a second name", lambda: os.link(path, f"{aside}/{case.journal}"), {6}, True),
            ("a second run", second_run, {0}, True)]
    for what, change, fit, stays in plan:
        fresh(aside)
        kill.copied(case.base, folder)
        written, status, why = between_two(program, case, one, folder, change)

        def look():
            if why:
                raise why
            count = answered(one, written, status)
            if status == 6 and count != 1:
                raise Wrong(f"{count} lines were answered")
            if stays:
                shutil.rmtree(aside)
                looked_at(program, case, one, folder, False, count, room, written)

        tried(tally, case.name, f"{what}, while open", status, fit, look, "refused")


def between_two(program, case, one, folder, change):
    """A run, with something done behind its first answer: what it wrote, its status, and what was wrong there."""
    problems = []

    def between(number):
        try:
            if number == 0:
                change()
        except Wrong as why:
            problems.append(why)

    sizes = [len(answer) for answer in one.answers]
    written, status = fed([program, case.role], folder, pieces(case), sizes, between=between)
    return written, status, problems[0] if problems else None
