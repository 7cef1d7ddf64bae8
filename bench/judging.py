"""How bench/faults judges a run: what it wrote, its status, and what stands in the files."""
import collections
import os
import re
import shutil

from nodes import content, kill, marked, unmark

# The last line behind these statuses.
LAST = {6: b"device fault\n", 4: b"read fault\n"}


class Wrong(Exception):
    """Something wasn't as expected."""


def answered(one, written, status):
    """How many lines were answered; what was written has to be a beginning of the text, and the last line."""
    text, last = b"".join(one.answers), LAST.get(status, b"")
    if status in (9,) and re.fullmatch(rb"not a journal \d+\n", written):
        return 0
    if status == 0 and written != text:
        raise Wrong("status 0, and not the whole text")
    if not written.endswith(last):
        raise Wrong(f"status {status}, and last {written[-30:]!r}")
    written = written[: len(written) - len(last)]
    if not text.startswith(written):
        raise Wrong("what was written isn't a beginning of the text")
    place = count = 0
    for answer in one.answers:
        if len(written) <= place:
            break
        place, count = place + len(answer), count + 1
    if last and len(written) != place:
        raise Wrong("an answer in front of the last line isn't whole")
    return count


def looked_at(program, case, one, folder, marks, count, room, written=b""):
    """The files after a run: the records of so many lines or one more, a mark where there has to be one, and then the
    other lines."""
    stood, _ = kill.in_file(case, one, kill.Killed(folder, b"", written, None))
    if not count <= stood <= count + 1:
        raise Wrong(f"{count} lines were answered, and {stood} are in the file")
    if bool(marked(folder)) != marks:
        raise Wrong("a sync failed, and no file is marked" if marks else "a file is marked, and no sync failed")
    if marks:
        before = content(folder)
        _, again = kill.run(program, folder, case.role, case.log, kill.others(case, stood) or case.lines)
        if again != 6 or content(folder) != before:
            raise Wrong(f"a run over a marked file ends with status {again}")
        unmark(folder)
    killed = kill.Killed(folder, b"", written, None)
    if kill.there(program, case, one, killed, stood, room) != stood:
        raise Wrong("a run doesn't answer as after the lines that are in the file")
    kill.goes_on(program, case, one, killed, stood)


def looked(program, case, one, folder, least, room):
    """Looks at the files after a run of which at least so many lines were answered, and maybe more were done."""
    stood, _ = kill.in_file(case, one, kill.Killed(folder, b"", b"", None))
    looked_at(program, case, one, folder, False, max(stood, least), room)


class Tally:
    """What came, and what was wrong."""

    def __init__(self):
        self.came, self.wrong, self.seen = collections.Counter(), [], collections.Counter()

    def note(self, command, place, call, error, status, why=None):
        self.came[place, call, error, status] += 1
        self.seen[command] += 1
        if why is not None:
            self.wrong.append((command, place, call, error, status, why))
            if len(self.wrong) <= 12:
                print(f"{command}: {call} ({place}), {error}: status {status}: {str(why).splitlines()[0]}", flush=True)

    def show(self):
        print(f"\n{'where':10} {'what':22} {'error':12} status: how often")
        rows = collections.defaultdict(list)
        for (place, call, error, status), count in sorted(self.came.items(), key=str):
            rows[place, call, error].append(f"{status}: {count}")
        for (place, call, error), came in rows.items():
            print(f"{place:10} {call:22} {error:12} {', '.join(came)}")
        print(", ".join(f"{command} {count}" for command, count in self.seen.items()))
        print(f"{sum(self.came.values())} faults, {len(self.wrong)} of them wrong")


def tried(tally, command, what, status, fit, look, place="streams"):
    """Notes one run of the conditions around it."""
    why = None
    try:
        if status not in fit:
            raise Wrong(f"status {status}, and not one of {sorted(fit)}")
        look()
    except (Wrong, kill.Wrong, IndexError) as wrong_one:
        why = wrong_one
    tally.note(command, place, what, "", status, why)


def fresh(folder):
    """An empty folder."""
    shutil.rmtree(folder, ignore_errors=True)
    os.mkdir(folder)
    return folder
