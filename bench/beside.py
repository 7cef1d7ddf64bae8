"""What bench/replay and bench/nodes share: two programs that do the same in turns, the ratios of what they take, and
how that grows where the same is done in several sizes."""
import collections
import datetime
import hashlib
import itertools
import math
import os
import resource
import signal
import subprocess

HOSTILE = 3.0  # the goal of each schedule that has none of its own, as a ratio of processor time
SPARE = 32 << 10  # kilobytes
SHORT, MOST_TIMES = 2, 5  # seconds of a row that is run once more, and how often it is run
FASTER = 0.2  # by so much an exponent is above the peer's where a growth is called faster

# What a program is started with, and where its answers go.
Start = collections.namedtuple("Start", "words source sink folder", defaults=[None])
Run = collections.namedtuple("Run", "seconds peak status")
# What both took of something in a size: the runs, whether the texts are the same, and what was missed.
Row = collections.namedtuple("Row", "name size lines runs goal text missed")


def ran(start, seconds):
    with open(start.source, "rb") as read, open(start.sink, "wb") as written:
        child = subprocess.Popen(start.words, stdin=read, stdout=written, cwd=start.folder)
        resource.prlimit(child.pid, resource.RLIMIT_CPU, (seconds, seconds))
        _, status, used = os.wait4(child.pid, 0)
        child.returncode = os.waitstatus_to_exitcode(status)
    return Run(used.ru_utime + used.ru_stime, used.ru_maxrss, child.returncode)


def in_turns(starts, seconds, times=MOST_TIMES, before=lambda: None):
    """The least of what each program took, in so many turns at most. Ahead of each `before` is called."""
    turns, total = [], 0
    while not turns or len(turns) < times and total < SHORT:
        before()
        turn = [ran(start, seconds) for start in starts]
        turns.append(turn)
        total += sum(run.seconds for run in turn)
    return [min(runs, key=lambda run: run.seconds) for runs in zip(*turns)]


def is_killed(run):
    return run.status == -signal.SIGKILL


def compared(runs, starts):
    """Whether the texts are the same: in a word, or two."""
    for run in runs:
        if run.status:
            return "killed" if is_killed(run) else f"status {run.status}"
    with open(starts[0].sink, "rb") as one, open(starts[1].sink, "rb") as other:
        for number, (a_line, b_line) in enumerate(itertools.zip_longest(one, other), 1):
            if a_line != b_line:
                return f"line {number}"
    return "same"


def time_of(runs):
    return runs[0].seconds / max(runs[1].seconds, 0.001)


def memory_of(runs):
    return runs[0].peak / (runs[1].peak + SPARE)


def row(name, size, lines, runs, goal, text):
    """A row of two runs, with the goals that it misses."""
    missed = ["time"] * (time_of(runs) > goal) + ["memory"] * (memory_of(runs) > 1)
    missed += [] if text == "same" else ["killed" if text == "killed" else "text"]
    return Row(name, size, lines, runs, goal, text, missed)


# ---- what is printed


def taken(run):
    return f"{'>' * is_killed(run)}{run.seconds:.3f}"


def print_head(is_beside, last=""):
    head = f"{'':37} {'lines':>7} {'seconds':>8}"
    if is_beside:
        print(f"{head} {'peer':>8} {'time':>6} {'goal':>5} {'MB':>7} {'peer':>7} {'memory':>6} {'text':>9}"
              f" {last:>13}  missed")
    else:
        print(f"{head} {'MB':>7} {last:>13}")


def print_alone(name, lines, run, needed=""):
    print(f"{name:37} {lines:>7,} {taken(run):>8} {run.peak / 1024:7.1f} {needed:>13}"
          + f"  status {run.status}" * bool(run.status), flush=True)


def print_row(name, it, needed=""):
    ours, peer = it.runs
    print(f"{name:37} {it.lines:>7,} {taken(ours):>8} {taken(peer):>8} {time_of(it.runs):6.2f} {it.goal:5.1f}"
          f" {ours.peak / 1024:7.1f} {peer.peak / 1024:7.1f} {memory_of(it.runs):6.2f} {it.text:>9} {needed:>13}"
          f"  {' '.join(it.missed)}".rstrip(), flush=True)


def print_missed(count, missed):
    kinds = (f"{kind} {times}" for kind, times in collections.Counter(missed).items())
    print(f"{count} rows; missed: {', '.join(kinds) or 'nothing'}")


# ---- words


def add_words(parser):
    """The words that both scripts take."""
    for flag in ("--goals", "--once"):
        parser.add_argument(flag, action="store_true")
    parser.add_argument("--quick", dest="sizes", action="store_const", const=1, default=3)
    parser.add_argument("--sizes", type=int, default=3, metavar="N")
    parser.add_argument("--only", default="", metavar="TEXT")
    parser.add_argument("--part", type=int, default=1, metavar="N")
    parser.add_argument("--seconds", type=int, default=60, metavar="S")
    parser.add_argument("--write", metavar="FILE")
    parser.add_argument("program", type=os.path.abspath)
    parser.add_argument("peer", nargs="?", type=os.path.abspath)


# ---- how it grows


def in_sizes(things, at_size, words):
    """The rows of things in sizes that rise, by name: all in the smallest size, then in the next. Behind a size in
    which a program is killed no larger one is tried. What is there is written after each row."""
    table = {name: [] for name in things}
    for turn in range(words.sizes):
        for name, sizes in things.items():
            if turn < len(sizes) and not any(map(is_killed, [run for it in table[name] for run in it.runs])):
                found = at_size(name, sizes[turn] // words.part or 1)
                table[name] += [found] if found else []
                if words.write:
                    write(words.write, table, [words.program, words.peer])
    return table


def exponent(rows, which, of):
    """By which power of the size the program took more, from the last size but one to the last in which it ended."""
    ended = [it for it in rows if it.runs[which].status == 0]
    if len(ended) < 2:
        return None
    below, last = (max(of(it.runs[which]), 0.001) for it in ended[-2:])
    return math.log(last / below) / math.log(ended[-1].size / ended[-2].size)


def growths(rows):
    """The exponents of time of both programs, and those of memory."""
    return [exponent(rows, which, of) for of in (lambda run: run.seconds, lambda run: run.peak) for which in (0, 1)]


def is_faster(rows):
    """Whether the program takes more and more of the peer's time."""
    ours, peer, *_ = growths(rows)
    return ours is not None and peer is not None and ours > peer + FASTER


def print_growths(table):
    """How each thing grew, by its rows; at the end which grow faster than the peer's."""
    head = f"{'time by the size, to a power':37} {'ours':>6} {'peer':>6}   {'ratios of time':24}"
    print(f"\n{head} {'memory':>6} {'peer':>6}")
    for name, rows in table.items():
        ours, peer, *memory = ("" if it is None else f"{it:.2f}" for it in growths(rows))
        ratios = " ".join(f"{time_of(it.runs):7.2f}" for it in rows)
        print(f"{name:37} {ours:>6} {peer:>6}   {ratios:24} {memory[0]:>6} {memory[1]:>6}"
              f"{'  faster' * is_faster(rows)}")
    faster = [name for name, rows in table.items() if is_faster(rows)]
    print(f"faster than the peer's, by more than {FASTER}: {', '.join(faster) or 'none'}")


COLUMNS = ("name size lines seconds peer_seconds time goal megabytes peer_megabytes memory text missed exponent"
           " peer_exponent memory_exponent peer_memory_exponent date load program peer").split()


def sum_of(program):
    with open(program, "rb") as file:
        return hashlib.sha256(file.read()).hexdigest()[:12]


def spelled(it, rows, origin):
    """A row as words; the exponents stand at the last size."""
    ours, peer = it.runs
    words = [it.name, it.size, it.lines, taken(ours), taken(peer), f"{time_of(it.runs):.2f}", it.goal]
    words += [f"{ours.peak / 1024:.1f}", f"{peer.peak / 1024:.1f}", f"{memory_of(it.runs):.2f}", it.text]
    grown = growths(rows) if it is rows[-1] else [None] * 4
    return [*words, " ".join(it.missed), *("" if of is None else f"{of:.2f}" for of in grown), *origin]


def write(path, table, programs):
    """Puts the rows into a file as data, with a tab between columns, in place of what it has under the same names.
    The load is how many processes waited for each processor, in the last minutes."""
    load = f"{os.getloadavg()[2] / os.cpu_count():.1f}"
    origin = [datetime.date.today(), load, *map(sum_of, programs)]
    kept = []
    if os.path.exists(path):
        with open(path, encoding="ascii") as file:
            kept = [line for line in file.read().splitlines()[1:] if line.split("\t")[0] not in table]
    new = ["\t".join(map(str, spelled(it, rows, origin))) for rows in table.values() for it in rows]
    with open(path, "w", encoding="ascii") as file:
        file.writelines(f"{line}\n" for line in ["\t".join(COLUMNS), *kept, *new])
