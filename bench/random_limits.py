"""Schedules at and beside each limit of docs/FORMATS.md. For bench/agree."""
from plasma_bytes import hexed

LINE, INPUT, LINES, MAIL = 8_388_608, 67_108_864, 200_000, 268_435_456
LAID = 65_536
KEY = "0x0000000500000004" + "00" * 48


def beside(random, limit):
    """A limit, one less or one more, and how a mark says it."""
    step = random.choice([-1, 0, 1])
    return limit + step, f"{limit:,} {['at the limit', 'and one more', 'less one'][step]}"


def of_laid_bytes(random):
    size, said = beside(random, LAID)
    lines = ["chain 1 9 100", f"lay 1 0x{'5a' * size}", "lay 2 0x", "seal", "enter op 1", "prove 1 1", "prove 2 1"]
    return lines, f"laid bytes: {said}"


def of_wallets(random):
    count, said = beside(random, 64)
    lines = ["chain 1 9 100", *(f"wallet w{n} {100 + n} {n + 1} 5 3" for n in range(count)), "fund 100 5",
             "deposit w0 5", f"send w0 1 w{count - 1}"]
    return lines, f"wallets: {said}"


def of_a_line(random):
    """A line as long as one may be, and a further one; or it is the last, and isn't ended."""
    size, said = beside(random, LINE)
    head = f"lay {random.choice([1, 10])} 0x" if random.random() < 0.5 else "call 50 after 1 1 2 0x"
    line = head + "00" * ((size - len(head)) // 2) + "0" * ((size - len(head)) % 2)
    return ["chain 1 9 100", line, *random.choice([[], ["seal"]])], f"a line: {said}"


def of_the_input(random):
    """Lines up to the bytes that an input may have; its last line is a short one."""
    size, said = beside(random, INPUT)
    lines, left = ["chain 1 9 100"], size - len("chain 1 9 100\n") - len("money 77\n")
    whole = "lay 1 0x" + "00" * 4_000_000
    while left > len(whole) + 1:
        lines.append(whole)
        left -= len(whole) + 1
    head = f"lay {1 if (left - 9) % 2 == 0 else 10} 0x"
    return [*lines, head + "0" * (left - len(head) - 1), "money 77"], f"the input: {said}"


def of_lines(random):
    count, said = beside(random, LINES)
    return ["chain 1 9 100", *["money 1"] * (count - 1)], f"lines: {said}"


def of_all_mail(random):
    """Openings of a leaf of 65,536 bytes, and one more that makes the mail as large as it may be, or larger."""
    size, said = beside(random, MAIL)
    opening = 12 + LAID
    count = size // opening
    rest = size - count * opening
    # (of a leaf of no bytes an opening has 12)
    lines = ["chain 1 9 100", f"lay 1 0x{'5a' * LAID}", "seal", "enter op 1"]
    left = rest if rest >= 13 else rest + opening
    count -= 0 if rest >= 13 else 1
    lines += [f"lay 1 0x{'5b' * (left - 12)}", "seal", "enter op 1", *["prove 1 1"] * count, "prove 1 2", "money 1"]
    return lines, f"all mail: {said}"


def of_blocks(random):
    """The most of a chain line, and as many blocks as it allows."""
    most = random.choice([0, 1, 2, 2_999, 3_000, 3_001])
    many = [f"call 9 commit {hexed(bytes(32))}"] * min(most + 1, 3_001)
    return [f"chain 1 9 {most}", *many, "fund 1 5", f"call 1 deposit 5 {KEY}", "bundle 1 0",
            "absences 1 0 1"], f"blocks: {most:,}"


def of_leaves(random):
    """A rogue signs with the last leaf of its key, or with one that there isn't."""
    lms, last = random.choice([(5, 31)] * 4 + [(6, 1023)])
    leaf = last + random.choice([-1, 0, 1])
    return ["chain 1 9 100", f"rogue r {21} 20 {lms} 3", f"sign r {leaf} 1 1 r"], f"leaf {leaf} of {last + 1}"


def of_numbers(random):
    """Sums, times, tokens and names at their ends."""
    number = random.choice([2**64 - 1, 2**64])
    name = "n" * random.choice([15, 16, 17])
    fund = random.choice([2**62 - 1, 2**62, 2**62 + 1])
    time = random.choice([2**40 - 1, 2**40, 2**40 + 1])
    lines = [f"chain {random.choice([0, 2**64 - 1])} 9 100", f"fund 1 {fund}", f"fund 2 {random.choice([0, 1, 2])}",
             f"call 1 deposit {fund} {KEY}", "call 1 start 1 1", f"tick {time}", f"tick {time - 1}", "fund 1 100",
             "call 1 start 1 1", "call 1 finish 1 1", f"watcher {name} {number}"]
    return lines, f"numbers: a sum of {fund}, a time of {time}, {len(name)} letters"


def of_bonds(random):
    """Accounts with a bond, and with a penny less or more."""
    bond = random.choice([99, 100, 101])
    lines = ["chain 1 9 100", f"fund 1 {bond + 5}", f"call 1 deposit 5 {KEY}", "call 1 start 1 1", "money 1",
             "tick 907199", "call 2 finish 1 1", "tick 907200", "call 2 finish 1 1", "money 1"]
    return lines, f"a bond of 100, with {bond}"


# How often each comes; of those that take seconds few.
LIMITS = [(of_laid_bytes, 12), (of_leaves, 10), (of_numbers, 20), (of_bonds, 12), (of_blocks, 4), (of_a_line, 2),
          (of_wallets, 1), (of_the_input, 1), (of_lines, 1), (of_all_mail, 1)]


def at_a_limit(random):
    """The text of a schedule, and what it is at or beside."""
    makers, weights = zip(*LIMITS)
    lines, mark = random.choices(makers, weights)[0](random)
    end = "\n" if mark.startswith("the input") or random.random() < 0.7 else ""
    return ("\n".join(lines) + end).encode("latin-1"), mark
