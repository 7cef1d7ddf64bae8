"""Random runs of nodes over files that don't fit, and over logs that no contract would have accepted. For bench/agree.
"""
from agreeing import Case, Step
from plasma_bytes import MARKER, RECORD, journal, records, u32, u64
from random_bytes import spoiled
from random_nodes import followed
from random_steps import EDGES

ROLES = ["wallet", "wallet", "operator", "watcher"]


MADE = []


def moments(second, random):
    """A followed schedule, mostly one that was there before: it serves for some cases."""
    while not MADE or random.random() < 0.1:
        made = followed(second, random)
        MADE[:] = [*MADE[-5:], *([made] if made.moments else [])]
    return random.choice(MADE)


def cases_of_moments(second, random, kind):
    """A node of a schedule at some moment, over files or a log that were changed."""
    made = moments(second, random)
    wallets = [it for it in made.moments if it[0] == "wallet"] or made.moments
    for _ in range(2):
        role, _, files, log = random.choice(wallets if random.random() < 0.6 else made.moments)
        other = random.choice(made.moments)
        if kind == "records":
            back = taken_back(random, files) if role == "wallet" and random.random() < 0.3 else None
            files = back or changed_files(random, files, other[2])
            if random.random() < 0.04:
                role = random.choice(ROLES)
        else:
            log = changed_log(random, log)
        lines = [*log, *(["--"] if random.random() < 0.98 else []), *asked(random, role, made.items)]
        end = b"\n" if random.random() < 0.95 else b""
        yield Case(kind, [Step([role], "\n".join(lines).encode("latin-1") + end, files), follows(role, made)])


def follows(role, made):
    """A further run over what the first one left."""
    question = {"wallet": ["state 1", "watch"], "operator": ["seal", "bundle 1 0"], "watcher": ["watch"]}[role]
    return Step([role], ("\n".join([*made.log, "--", *question]) + "\n").encode("latin-1"))


def asked(random, role, items):
    """Commands of a role, mostly such as aren't refused first."""
    coin, block = random.choice([1, 1, 2, 3]), random.choice([1, 2, 3, 4])
    item = "0x" + (random.choice([*items.values()]).hex() if items else "")
    calm = {"wallet": ["who", f"state {coin}", "watch", "state 2"], "watcher": ["watch", "watch"],
            "operator": ["seal"]}
    rest = {
        "wallet": [f"again {coin}", f"accept {item}", f"send {coin} 0x{'00' * 64}",
                   f"send {coin} 0x{'00' * 64} {block + 3}",
                   f"reclaim {item}", f"leave {coin}", "migrate"],
        "watcher": [f"guard {item}", f"release {coin} {block}", "who"],
        "operator": [f"offer {item}", f"lay {coin} {item}", f"bundle {coin} 0", f"prove {coin} {block}", "watch",
                     f"absences {coin} {block} {block + 1}", f"receipt {item} {block + 2}", "migrate"],
    }
    lines = [random.choice(calm[role]) for _ in range(random.choice([1, 1, 2]))]
    return lines + random.sample(rest[role], random.choice([1, 1, 2, 2]))


# ---- files

def changed_files(random, files, others):
    """The files of a node with one thing changed, or two."""
    files = dict(files)
    for _ in range(random.choice([1, 1, 1, 2])):
        name = random.choice([*files])
        kind = random.randrange(12)
        if kind == 0 and name in others:
            files[name] = others[name]
        elif kind == 1:
            files[name] = changed_end(random, files[name])
        elif kind == 2:
            files[name] = spoiled(random, files[name])
        elif kind == 3 and random.random() < 0.3:
            del files[name]
            break
        else:
            contents, end = records(files[name])
            files[name] = journal(*changed_records(random, contents), end=end)
    return files


def taken_back(random, files):
    """The files of a wallet with a note that a transfer was taken back, of a leaf that there is: mostly one that
    doesn't fit; None where no leaf binds a transfer."""
    notes, leaves = (records(files.get(name, journal()))[0] for name in ("notes.journal", "leaves.journal"))
    bodies = [it[4:] if it[4:8] in (b"PCT1", b"PCT2") else it for it in leaves if it != MARKER]
    if not bodies:
        return None
    leaf = random.randrange(len(bodies))
    coin, tip = bodies[leaf][36:44], bodies[leaf][44:52]
    coin, tip, leaf = random.choice([
        (coin, tip, leaf), (u64(int.from_bytes(coin, "big") + 1), tip, leaf), (coin, u64(9), leaf),
        (coin, tip, leaf + 1), (coin, tip, (leaf + 1) % len(bodies)), (coin, tip, 2**32 - 1)])
    return {**files, "notes.journal": journal(*notes, b"\x05" + coin + tip + u32(leaf))}


def changed_end(random, content):
    """Another byte where the journal ends, or more behind it, or less."""
    return random.choice([content[:-1], content[:-1] + b"\x01", content[:-1] + b"\xa4\xff",
                          content + b"\xa5\0\0\0\1\3\0",
                          content[:-1] + RECORD, content[:-1] + RECORD + b"\0\0\0", content[:4], content[:3], b"",
                          content[:-1] + RECORD + u32(16_777_217), content[:-1] + RECORD + u32(0) + b"\0"])


def changed_records(random, contents):
    """Records of which one is missing, twice there, elsewhere, new, or another by one field."""
    contents = [*contents]
    kind = random.randrange(8)
    at = random.randrange(len(contents)) if contents else 0
    if kind == 0 and contents:
        del contents[at]
    elif kind == 1 and contents:
        contents.insert(random.randrange(len(contents) + 1), contents[at])
    elif kind == 2 and len(contents) > 1:
        other = random.randrange(len(contents))
        contents[at], contents[other] = contents[other], contents[at]
    elif kind == 3 and contents and contents[at][:1] in (b"\x02", b"\x12") and len(contents[at]) > 21:
        contents.insert(random.choice([at, len(contents)]), fewer_links(random, contents[at]))
    elif kind < 5 or not contents:
        contents.insert(random.randrange(len(contents) + 1) if random.random() < 0.4 else len(contents),
                        a_record(random))
    else:
        contents[at] = with_field(random, contents[at])
    return contents


def fewer_links(random, content):
    """A record of a kept bundle with the same tip and without one of its links, mostly one before the last."""
    items, at = [], 21
    while at < len(content):
        length = int.from_bytes(content[at + 8 : at + 12], "big")
        items.append(content[at : at + 12 + length])
        at += 12 + length
    del items[random.randrange(len(items))]
    return content[:17] + u32(len(items)) + b"".join(items)


def with_field(random, content):
    """A record in which one number is another."""
    size = random.choice([1, 4, 8])
    starts = [at for at in (0, 1, 4, 5, 9, 13, 17, 21, 36, 40, 44, 48, 52, 116, 120) if at + size <= len(content)]
    if not starts:
        return content + b"\0"
    at = random.choice(starts)
    old = int.from_bytes(content[at : at + size], "big")
    new = random.choice([old ^ 1, old + 1, max(old - 1, 0), 0, random.choice(EDGES),
                         old ^ 1 << random.randrange(8 * size)])
    return content[:at] + (new % 256**size).to_bytes(size, "big") + content[at + size :]


def a_record(random):
    """A record of some role that is well formed, by its length alone at least."""
    coin, tip = u64(random.choice([1, 1, 2, 9])), u64(random.choice([1, 2, 3, 4]))
    leaf = u32(random.choice([0, 0, 1, 2, 31, 32]))
    text = b"PCT1" + bytes(31) + b"\1" + coin + tip + bytes(64)
    dated = b"PCT2" + text[4:] + tip
    promise = b"PCR1" + bytes(31) + b"\1" + coin + tip + bytes(32) + tip + u64(5)
    return random.choice([
        b"\x03" + coin + tip, b"\x05" + coin + tip + leaf, b"\x13" + coin + tip, b"\x24", b"\x23" + coin, MARKER,
        b"\x23" + coin + b"\1\2\3", b"\x22" + text, b"\x22" + text[:50], b"\x02" + coin + tip + u32(0),
        b"\x12" + coin + tip + u32(0), text, leaf + text, leaf + dated, dated, leaf + promise, leaf, leaf + b"x",
        leaf + bytes(128), leaf + bytes(129), b"\x01" + bytes(72), b"\x04" + u32(5) + u32(4) + bytes(72), b"", b"\x06",
        b"\x03" + coin + tip + b"\0", b"\x03" + coin, b"\x02", b"\x12" + coin + tip + u32(1),
    ])


# ---- logs

WEIRD = """fund 11 18446744073709551615
tick 18446744073709551615
tick 18446744073709551614
tick 0
call 77 deposit 0 0x{key}
call 12 deposit 18446744073709551615 0x{key}
call 77 commit 0x{root}
call 77 start 1 1
call 77 start 9 9
call 11 start 2 2
call 77 exit 1 1 - 2 0x
call 77 exit 1 2 0x 3 0x0000000000000000
call 77 exit 1 1 - 3 0x00000000{zeros}
call 77 after 1 2 3 0x
call 77 after 1 1 2 0x
call 77 between 1 2 2 0x
call 77 before 1 2 1 -
call 77 before 1 3 2 0x
call 77 respond 1 2 1 2 0x
call 77 respond 1 3 1 3 0x00
call 77 finish 1 1
call 77 finish 1 2
call 77 finish 2 2
call 77 before 1 2 18446744073709551615 -
call 77 finish 18446744073709551615 0
chain 0x{tag} 9 100
chain 0x{tag} 9 4294967295
chain 0x{tag} 9 4294967296
chain 0x{tag} 9 0
chain 1 9 100
money 11
deposit a 1
seal
fund 11
call 11 deposit 5 a
call 77 after 1 1 2 #2
call 77 commit 0x00
--
-- 
 --""".format(key="00" * 56, root="11" * 32, zeros="00" * 8, tag="00" * 31 + "01").split("\n")


def calls_of_exits(random):
    """Calls of the exits of a coin, in any order: what a contract would have refused has its effect too."""
    coin = random.choice([1, 1, 2])
    block = [random.choice([1, 2, 3, 4, 5]) for _ in range(40)].pop
    forms = ["exit {0} {1} 0x {2} 0x", "exit {0} {1} - {2} 0x", "start {0} {1}", "before {0} {1} {2} -",
             "before {0} {1} {2} 0x", "respond {0} {1} {2} {3} 0x", "finish {0} {1}", "after {0} {1} {2} 0x"]
    weights = [5, 1, 1, 3, 3, 3, 1, 1]
    return [f"call {random.choice([77, 78])} {form}".format(coin, block(), block(), block())
            for form in random.choices(forms, weights, k=random.choice([1, 2, 4, 8]))]


def changed_log(random, log):
    """A log with lines that are missing, twice there, elsewhere or new."""
    log = [*log, *(calls_of_exits(random) if random.random() < 0.4 else [])]
    for _ in range(random.choice([1, 1, 2, 4])):
        at = random.randrange(len(log))
        kind = random.randrange(10)
        if kind < 6:
            log.insert(random.randrange(1, len(log) + 1) if kind else 0,
                       random.choice(WEIRD[:25] if kind < 5 else WEIRD))
        elif kind == 6 and len(log) > 1:
            del log[max(at, 1)]
        elif kind == 7:
            log.insert(random.randrange(1, len(log) + 1), log[at])
        elif kind == 8:
            log[0] = random.choice(WEIRD[25:30]) if random.random() < 0.5 else log[0].replace("01 ", "02 ", 1)
        else:
            line = spoiled(random, log[at].encode("latin-1")).decode("latin-1")
            log[at] = line.replace("\n", " ")
    return log
