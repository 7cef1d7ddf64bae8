"""Lines that may be bad lines: spoiled ones, and declarations. For bench/agree."""
from plasma_bytes import hexed
from random_steps import EDGES

# A line of each form, with names that the generators declare or don't.
FORMS = """chain 1 9 100
fund 50 10
tick 5
money 11
call 50 deposit 10 r0
call 50 deposit 10 KEY
call 9 commit ROOT
call 21 start 1 1
call 21 exit 1 1 - 2 0x00
call 50 after 1 1 2 #3
call 50 between 1 2 2 #3
call 50 before 1 2 1 -
call 50 respond 1 2 1 2 #3
call 50 finish 1 1
wallet new 77 77 5 3
wallet new 77 77
watcher new 77
rogue new 77 77 5 3
rogue new 77 77
deposit NAME 5
enter NAME 1
enter op 1
sign r0 0 1 1 NAME
sign r0 31 1 1 OWNER 9
crash NAME old
crash op mix 3 0xa5
cut NAME 3 new watch NAME
cut op 3 new seal
cut NAME 4 mix 1 0x00 send NAME 1 NAME
accept NAME #2
accept NAME 0x
send NAME 1 NAME
send NAME 1 OWNER 5
again NAME 1
leave NAME 1
reclaim NAME #1
migrate NAME
guard g0 #1
release g0 1 1
watch NAME
watch g0
offer #1
lay 1 0x00
seal
bundle 1 0
prove 1 1
absences 1 1 2
open NAME
open op""".split("\n")
TOKENS = ["0", "1", "01", "+1", "-1", "-", "", "1 ", "0x", "0X00", "0x0", "0xAA", "0xaa", "#1", "#0", "#01", "#",
          "# 1", "op",
          "a", "A", "aB", "a-b", "9a", "g0", "r0", "old", "new", "mix", "0x" + "00" * 31, "0x" + "00" * 32,
          "0x" + "00" * 33, "0x" + "00" * 55, "0x" + "00" * 56, "0x" + "00" * 63, "0x" + "00" * 64, "5", "6", "3", "4",
          "7", "2", "1023", "1024", "32", "31", "3000", "3001", "18446744073709551615", "18446744073709551616",
          "99999999999999999999", "sixteenletters16", "seventeenletters1", "x", "\xe9", "1\t1", "seal", "watch"]


def a_name(world):
    """A form with one number."""
    return world.random.choice(["tick", "money", "fund 50", "fund 18446744073709551615"])


def filled(random, line, known):
    """A form with the names of a schedule."""
    words = []
    for word in line.split(" "):
        words.append({"NAME": random.choice(known), "KEY": "0x0000000500000004" + "00" * 48, "ROOT": "0x" + "11" * 32,
                      "OWNER": "0x" + "00" * 64}.get(word, word))
    return " ".join(words)


def a_line(random, world):
    """A line behind a schedule, spoiled in one place or two; seldom without its end, or with more behind it."""
    known = [*world.wallets, *world.watchers, *world.rogues] or ["a"]
    made = b""
    for _ in range(random.choice([1, 1, 2, 3])):
        line = filled(random, random.choice(FORMS), known)
        for _ in range(random.choice([0, 1, 1, 1, 2])):
            line = spoiled(random, line)
        made += line.encode("latin-1") + random.choice([b"\n"] * 8 + [b"", b"\r\n", b" \n", b"\n\n"])
    return made


def spoiled(random, line):
    """A line with one thing changed."""
    words = line.split(" ")
    at = random.randrange(len(words))
    kind = random.randrange(10)
    if kind < 4:
        words[at] = random.choice(TOKENS)
    elif kind == 4:
        del words[at]
    elif kind == 5:
        words.insert(at, random.choice([words[at], "", *TOKENS]))
    elif kind == 6:
        words.append(random.choice(TOKENS))
    elif kind == 7:
        words[at] = str(random.choice(EDGES))
    elif kind == 8:
        place = random.randrange(len(line) + 1)
        return line[:place] + chr(random.choice([0, 9, 11, 13, 32, 48, 95, 127, 160, 255])) + line[place:]
    else:
        words[at] = words[at].swapcase() if random.random() < 0.5 else words[at][:-1]
    return " ".join(words)


def declarations(world):
    """Declarations of few names, accounts and seeds, so that they meet; and lines that use the names."""
    random = world.random
    names = ["a", "b", "c", "op", "call", "g"]
    world(f"chain {random.choice(EDGES)} {random.choice([9, 9, 9, 11])} {random.choice([1, 3, 3000, 3000, 3001, 0])}")
    while True:
        name, account = random.choice(names), random.choice([9, 11, 12, 13, 14, 15])
        types = random.choice([" 5 3"] * 8 + [" 5 5", " 6", " 3 5", " 4 3", " 5 3 1"])
        # (a key of other types than 5 and 3 takes longer)
        world(random.choices([
            f"wallet {name} {account} {random.choice([1, 2, 3, 4])}{types}",
            f"rogue {name} {account} {random.choice([1, 2])} 5 3",
            f"watcher {name} {account}", f"call {account} start 1 1", f"call {account} deposit 5 {name}",
            f"deposit {name} 1", f"fund {account} 1", f"watch {name}", f"enter {name} 1", f"sign {name} 0 1 1 {name}",
            f"cut {name} 4 old watch {random.choice(names)}", f"send {name} 1 {random.choice(names)}",
            f"crash {name} old", f"open {name}", f"call {account} commit {hexed(bytes(32))}",
        ], [8, 4, 4, 3, 2, 1, 1, 1, 1, 1, 1, 1, 1, 1, 1])[0])
