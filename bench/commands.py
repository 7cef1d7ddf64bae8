"""The commands of nodes that bench/kill, bench/faults, bench/power_cuts and the benches of marks try: each with a world
in which its lines are all accepted."""
import collections
import os
import shutil
import subprocess

TOP = os.path.dirname(os.path.dirname(os.path.abspath(__file__)))
TAG = f"0x{1:064x}"
COUNT = 6
# How each answer begins, and how many lines it has.
ANSWERS = {
    "accept": ("accepted", 1), "migrate": ("migrated", 1), "send": ("sent", 2), "reclaim": ("reclaimed", 1),
    "leave": ("leaving", 2), "guard": ("guarded", 1), "release": ("released", 1), "offer": ("pooled", 1),
    "receipt": ("promised", 2), "lay": ("laid", 1), "seal": ("sealed", 2), "sign": ("signed", 2),
    "begin": ("signed", 2), "init": ("made", 1),
}
JOURNALS = ("notes.journal", "leaves.journal")
# The role of a signer, whose one line names the message, and which has no log and reads nothing.
SIGNER = "signer"
LONGEST = 120  # seconds that one run may take

# A command that is killed: the role, the folder before it, its journal, the log and the lines of the run; `asked` gives
# the log and the lines that tell whether the first so many lines were done; how many records a line adds; and, where
# these are of both journals, `half` gives the line that adds only the first of them.
Case = collections.namedtuple("Case", "name role base journal log lines asked adds half", defaults=[1, None])


def words_of(role, lines):
    """The words of a run of these lines."""
    return ["hss", "sign", *(line.split()[1] for line in lines)] if role == SIGNER else [role]


def text_of(log, lines):
    """The input of a run; a signer has none."""
    return b"" if log is None else "".join(line + "\n" for line in [*log, "--", *lines]).encode()


def run(program, folder, role, log, lines):
    """Runs a node over the folder: what it wrote, and its status."""
    if role == SIGNER and not lines:
        return b"", 0
    given = text_of(log, lines)
    ran = subprocess.run([program, *words_of(role, lines)], input=given, stdout=subprocess.PIPE, cwd=folder,
                         timeout=LONGEST)
    return ran.stdout, ran.returncode


def done(program, folder, role, log, lines):
    """The lines that a run wrote, which has to end with status 0."""
    written, status = run(program, folder, role, log, lines)
    if status != 0:
        raise SystemExit(f"{role}: status {status}, and last {written.decode()[-200:]!r}")
    return written.decode().splitlines()


def copied(folder, to):
    shutil.rmtree(to, ignore_errors=True)
    return shutil.copytree(folder, to)


def records(folder, journal):
    """A journal's records, and how many bytes stand behind its end."""
    with open(f"{folder}/{journal}", "rb") as file:
        image = file.read()
    place, found = 4, []
    while image[place] == 0xA5:
        length = int.from_bytes(image[place + 1 : place + 5], "big")
        found.append(image[place + 5 : place + 5 + length])
        place += 5 + length
    return found, len(image) - place - 1


def cases(program, room):
    """The commands, each with a world in which its lines are all accepted."""
    coins = range(1, COUNT + 1)

    def made(name, *words):
        os.mkdir(f"{room}/{name}")
        words = words if words[0] == "hss" else ("init", *words)
        subprocess.run([program, *words], cwd=f"{room}/{name}", stdout=subprocess.DEVNULL, check=True)
        return f"{room}/{name}"

    ann, bob = made("ann", "wallet", TAG, "11", f"0x{101:064x}"), made("bob", "wallet", TAG, "12", f"0x{102:064x}")
    operator, watcher = made("operator", "operator", TAG, "9"), made("watcher", "watcher", TAG, "14")
    desk = made("desk", "operator", TAG, "9", f"0x{105:064x}")
    log = [f"chain {TAG} 9 1000"]
    (owner,), (payee,) = done(program, ann, "wallet", log, ["who"]), done(program, bob, "wallet", log, ["who"])
    log += ["fund 11 1000000", *(f"call 11 deposit 1 0x{owner[18:]}" for _ in coins)]
    done(program, ann, "wallet", log, ["migrate"])
    sends = [f"send {coin} {payee}" + (" 900" if coin % 2 else "") for coin in coins]
    transfers = done(program, copied(ann, f"{room}/sent"), "wallet", log, sends)[1::2]
    offers = [f"offer {transfer}" for transfer in transfers]
    # (Bob's coin is that of the receipt which tells what is there)
    pledged = [*log, "fund 12 1", f"call 12 deposit 1 0x{payee[18:]}"]
    done(program, desk, "operator", log, ["migrate"])
    asks = done(program, copied(bob, f"{room}/asks"), "wallet", pledged, [f"send {COUNT + 1} {owner}"])[1]
    blocks = copied(operator, f"{room}/blocks")
    commit = done(program, blocks, "operator", log, [*offers, "seal"])[-1]
    paid = [*log, commit]
    bundles = done(program, blocks, "operator", paid, [f"bundle {coin} 0" for coin in coins])[1::2]
    states = [f"state {coin}" for coin in coins]
    exits = [f"call 11 start {coin} {coin}" for coin in coins]
    seals = [line for coin in coins for line in (f"lay {coin} 0x{coin:02x}", "seal")]
    roots = done(program, copied(operator, f"{room}/seals"), "operator", log, seals)[2::3]

    # (coins that are sent by block 8, and two blocks without them)
    dead, empty = copied(ann, f"{room}/dead"), copied(operator, f"{room}/empty")
    done(program, dead, "wallet", log, [f"send {coin} {payee} {COUNT + 2}" for coin in coins])
    late = [*log, done(program, empty, "operator", log, ["seal"])[-1]]
    late.append(done(program, empty, "operator", late, ["seal"])[-1])
    absences = done(program, empty, "operator", late, [f"absences {coin} {coin} {COUNT + 2}" for coin in coins])[1::2]
    guarding = copied(watcher, f"{room}/guarding")
    done(program, guarding, "watcher", paid, [f"guard {it}" for it in bundles])

    fresh = made("fresh", "hss", "init", f"0x{104:064x}")
    signed = copied(fresh, f"{room}/signed")
    done(program, signed, SIGNER, None, ["sign 0x60"])

    def trees(count):
        """The trees of the seals that were done, by the openings of their blocks; and the pool, by one more seal."""
        blocks = range(COUNT + 1, COUNT + 1 + count // 2)
        return [*log, *roots[: count // 2]], [*(f"prove {n - COUNT} {n}" for n in blocks), "seal"]

    return [
        Case("accept", "wallet", bob, "notes.journal", paid, [f"accept {it}" for it in bundles],
             lambda count: (paid, states)),
        Case("migrate", "wallet", bob, "leaves.journal", log, ["migrate"], lambda count: (log, ["migrate"])),
        Case("send", "wallet", ann, "leaves.journal", log, sends,
             lambda count: (log, states + [f"again {coin}" for coin in coins[:count]])),
        Case("reclaim", "wallet", dead, "notes.journal", late, [f"reclaim {it}" for it in absences],
             lambda count: (late, states)),
        Case("leave", "wallet", ann, "notes.journal", log, [f"leave {coin}" for coin in coins],
             lambda count: (log, states + [f"leave {coin}" for coin in coins[:count]])),
        Case("guard", "watcher", watcher, "notes.journal", paid, [f"guard {it}" for it in bundles],
             lambda count: (paid + exits, ["watch"])),
        Case("release", "watcher", guarding, "notes.journal", paid, [f"release {coin} {COUNT + 1}" for coin in coins],
             lambda count: (paid + exits, ["watch"])),
        Case("offer", "operator", operator, "notes.journal", log, offers, lambda count: (log, ["seal"])),
        Case("receipt", "operator", desk, "leaves.journal", pledged, [f"receipt {it} 900" for it in transfers],
             lambda count: (pledged, [f"receipt {asks} 900", "seal"]), 2, lambda line: f"offer {line.split()[1]}"),
        Case("seal", "operator", operator, "notes.journal", log, seals, trees),
        Case("sign", SIGNER, signed, "leaves.journal", None, ["sign 0x61"], lambda count: (None, ["sign 0x62"])),
        Case("begin", SIGNER, fresh, "leaves.journal", None, ["begin 0x61"], lambda count: (None, ["sign 0x62"]), 2),
    ]
