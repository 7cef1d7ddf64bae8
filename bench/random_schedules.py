"""Random schedules, by kinds. Each grows in a replay by the second opinion, line by line, so that the next line can
make use of what was answered. For bench/agree.
"""
from live_schedule import OPERATOR, Ended, World
from random_bytes import Raw, key_of
from random_lines import a_line, a_name, declarations
from random_steps import EDGES

NAMES = ["a", "b", "c", "d", "ann", "bob2", "carol", "zz9", "wallet", "sixteenletters16", "op1", "tick"]
# How often each step comes, by kind.
CHAIN = {"fund": 2, "money": 2, "tick": 4}
TRADE = {"deposit": 4, "pass_on": 10, "send": 3, "offer": 2, "lay": 1, "seal": 2, "take": 4, "again": 1, "leave": 3,
         "migrate": 1, "taken_back": 2, "watch": 4, "prove": 1, "absences": 1, "reclaim": 3, "release": 1,
         "empty_block": 1, "enter": 1}
DISPUTE = {"deposit_of_stranger": 4, "plant": 6, "start": 6, "after": 3, "between": 3, "before": 5, "respond": 4,
           "finish": 5, "penny": 1, "dropped": 2}
KINDS = {
    "life": {**CHAIN, **TRADE, "start": 1, "finish": 2},
    "dispute": {**CHAIN, **DISPUTE, "deposit_of_stranger": 1, "links": 6, "odd_spends": 2, "double_spend": 3, "seal": 1,
                "all_challenges": 3},
    "guarded": {**CHAIN, **TRADE, **DISPUTE, "look": 6, "planted_pair": 5, "double_spend": 3, "all_challenges": 2},
    "thief": {**CHAIN, **TRADE, "plant": 3, "planted_pair": 5, "start": 4, "look": 6, "finish": 5, "tick": 4,
              "theft": 6, "before": 2,
              "respond": 3, "double_spend": 2, "all_challenges": 2},
    "restart": {**CHAIN, "deposit_of_stranger": 1, "links": 4, "dropped": 1, "odd_spends": 1,
                "double_spend": 2, "planted_pair": 3, "start": 5,
                "restart": 14, "finish": 1, "look": 2, "take": 3, "all_challenges": 2},
    "crashes": {**CHAIN, **TRADE, "cut": 16, "crash": 5, "open": 2, "start": 2},
    "bytes": {**CHAIN, "deposit": 2, "deposit_of_stranger": 2, "commit": 8, "start": 8, "after": 4, "between": 4,
              "before": 6, "respond": 6, "finish": 3, "take": 6, "send": 3, "migrate": 1, "reclaim": 2, "watch": 3,
              "offer": 2, "leave": 2, "lay": 1, "all_challenges": 2},
    "numbers": {**CHAIN, **DISPUTE, **TRADE, "fund": 10, "tick_far": 1, "commit": 2},
    "full": {**CHAIN, **TRADE, **DISPUTE, "commit": 4, "empty_block": 6},
    "spent": {"send": 30, "again": 4, "take": 2, "leave": 2, "reclaim": 2, "migrate": 1, "watch": 1},
    "lines": {**CHAIN, **TRADE, **DISPUTE},
    "names": {**CHAIN, **TRADE},
}
LONGEST = {"life": 70, "dispute": 90, "guarded": 90, "thief": 100, "restart": 110, "crashes": 80, "bytes": 60,
           "numbers": 40, "full": 40, "spent": 150, "lines": 14, "names": 16}


def begun(world, kind):
    """Declares who is in it, and gives them money; the keys by name."""
    random, keys = world.random, {}
    most = random.choice([1, 2, 3, 5, 9]) if kind == "full" else random.choice([100, 100, 3000])
    world(f"chain 1 {OPERATOR} {most}")
    wallets = {"dispute": 0, "restart": random.choice([0, 1, 2]), "spent": 2}.get(kind, random.choice([1, 1, 2, 2, 3]))
    wallets = random.choice([7, 8, 9]) if wallets and random.random() < 0.01 else wallets
    names, seeds = random.sample(NAMES, max(wallets, 1)), random.sample(range(1, 11), max(wallets, 1))
    for place in range(wallets):
        types = types_of(random, kind)
        keys[names[place]] = key_of(seeds[place], types or (5, 4))
        world(f"wallet {names[place]} {11 + place} {seeds[place]}{'' if not types else ' %d %d' % types}")
        world(f"fund {11 + place} {random.choice([0, 40, 100, 140, 1000, 10_000])}")
    rogues = 0 if kind == "spent" else random.choice([1, 2]) if wallets else 2
    for place in range(rogues):
        name, seed, types = f"r{place}", 20 + place, (5, 3)
        if wallets and random.random() < (0.9 if kind == "thief" else 0.2):
            victim = names[random.randrange(wallets)]
            key = keys[victim]
            seed, types = int.from_bytes(key.seed, "big"), (key.lms, key.ots)
            world.victims[name] = victim
        keys[name] = key_of(seed, types)
        world(f"rogue {name} {21 + place} {seed} {types[0]} {types[1]}")
        world(f"fund {21 + place} {random.choice([0, 100, 400, 10_000])}")
    for place in range(random.choice([0, 1, 1, 2])):
        world(f"watcher g{place} {31 + place}")
        world(f"fund {31 + place} {random.choice([0, 40, 400])}")
    return keys


def types_of(random, kind):
    """Mostly the types whose keys are made soonest."""
    if kind in ("lines", "names") or random.random() < 0.99:
        return 5, 3
    return random.choice([(5, 4), (5, 4), (6, 3), None])


def schedule(second, random, kind):
    """A schedule of a kind, and the second opinion's answers to it."""
    world = World(second, random, LONGEST[kind] * random.choice([1, 1, 1, 2]) // random.choice([1, 1, 2]))
    try:
        if kind == "names":
            declarations(world)
        else:
            keys = begun(world, kind)
            steps = Raw(world, keys, sane=random.choice([0.75, 0.85, 0.95]))
            walk(world, steps, kind)
    except Ended:
        pass
    return world.text + (a_line(random, world) if kind == "lines" else b""), world.answers


def walk(world, steps, kind):
    """Steps by their weights, until the schedule is long enough."""
    if kind != "bytes":
        steps = plain(steps)
    if kind == "spent":
        spend_key(world, steps)
    names, weights = zip(*KINDS[kind].items())
    for name in ["deposit"] * 2 + ["deposit_of_stranger", "links"] * 2:
        if name in KINDS[kind] or name == "deposit":
            getattr(steps, name)()
    while True:
        if world.random.random() < 0.03 and kind == "numbers":
            world(f"{a_name(world)} {world.random.choice(EDGES)}")
        getattr(steps, world.random.choices(names, weights)[0])()


def spend_key(world, steps):
    """A wallet deposits more coins than its key has leaves, and sends each."""
    name = world.random.choice([*world.wallets])
    world(f"fund {world.wallets[name]} 40")
    for _ in range(34):
        world(f"deposit {name} 1")
    coins = [*world.coins]
    world.random.shuffle(coins)
    for place, coin in enumerate(coins):
        if place == world.random.choice([0, 5, 20, 31]):
            world(f"migrate {name}")
        last = steps.last_block() if steps.chance(0.2) else ""
        world(f"send {name} {coin} {world.random.choice([*world.wallets])}{last}")


def plain(steps):
    """The steps whose blocks and openings the operator makes."""
    from random_calls import Calls
    return Calls(steps.world, steps.sane)
