"""What became of each coin of a wallet or a watcher, in one word, by the program's answers and the log: for tools/safe.

The program says what a coin is to the wallet (`state`) and what is due (`watch`); the log, which exits stand and until
when. A coin is SAFE only where the state is `held`, the watch offers nothing for it, and no exit of it that somebody
else started can be paid any more without a call that is still due.
"""
from dataclasses import asdict, dataclass, field

from log_read import leaf_of, transfer_in
from rootlog import CHALLENGE_BOND, EXIT_BOND

GOOD = ("SAFE", "SENT", "PAID")
# What is to be told first.
ORDER = ("ACT BY", "STALE", "TOO LATE", "GONE", "LEAVING", "EMPTY", "SAFE", "SENT", "PAID")
# A log is old where it ends so long before now: an exit may have begun since, and half of an answer's time be over.
OLD = 3 * 86_400


@dataclass
class Due:
    """A call that is due: what it is, by when, and what it costs and wins."""

    kind: str
    by: int = None
    costs: int = 0
    wins: int = 0
    call: str = ""
    offered: bool = True
    exit: int = None


@dataclass
class Verdict:
    """A coin of the node: its word and why."""

    coin: int
    amount: int
    tip: int
    word: str = ""
    by: int = None
    state: str = ""
    account: int = None   # whom the coin went to
    line: int = None      # by the call of which line
    due: list = field(default_factory=list)
    exits: list = field(default_factory=list)
    notes: list = field(default_factory=list)


class Judge:
    """The words of a node's coins."""

    def __init__(self, node, log, key, states, offers):
        self.node, self.log, self.key, self.states = node, log, key, states
        self.offers = [self.due_of(line) for line in offers]

    def verdicts(self):
        if self.node.role == "watcher":
            return [self.guard(coin, tip, owner) for (coin, tip), owner in sorted(self.node.guards.items())]
        return [self.coin(coin, state) for coin, state in sorted(self.states.items()) if self.tip_of(coin)]

    # ---- what is due

    def due_of(self, line):
        """An offered call, with the end of its time."""
        words = line.split(" ")
        kind, coin, block = words[2], int(words[3]), int(words[4])
        it = self.log.exit_of(coin, block)
        if kind == "respond":
            one = next(one for one in it.challenges if one.block == int(words[5]) and one.is_open())
            return coin, Due(kind, one.until, 0, CHALLENGE_BOND, line, True, block)
        costs, wins = (CHALLENGE_BOND, 0) if kind == "before" else (0, EXIT_BOND)
        return coin, Due(kind, it.closes, costs, wins, line, True, block)

    def due_for(self, coin):
        return [due for of, due in self.offers if of == coin]

    def instead(self, coin):
        """Calls that cancel an exit for nothing: the log shows an earlier spend of the parent that it names."""
        for it in self.log.standing(coin):
            if self.log.clock >= it.closes or not it.parent:
                continue
            other = next((one for one in self.log.exits if one.coin == coin and one.parent == it.parent
                          and it.parent < one.block < it.block), None)
            if other:
                call = f"call {self.node.account} between {coin} {it.block} {other.block} {other.shown}"
                yield Due("between", it.closes, 0, EXIT_BOND, call, False, it.block)

    # ---- a wallet's coins

    def tip_of(self, coin):
        """The block at which the wallet came to have the coin last; none where it never had it."""
        made = self.log.coins.get(coin)
        own = made and (made.account, made.key) == (self.node.account, self.key)
        tips = [tip for of, tip in self.node.tips if of == coin] + ([made.block] if own else [])
        return max(tips, default=None)

    def sent(self, coin, tip):
        """The transfer that signed the coin away from the tip, and isn't taken back."""
        for leaf, it in enumerate(self.node.leaves):
            if it and (it.coin, it.parent) == (coin, tip) and leaf not in self.node.reclaimed:
                return it
        return None

    def coin(self, coin, state):
        made, tip = self.log.coins.get(coin), self.tip_of(coin)
        it = Verdict(coin, made.amount if made else None, tip, state=state)
        it.exits = self.log.standing(coin)
        name = state.split(" ")[0]
        if made is None:
            it.word, it.notes = "STALE", ["the log doesn't have this coin, which the wallet has accepted"]
        elif made.paid:
            self.paid(it, made.paid, self.sent(coin, tip))
        elif name == "sending":
            self.sending(it, self.sent(coin, tip))
        elif name in ("held", "leaving"):
            self.held(it, self.node.account, name == "leaving")
        else:
            it.word, it.notes = "GONE", [f"the wallet says '{state}' of it, and the log doesn't say why"]
        return it

    def paid(self, it, exit, sent=None):
        """A coin that was paid out."""
        it.account, it.line = exit.account, exit.end[2]
        it.word = "PAID" if exit.account == self.node.account else "GONE"
        if sent:
            it.word, it.account, it.line = "SENT", sent.account, None
            it.notes.append(f"it was paid out to account {exit.account}, at line {exit.end[2]}")

    def sending(self, it, sent):
        it.word, it.account = "SENT", sent.account
        if sent.last is not None and self.log.blocks >= sent.last:
            it.notes.append(f"its last block, {sent.last}, is there: ask whether it was accepted; if not, take it back "
                            "(reclaim)")
        if sent.last is None:
            it.notes.append("it names no last block, so it can't be taken back")
        strange = [one for one in it.exits if one.account != sent.account]
        if strange:
            it.notes.append("an exit of it stands, and no watch looks at a coin that is under way: tell whom you sent "
                            "it to")

    # ---- a coin that is held, left with, or guarded

    def held(self, it, owner, leaves=False):
        it.due = self.due_for(it.coin)
        if it.due:
            it.due += self.instead(it.coin)
        own = next((one for one in it.exits if (one.account, one.block) == (owner, it.tip)), None)
        lost = [one for one in it.exits if one is not own and self.is_paid(one)]
        late = [one for one in lost if not self.is_first(own, one)]
        if late:
            self.too_late(it, late)
        elif own and self.is_missed(own):
            it.word = "TOO LATE"
            it.notes.append("a challenge of your exit wasn't answered in time: once it is over (finish), type leave "
                            "again, and enter its call, which takes 100 anew")
        elif it.due:
            it.word = "ACT BY"
        elif leaves or (own and lost):
            self.leaving(it, own, lost)
        else:
            it.word = "SAFE"
        it.by = min((due.by for due in it.due if due.by is not None), default=None)

    def is_paid(self, one):
        """An exit that will be paid if nothing more is entered: no challenge is open, and the watch has no call."""
        return not one.open_challenges() and not any(due.exit == one.block for due in self.due_for(one.coin))

    def is_first(self, own, other):
        """The owner's exit can be finished before the other one; or in the same second, where the first is paid."""
        return own and own.opens <= other.opens and not self.is_missed(own)

    def is_missed(self, own):
        """An open challenge can't be answered any more."""
        return any(one.until <= self.log.clock for one in own.open_challenges())

    def too_late(self, it, late):
        it.word = "TOO LATE"
        for one in late:
            it.account, it.line = one.account, one.line
            closed = self.log.clock >= one.closes
            it.notes.append(f"no call of yours stops the exit of block {one.block}" +
                            (": its 7 days are over" if closed else ": is the seed stolen, or the record older?"))

    def leaving(self, it, own, lost):
        """It is on its way out, and no call of the watch is due."""
        it.word, call = "ACT BY", f"call {self.node.account} finish {it.coin} {it.tip}"
        if own and self.log.clock >= own.opens:
            it.due = [Due("finish", min((one.opens for one in lost), default=None), 0, EXIT_BOND, call, False, it.tip)]
        elif own:
            it.word = "LEAVING"
            if lost:
                self.rivals(it, own, lost)
        else:
            self.not_started(it)

    def rivals(self, it, own, lost):
        """What to say where others' exits stand that nobody stops any more."""
        it.notes.append("another's exit stands too: finish the owner's first, and the other gets its bond alone")
        if any(one.opens == own.opens for one in lost):
            it.notes.append("that one may be finished in the same second: whichever is finished first is paid")

    def not_started(self, it):
        """It leaves, and its exit doesn't stand: it was never entered, or it is over."""
        past = [one for one in self.log.exits if (one.coin, one.block, one.account) ==
                (it.coin, it.tip, self.node.account) and one.end]
        how, account, line, _ = past[-1].end if past else ("", None, None, "")
        if how in ("after", "between"):
            it.word, it.account, it.line = "GONE", self.new_owner(past[-1].end[3]) or account, line
            it.notes.append("your exit was cancelled by a transfer that your key, or the owner's before you, signed")
            return
        it.due = [Due("exit", None, EXIT_BOND, 0, f"leave {it.coin}", False, it.tip)]
        if how == "dropped":
            it.notes.append(f"your exit was dropped at line {line}, and the coin is still yours: start it again")

    def new_owner(self, opening):
        """Whom the transfer of an opening names."""
        found = transfer_in(leaf_of(bytes.fromhex(opening[2:])))
        return found.account if found else None

    # ---- a watcher's

    def guard(self, coin, tip, owner):
        made = self.log.coins.get(coin)
        it = Verdict(coin, made.amount if made else None, tip, state="guarded")
        it.exits = self.log.standing(coin)
        owner = owner or (made.account if made else None)
        if made is None:
            it.word, it.notes = "STALE", ["the log doesn't have this coin, which the watcher guards"]
        elif made.paid:
            self.paid(it, made.paid)
            spent = made.paid.parent == tip
            it.word = "PAID" if (made.paid.block, made.paid.account) == (tip, owner) else "SENT" if spent else "GONE"
            it.notes.append(f"nothing is left to guard: release {coin} {tip}")
        elif self.was_spent(coin, tip):
            it.word, it.due = "SENT", []
            it.notes.append(f"the log shows that its owner sent it on: release {coin} {tip}, and guard it anew by its "
                            "new history")
        else:
            self.held(it, owner)
        if it.word != "ACT BY" and self.due_for(coin):
            it.word, it.due, it.by = "ACT BY", self.due_for(coin), min(due.by for due in self.due_for(coin))
        if any(of == coin and other > tip for of, other in self.node.guards):
            it.notes.append(f"a newer guard of the coin stands: release {coin} {tip} before you pay a bond for it")
        return it

    def was_spent(self, coin, tip):
        """A challenge at the tip was answered, or a standing exit spends it: its owner signed it away."""
        return any(one.parent == tip for one in self.log.standing(coin)) or any(
            one.block == tip and not one.is_open() for it in self.log.exits if it.coin == coin
            for one in it.challenges)


# ---- held to the proved program

# What each of the proved program's words that isn't good is here.
WORSE = {"act": "ACT BY", "late": "TOO LATE", "gone": "GONE", "frozen": "ACT BY", "stale": "STALE"}


def hold(verdicts, told, log, hidden=()):
    """Takes the proved program's word for each coin where it is the worse one, and its calls where they are more; of a
    coin of which a block was hidden the start of its own exit too."""
    left = {}
    for coin, words, lines in told or []:
        left.setdefault(coin, []).append((words, lines))
    for it in verdicts:
        if left.get(it.coin):
            words, lines = left[it.coin].pop(0)
            hold_one(it, words, lines, log)
            if it.coin in hidden and words[0] == "act":
                leave(it, lines)


def leave(it, lines):
    """A block of the coin wasn't shown: it is to be taken out at once, where nothing else is due."""
    starts = [line for line in lines if line.split(" ")[2:3] in (["start"], ["exit"])]
    if starts and not it.due:
        it.by, it.due = None, [Due("exit", None, EXIT_BOND, 0, starts[0], False, it.tip)]
        it.notes.append("the operator didn't show a block of it: take it out at once, since the first exit is paid")


def hold_one(it, words, lines, log):
    if it.word in GOOD and words[0] in WORSE:
        it.word = WORSE[words[0]]
        it.notes.append(f"the proved program says '{' '.join(words)}' of it")
    known = {due.call for due in it.due}
    for line in lines:
        kind = line.split(" ")[2] if line.startswith("call ") else ""
        if line in known or kind not in ("after", "between", "before", "respond"):
            continue
        end = next((one.closes for one in it.exits if one.block == int(line.split(" ")[4])), log.clock)
        it.due.append(Due(kind, end, CHALLENGE_BOND if kind == "before" else 0, 0, line, False, int(line.split(" ")[4])))
    if words[0] == "act" and it.word == "ACT BY":
        it.by = min(it.by if it.by is not None else int(words[1]) + 1, int(words[1]) + 1)


# ---- all of it

def costs_of(verdicts):
    """What all calls take together that are due; each counts once, whichever of two guards asks for it."""
    return sum({due.call: due.costs for it in verdicts for due in it.due}.values())


def whole(verdicts, stale=None, now=0):
    """The word of the node: what is to be told first. Where the log is old and a day has passed, that it is old."""
    over = ["STALE" if stale and it.by is not None and it.by <= now else it.word for it in verdicts]
    words = over + (["STALE"] if stale else [])
    return min(words or ["EMPTY"], key=ORDER.index)


def is_stale(log, now):
    """Why the log is too old to be believed, by the root chain's time now; nothing where it isn't."""
    ends = [it.closes for it in log.standing()] + [it.opens for it in log.standing()]
    ends += [one.until for it in log.standing() for one in it.open_challenges()]
    passed = [end for end in sorted(ends) if log.clock < end <= now]
    if passed:
        return passed[0]
    return log.clock + OLD if now >= log.clock + OLD else None


def plain(it):
    """A verdict as plain values, for JSON."""
    out = asdict(it)
    out["exits"] = [exit_plain(one) for one in it.exits]
    return out


def exit_plain(one):
    challenges = [{"block": it.block, "account": it.account, "until": it.until, "answered": not it.is_open()}
                  for it in one.challenges]
    return {"block": one.block, "account": one.account, "line": one.line, "start": one.start, "closes": one.closes,
            "opens": one.opens, "challenges": challenges}
