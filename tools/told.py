"""What a schedule and the text of its run say, as rows: who does what to whom, what it was answered, and what stands
meanwhile. It judges nothing: each answer and each verdict is the text's.
"""
from dataclasses import dataclass, field

from answered import OPERATOR, is_good, items_of, node_of, stays
from plainly import CHALLENGE_TIME, EXIT_TIME, count, day_of, said

# (no declared name has a blank)
CHAIN = "root contract"
KINDS = {"wallet": "wallet", "watcher": "watcher", "rogue": "stranger"}
SETS_UP = (*KINDS, "chain", "fund")
STARTS, ENDS = ("start", "exit"), ("cancelled", "paid", "dropped")
TIMES = ("3½", "7", "10½")


@dataclass
class Lane:
    """A column of the picture: its name, what it is, and the money that was brought to its account."""

    name: str
    kind: str
    account: str = ""
    money: int = 0


@dataclass
class Row:
    """A row: an arrow where it has a target, else a mark at its source; `kind` says how it is drawn."""

    lines: list
    kind: str = "mark"
    source: str = ""
    target: str = ""
    label: str = ""
    answer: str = ""
    bad: bool = False
    like: str = ""
    holders: frozenset = frozenset()
    at_risk: frozenset = frozenset()
    down: frozenset = frozenset()
    clock: int = 0
    passed: int = 0
    ahead: list = field(default_factory=list)

    @property
    def numbers(self):
        return self.lines[0].number, self.lines[-1].number


@dataclass
class Challenge:
    block: str
    since: int
    until: int
    ended: int = None


@dataclass
class Exit:
    """An exit that stands from row `since` to row `ended`, and whose 7 days are over from row `closed` on. It is `own`
    where no stranger started it."""

    coin: str
    block: str
    by: str
    own: bool
    start: int
    since: int
    closed: int = None
    ended: int = None
    challenges: list = field(default_factory=list)

    def open_challenges(self):
        return [one for one in self.challenges if one.ended is None]


class Story:
    """The rows of a run, made line by line; with what `safe` says to its holders, where that is known (looked.py)."""

    def __init__(self, run, names=None, looks=None):
        self.names, self.looks = names or {}, looks or {}
        self.run, self.lines, self.lanes, self.rows, self.exits = run, run.lines, {}, [], []
        self.clock, self.offers, self.held, self.guarded, self.down = 0, {}, {}, {}, set()
        self.coins, self.changed, self.paid, self.makers, self.told = {}, [], set(), {}, set()
        self.joined = None
        self.operator = self.lines[0].get("operator") if self.lines else ""
        self.users = {}
        for line in self.lines:
            for item in items_of(line):
                self.users.setdefault(item, line.number)
        self.many = sum(line.answer[0] == "deposited" for line in self.lines) > 1
        self.declare()
        for line in self.lines:
            if line.number not in self.told:
                self.tell(line)

    # ---- the columns

    def declare(self):
        """Makes the lanes: those with names, in their lines' order, other accounts, the operator, the contract."""
        for line in self.lines:
            if line.form in KINDS:
                name = line.get("name")
                self.lanes[name] = Lane(name.capitalize(), KINDS[line.form], line.get("account"))
        self.by_account = {lane.account: key for key, lane in reversed(self.lanes.items())}
        for line in self.lines:
            if line.form.startswith("call "):
                self.lane_of(line.get("account"))
        if any(node_of(line) == OPERATOR and line.form not in KINDS for line in self.lines):
            self.lane_of(self.operator)
        if OPERATOR in self.lanes:
            self.lanes[OPERATOR] = self.lanes.pop(OPERATOR)
        self.lanes[CHAIN] = Lane("Root contract", "")
        for line in self.lines:
            if line.form not in SETS_UP:
                break
            key = self.by_account.get(line.get("account"))
            if line.form == "fund" and is_good(line) and key:
                self.lanes[key].money += int(line.get("amount"))

    def lane_of(self, account):
        """The lane of an account; it is made where there is none."""
        if account not in self.by_account:
            operator = account == self.operator
            key = OPERATOR if operator else f"account {account}"
            named = self.names.get(account)
            self.lanes[key] = Lane(named or ("Operator" if operator else f"Account {account}"), "", account)
            self.by_account[account] = key
        elif account == self.operator and OPERATOR not in self.lanes:
            self.lanes[OPERATOR] = Lane("Operator", "")
        return self.by_account[account]

    def looks_at(self, line):
        """What `safe` says anew behind a line: of whom and of which coin, and the look."""
        for it in self.looks.get(line.number, []):
            if it.node in self.lanes:
                yield self.lanes[it.node].name + self.of_coin(it.coin), it

    def name_of(self, account):
        key = self.by_account.get(account)
        return self.lanes[key].name if key else f"account {account}"

    # ---- the rows

    def tell(self, line):
        if line.form in SETS_UP and line.answer[0] != "refused" and (line.form != "fund" or not self.rows):
            return
        if line.form == "fund":
            amount = f"{self.name_of(line.get('account'))} gets {int(line.get('amount')):,}"
            self.add([line], kind="said", label="fund", answer=amount if is_good(line) else said(line.answer))
        elif line.form == "tick":
            self.tick(line)
        elif line.form == "money":
            balance = int(line.answer[1])
            answer = f"{self.name_of(line.get('account'))} has {balance:,}"
            self.add([line], kind="said", label="balance", answer=answer)
        elif line.form.startswith("call ") or line.form == "deposit" or line.form == "enter":
            self.call(line, [line])
        elif line.form in ("crash", "cut"):
            self.crash(line)
        else:
            self.command(line)

    def add(self, lines, **parts):
        """Adds a row of these lines, the last of which has its answer."""
        answer = lines[-1].answer
        parts.setdefault("answer", said(answer))
        parts["bad"] = answer[0] in ("refused", "down", "nothing")
        parts.setdefault("like", " ".join([lines[-1].form, answer[0], parts.get("source", "")]))
        holders = frozenset(name for name, coins in self.held.items() if coins)
        row = Row(lines, holders=holders, at_risk=frozenset(self.at_risk()), down=frozenset(self.down), **parts)
        row.clock, row.ahead = self.clock, self.deadlines()
        self.rows.append(row)
        self.told |= {line.number for line in lines}
        for coin in self.changed:
            self.note(coin, len(self.rows) - 1)
        self.changed = []
        return row

    def note(self, coin, row):
        """Notes what a coin is from this row on, and whose: held, at risk, on its way out, paid, or with no wallet."""
        holder = next((name for name, coins in self.held.items() if coin in coins), "")
        exits = [it for it in self.standing() if it.coin == coin]
        hostile = any(not it.own for it in exits)
        now = "paid" if coin in self.paid else "risk" if holder and hostile else "leaves" if exits else (
            "held" if holder else "other")
        past = self.coins.setdefault(coin, [])
        if not past or past[-1][1:] != (now, holder):
            past.append((row, now, holder))

    def at_risk(self):
        """The wallets with a coin of which a stranger's exit stands."""
        taken = {it.coin for it in self.standing() if not it.own}
        return (name for name, coins in self.held.items() if coins & taken)

    def standing(self):
        return [it for it in self.exits if it.ended is None]

    def deadlines(self):
        """What has to come before when, as the standing exits have it."""
        found = []
        for it in self.standing():
            what = f"exit of block {it.block}{self.of_coin(it.coin)}"
            if it.closed is None and not (it.own and self.lanes[it.by].kind == "wallet"):
                found.append((it.start + CHALLENGE_TIME, f"cancel or challenge the {what}"))
            for one in it.open_challenges():
                if one.until > self.clock:
                    found.append((one.until, f"answer the challenge of the {what}"))
            found.append((it.start + EXIT_TIME, f"{'the ' + what} can be finished"))
        return sorted(found)

    def following(self, line, *forms):
        """The line after this one, where it is of such a form and uses this one's item or offer."""
        after = self.lines[line.number] if line.number < len(self.lines) else None
        return after if after and after.form in forms else None

    def of_coin(self, coin):
        return f", coin {coin}" if self.many and coin else ""

    def tick(self, line):
        if line.answer[0] == "refused":
            self.add([line], kind="said", label="tick")
            return
        was, self.clock = self.clock, int(line.get("time"))
        over = sorted({days for end, days in self.ends() if was < end <= self.clock}, key=TIMES.index)
        for it in self.standing():
            if it.closed is None and it.start + CHALLENGE_TIME <= self.clock:
                it.closed = len(self.rows)
        answer = " and ".join(filter(None, [", ".join(over[:-1]), *over[-1:]])) + " days are over" if over else ""
        row = self.add([line], kind="time", label=day_of(self.clock), answer=answer)
        row.passed = self.clock - was

    def ends(self):
        """When the times of the standing exits and of their open challenges end."""
        for it in self.standing():
            yield it.start + CHALLENGE_TIME, "7"
            yield it.start + EXIT_TIME, "10½"
            yield from ((one.until, "3½") for one in it.open_challenges())

    # ---- commands of nodes, and strangers

    def command(self, line):
        node, good = node_of(line), is_good(line)
        self.offers.pop(node, None)
        tell = getattr(self, f"of_{line.form}", None)
        if tell and good:
            tell(line, node)
        elif line.form in ("offer", "lay", "accept", "guard", "reclaim"):
            self.handed(line, node)
        elif line.form == "watch":
            self.add([line], kind="look", source=CHAIN, target=node, label="looks")
        else:
            self.add([line], source=node, label=self.label_of(line))

    def label_of(self, line):
        """A command in short."""
        coin = line.get("coin")
        if line.form in ("send", "sign"):
            return self.transfer(coin, line.get("to"))
        if line.form == "bundle":
            return "history" + (f" to block {line.get('tip')}" if line.get("tip") != "0" else "") + self.of_coin(coin)
        if line.form == "absences":
            first, last = int(line.get("after")) + 1, line.get("last")
            return (f"blocks {first} to {last}" if str(first) != last else f"block {last} alone") + self.of_coin(coin)
        if line.form == "prove":
            return f"opening of block {line.get('block')}{self.of_coin(coin)}"
        return {"seal": "seals", "open": "opens"}.get(line.form, line.form + self.of_coin(coin))

    def transfer(self, coin, to):
        name = "an owner" if to.startswith("0x") else to.capitalize()
        return (f"coin {coin}" if self.many else "transfer") + f" to {name}"

    def of_watch(self, line, node):
        kinds = line.answer[2:]
        self.offers[node] = self.resolved(node, kinds)
        self.add([line], kind="look", source=CHAIN, target=node, label="looks")

    def resolved(self, node, kinds):
        """The offered calls, each with its exit: a respond is for the own one, the others for those of strangers."""
        coins = self.held.get(node, set()) | self.guarded.get(node, set())
        standing = sorted(self.standing(), key=lambda it: (int(it.coin), it.since))
        own = iter([it for it in standing if it.by == node])
        others = iter([it for it in standing if it.by != node and (it.coin in coins or not coins)])
        return [(kind, next(own if kind == "respond" else others, None)) for kind in kinds]

    def of_leave(self, line, node):
        what = line.get("coin"), line.answer[1]
        self.offers[node] = [("start", what)]
        after = self.following(line, "enter")
        if after and (after.get("node"), after.get("number")) == (node, "1"):
            self.call(after, [line, after])
        else:
            self.add([line], source=node, label="leave" + self.of_coin(what[0]))

    def of_seal(self, line, node):
        self.offers[OPERATOR] = [("commit", f", {count(line.answer[1], 'leaf', 'leaves')}")]
        after = self.following(line, "enter")
        if after and (after.get("node"), after.get("number")) == (OPERATOR, "1"):
            self.call(after, [line, after])
        else:
            self.add([line], source=node, label="seals")

    def of_send(self, line, node):
        self.gives_away(node, line.get("coin"))
        last = f", up to block {line.get('last')}" if line.get("last") else ""
        self.makes(line, node, self.label_of(line), "signed" + last)

    def of_again(self, line, node):
        self.makes(line, node, f"coin {line.get('coin')}, as signed", "the same transfer")

    def of_sign(self, line, node):
        self.makes(line, node, self.label_of(line), "signed")

    def of_bundle(self, line, node):
        self.makes(line, node, f"history to block {line.answer[1]}{self.of_coin(line.get('coin'))}", "made")

    def of_absences(self, line, node):
        self.makes(line, node, self.label_of(line), "made")

    def of_prove(self, line, node):
        user = self.users.get(line.number)
        after = self.lines[user - 1] if user else None
        if after and after.form.startswith("call "):
            to = self.lane_of(after.get("account"))
            if to != node:
                self.add([line], kind="arrow", source=node, target=to, label=self.label_of(line), answer="handed out")
                return
        self.makes(line, node, self.label_of(line), "made")

    def makes(self, line, node, label, answer):
        """What a line makes is told with the next line, where that uses it; else it has a row of its own."""
        self.makers[line.number] = node, label
        after = self.following(line, "offer", "lay", "accept", "guard", "reclaim")
        if after and items_of(after) == [line.number]:
            self.told.add(line.number)
            self.joined = line
            return
        self.add([line], source=node, label=label, answer=answer)

    def made(self, line):
        """Who made the bytes that are handed in, and what they are: those of an earlier line, or written out."""
        found = [self.makers[number] for number in items_of(line) if number in self.makers]
        return found[0] if found else (None, "bytes")

    def with_maker(self, line):
        """The line, behind the one that made its item, where that is the one before and isn't told yet."""
        before, self.joined = self.joined, None
        return [before, line] if before and before.number == line.number - 1 else [line]

    def of_accept(self, line, node):
        self.holds(node, line.answer[1])
        self.handed(line, node)

    def of_guard(self, line, node):
        self.guarded.setdefault(node, set()).add(line.answer[1])
        self.handed(line, node)

    def of_reclaim(self, line, node):
        self.holds(node, line.answer[1])
        self.handed(line, node)

    def handed(self, line, node):
        """Bytes are handed to a node."""
        lines = self.with_maker(line)
        maker, label = self.made(line)
        maker = maker or (OPERATOR if node != OPERATOR and OPERATOR in self.lanes else node)
        if line.form == "reclaim" and is_good(line):
            label = "absences, " + label
        if maker == node or (line.form == "lay" and self.lanes[maker].kind != "stranger"):
            label = "lays that transfer" if line.form == "lay" and maker != node else f"{line.form}: {label}"
            self.add(lines, source=node, label=label)
        else:
            self.add(lines, kind="arrow", source=maker, target=node, label=label)

    def holds(self, wallet, coin):
        self.held.setdefault(wallet, set()).add(coin)
        self.changed.append(coin)

    def gives_away(self, wallet, coin):
        self.held.get(wallet, set()).discard(coin)
        self.changed.append(coin)

    # ---- crashes

    def crash(self, line):
        node, inner = line.get("node"), line.inner
        was_down = node in self.down
        self.offers.pop(node, None)
        if not inner:
            self.down.add(node)
            self.add([line], kind="cross", source=node, label="crash")
            return
        kept = stays(line)
        if inner.form == "send" and kept:
            self.gives_away(node, inner.get("coin"))
        self.down.add(node)
        label = f"crash in {inner.form}{self.of_coin(inner.get('coin'))}"
        answer = said(line.answer) if was_down or inner.form == "open" or line.answer[0] != "stopped" else (
            "its record stays" if kept else "its record is lost")
        self.add([line], kind="cross", source=node, label=label, answer=answer)

    def of_open(self, line, node):
        self.down.discard(node)
        self.add([line], source=node, label="opens")

    # ---- calls on the contract

    def call(self, line, lines):
        """A call, entered or made by a line of its own: its row, and what stands after it."""
        lane, form, what, more = self.caller(line)
        label = form
        if form in STARTS:
            label = f"exit of block {what[1]}{self.of_coin(what[0])}"
        elif form == "deposit":
            label = f"deposit {int(line.get('amount')):,}"
        elif isinstance(what, Exit):
            label += self.of_coin(what.coin)
        self.stands_after(line, lane, what)
        answer = said(line.answer) + (more if line.answer[0] == "committed" else "")
        self.add(lines, kind="arrow", source=lane, target=CHAIN, label=label, answer=answer)

    def caller(self, line):
        """Who makes the call of a line, its form, what it is about, and what its answer doesn't say of a commit."""
        if line.form == "enter":
            node, number = line.get("node"), int(line.get("number"))
            offers = self.offers.get(node, [])
            form, what = offers[number - 1] if 0 < number <= len(offers) else ("enter", None)
            return node, form, what, what if form == "commit" else ""
        if line.form == "deposit":
            return line.get("wallet"), "deposit", None, ""
        form, coin = line.form.split(" ")[1], line.get("coin")
        if form in STARTS:
            what = coin, line.get("block" if form == "start" else "exit")
        else:
            what = next((it for it in self.standing() if (it.coin, it.block) == (coin, line.get("exit"))), None)
        return self.lane_of(line.get("account")), form, what, ""

    def stands_after(self, line, lane, what):
        row, answer = len(self.rows), line.answer[0]
        if answer == "deposited":
            self.changed.append(line.answer[1])
            if self.lanes[lane].kind == "wallet":
                self.holds(lane, line.answer[1])
        elif answer == "started":
            others = {name for name, coins in self.held.items() if what[0] in coins} - {lane}
            own = self.lanes[lane].kind != "stranger" and not others
            self.changed.append(what[0])
            self.exits.append(Exit(what[0], what[1], lane, own, self.clock, row))
        elif isinstance(what, Exit):
            self.changes(line, what, row, answer)

    def changes(self, line, it, row, answer):
        """An accepted call on an exit that stands."""
        self.changed.append(it.coin)
        if answer in ENDS:
            it.ended = row
        elif answer == "challenged":
            it.challenges.append(Challenge(line.get("block"), row, int(line.answer[1])))
        elif answer == "responded" and it.open_challenges():
            found = [one for one in it.open_challenges() if one.block and one.block == line.get("challenged")]
            (found or it.open_challenges())[0].ended = row
        if answer == "paid":
            self.paid.add(it.coin)
            for wallet in self.held:
                self.gives_away(wallet, it.coin)
