"""The sentences that stand in front of a story: who tried what, who answered, who has the coin and the money, and what
is due next. They are made of the lines and their answers (told.py), and judge nothing.
"""
from dataclasses import dataclass

from answered import is_good
from plainly import CHALLENGE_TIME, EXIT_TIME, count, day_of, why
from told import CHAIN, OPERATOR

MOST, LEAST, MOST_EXITS, MOST_NAMED = 6, 3, 3, 3
BOND, CHALLENGE = 100, 40
# What a call on an exit shows, for whoever doesn't know its name.
CALLS = {
    "after": "shows the contract where whoever exits has sent the coin on",
    "between": "shows the contract that an earlier transfer of the exit's parent counts",
    "before": "asks, by an older transfer, what became of the coin",
    "respond": "answers a challenge by the transfer that came next",
    "finish": "ends an exit whose time is over: it is paid, or dropped",
    "start": "claims a coin by its deposit, with a bond of 100",
    "exit": "claims a coin by a transfer, with a bond of 100",
    "commit": "puts a block's root on the root chain",
    "deposit": "makes money a coin",
}


@dataclass
class Made:
    """A coin: its amount, whose deposit it was, and who accepted it since."""

    amount: int
    by: str
    accepted: list


def listed(names):
    names = list(dict.fromkeys(names))
    return names[0] if len(names) == 1 else f"{', '.join(names[:-1])} and {names[-1]}"


class Sentences:
    """What a run was about."""

    def __init__(self, story):
        self.story, self.coins = story, {}
        for line in story.lines:
            if line.answer[0] == "deposited":
                row = self.row_of(line)
                lane = row.source if row else story.by_account.get(line.get("account"), "")
                self.coins[line.answer[1]] = Made(int(line.get("amount")), lane, [])
            elif line.answer[0] == "accepted" and line.answer[1] in self.coins:
                self.coins[line.answer[1]].accepted.append(line.get("wallet"))

    def row_of(self, line):
        return next((row for row in self.story.rows if any(it is line for it in row.lines)), None)

    def name(self, lane):
        if lane == OPERATOR:
            return "the operator"
        name = self.story.lanes[lane].name if lane in self.story.lanes else "somebody"
        return name.lower() if name == lane.capitalize() and lane.startswith("account ") else name

    def lines(self):
        """Three to six sentences, where the run has so much to tell."""
        front = [*self.beginnings()]
        middle = [*self.trouble(), *self.exits()]
        back = [*self.ends(), *self.next()]
        room = max(1, MOST - len(front) - len(back))
        told = [*front, *middle[:room], *back]
        if len(told) < LEAST and not self.story.exits and self.coins:
            told.append("Nobody claimed a coin on the root chain.")
        if len(told) < LEAST:
            lines = count(len(self.story.lines), "line")
            told.append(f"The run has {lines}, and its clock shows {self.clock()} at the end.")
        return told[:MOST]

    def clock(self):
        return day_of(self.story.clock)

    # ---- what was there

    def beginnings(self):
        if not self.coins:
            return
        if len(self.coins) > MOST_NAMED:
            moved = sum(bool(it.accepted) for it in self.coins.values())
            sent = f", and {moved} of them came to other wallets" if moved else ""
            yield f"{len(self.coins)} coins were deposited{sent}."
            return
        for coin, it in self.coins.items():
            to = f", which {listed(map(self.name, it.accepted))} accepted later" if it.accepted else ""
            yield f"{self.cap(self.name(it.by))} deposited {it.amount:,}: coin {coin}{to}."

    def cap(self, words):
        return words[:1].upper() + words[1:]

    # ---- what went wrong on the way

    def trouble(self):
        """What wallets and nodes refused, lost or took back."""
        refused = [line for line in self.story.lines if line.form in ("accept", "send") and line.answer[0] == "refused"]
        if refused:
            line = refused[0]
            does = "the coin" if line.form == "accept" else "to send a coin"
            more = f", {self.times(len(refused))}" if len(refused) > 1 else ""
            number = line.answer[2] if len(line.answer) > 2 else ""
            because = why(line.answer).replace("block n", f"block {number}").replace(
                ", of that block", f", of block {number}")
            yield f"{self.cap(self.name(line.get('wallet')))}'s wallet refused {does}{more}: {because}."
        down = [row for row in self.story.rows if row.kind == "cross"]
        if down:
            lanes = [row.source for row in down]
            each = [f"{self.name(it)} went down {self.times(lanes.count(it))}" for it in dict.fromkeys(lanes)]
            yield f"{self.cap(listed(each))}."
        back = [line for line in self.story.lines if line.form == "reclaim" and is_good(line)]
        if back:
            coins = listed(f"coin {line.answer[1]}" for line in back)
            who = self.cap(listed(self.name(line.get("wallet")) for line in back))
            yield f"{who} took {coins} back, since the transfer can't come any more."
        lost = [line for line in self.story.lines if line.answer[:2] == ["refused", "no-funds"]]
        if lost:
            row = self.row_of(lost[0])
            who = self.name(row.source) if row else "somebody"
            yield f"{self.cap(who)} had {int(lost[0].answer[2]):,}, and the call took {int(lost[0].answer[3]):,}."

    def times(self, number):
        return {1: "once", 2: "twice"}.get(number, f"{number} times")

    # ---- exits

    def exits(self):
        for it in self.story.exits[:MOST_EXITS]:
            yield self.exit(it)
        more = len(self.story.exits) - MOST_EXITS
        if more > 0:
            yield f"There {'was' if more == 1 else 'were'} {count(more, 'more exit')}."

    def exit(self, it):
        """An exit: who started it, who opposed it, and how it ended."""
        who, how = self.name(it.by), self.ended(it)
        tried = "took" if how == "paid" and not self.victim(it) else "started to take" if it.own else "tried to take"
        begins = f"{self.cap(who)} {tried} coin {it.coin} out from {day_of(it.start)} on"
        asked = [self.name(self.story.rows[one.since].source) for one in it.challenges]
        answered = [one for one in it.challenges if one.ended is not None and one.ended != it.ended]
        if asked:
            often = f" {self.times(len(asked))}" if len(asked) > 1 and len(set(asked)) == 1 else ""
            begins += f"; {listed(asked)} challenged that{often}"
        if answered:
            begins += ", and was answered" + ("" if len(answered) == len(asked) else f" {self.times(len(answered))}")
        if it.ended is None:
            return f"{begins}. {self.standing(it)}"
        row = self.story.rows[it.ended]
        by, kind = self.name(row.source), row.label.split(",")[0].split(" ")[0]
        return f"{begins}{getattr(self, how)(it, who, by, kind)}"

    def victim(self, it):
        """The wallet that held the coin when somebody else's exit of it began."""
        past = [holder for row, _, holder in self.story.coins.get(it.coin, []) if row <= it.since]
        return past[-1] if past and past[-1] not in ("", it.by) else ""

    def standing(self, it):
        if it.closed is not None:
            return f"The exit stands; its 7 days are over, and it can be finished from {day_of(it.start + EXIT_TIME)}."
        stop = day_of(it.start + CHALLENGE_TIME)
        return f"The exit stands: it can be stopped before {stop}, and finished from {day_of(it.start + EXIT_TIME)}."

    def cancelled(self, it, who, by, kind):
        if by == who:
            return f". {self.cap(by)} cancelled that again."
        shown = f"that {who} had sent it on" if kind == "after" else "an earlier transfer of it, which counts"
        return f". {self.cap(by)} showed {shown}, and won the bond of {BOND}."

    def paid(self, it, who, by, kind):
        amount = self.coins[it.coin].amount if it.coin in self.coins else 0
        day = day_of(self.story.rows[it.ended].clock)
        if self.victim(it):
            return f". Nobody stopped it in time, and {who} was paid {amount:,} on {day}."
        if it.challenges:
            return f". {self.cap(who)} was paid {amount:,} on {day}."
        return f", and was paid {amount:,} on {day}."

    def dropped(self, it, who, by, kind):
        open_ones = [one for one in it.challenges if one.ended in (None, it.ended)]
        if open_ones:
            winner = self.name(self.story.rows[open_ones[0].since].source)
            if len(open_ones) < len(it.challenges):
                return f". What wasn't answered stood, and {winner} has the bond of {BOND}."
            return f", nobody answered, and {winner} has the bond of {BOND}."
        return ". The coin was paid out before, so the bond came back, and nothing else."

    # ---- the end

    def ends(self):
        held, lost = {}, []
        for name, coin, *words in self.story.run.verdicts:
            if words[0] == "held":
                held.setdefault(name, []).append(coin)
            elif words[0] in ("unattended", "lost"):
                lost.append((name, coin, words))
        for name, coin, words in lost:
            amount = self.coins[coin].amount if coin in self.coins else 0
            seen = "though each deadline was attended" if words[0] == "lost" else self.unseen(words[1])
            taken = any(it.coin == coin and it.by != name and self.ended(it) == "paid" for it in self.story.exits)
            what = f"coin {coin}, {amount:,}" if taken else f"the exit of coin {coin}"
            yield f"{name.capitalize()} lost {what}, {seen}."
        for name, coins in self.under_way().items():
            them = "them" if coins[1:] else "it"
            yield f"{name.capitalize()} signed {self.of(coins)} away, and no wallet accepted {them}."
        if held:
            each = [f"{name.capitalize()} has {self.of(coins)}" for name, coins in held.items()]
            yield f"At the end {listed(each)}."
        yield from self.exhibit()

    def under_way(self):
        """The coins that a wallet signed away, where no wallet accepted them behind that, and nobody was paid."""
        found = {}
        paid = {it.coin for it in self.story.exits if self.ended(it) == "paid"}
        for name, coin, *words in self.story.run.verdicts:
            accepted = self.coins[coin].accepted if coin in self.coins else []
            if words[0] == "away" and coin not in paid and accepted[-1:] in ([], [name]):
                found.setdefault(name, []).append(coin)
        return found

    def of(self, coins):
        return f"{len(coins)} coins" if len(coins) > MOST_NAMED else listed(f"coin {coin}" for coin in coins)

    def unseen(self, number):
        row = next((row for row in self.story.rows if row.numbers[1] == int(number)), None)
        return f"because what was due by {day_of(row.clock) if row else 'then'} wasn't done"

    def exhibit(self):
        last = self.story.run.last.split(" ")
        if last[0] == "forgery":
            yield f"Line {last[1]} shows a signature that its honest wallet never made: somebody else has the seed."
        elif last[0] == "collision":
            yield "The run shows two different strings with one digest, which nobody should be able to find."
        elif last[:2] in (["bad", "line"], ["too", "long"]):
            yield f"Line {last[2]} ended the run: it {'is a bad line' if last[0] == 'bad' else 'passes a limit'}."

    def next(self):
        ahead = self.story.rows[-1].ahead if self.story.rows else []
        if not ahead:
            return
        time, what = ahead[0]
        if what.startswith("the "):
            yield f"Next: from {day_of(time)} on {what}."
        else:
            yield f"Next, before {day_of(time)}: {what}."

    def title(self):
        """What the run was about, as a title."""
        hostile = [it for it in self.story.exits if not it.own]
        taken = [it for it in hostile if self.ended(it) == "paid"]
        if taken and self.victim(taken[0]):
            victim = self.name(self.victim(taken[0]))
            return f"{self.cap(self.name(taken[0].by))} takes coin {taken[0].coin} from {victim}"
        if hostile and not taken:
            whose = f" from {self.name(self.victim(hostile[0]))}" if self.victim(hostile[0]) else ""
            return f"{self.cap(self.name(hostile[0].by))} tries to take coin {hostile[0].coin}{whose}"
        own = [it for it in self.story.exits if self.ended(it) == "paid"] or self.story.exits
        if own:
            return f"{self.cap(self.name(own[0].by))} takes coin {own[0].coin} out"
        refused = [line for line in self.story.lines if line.form == "accept" and line.answer[0] == "refused"]
        if refused:
            return f"{self.cap(self.name(refused[0].get('wallet')))}'s wallet refuses a coin"
        return f"What became of {self.of(list(self.coins))}" if self.coins else "A root chain without coins"

    def ended(self, it):
        return self.story.rows[it.ended].lines[-1].answer[0] if it.ended is not None else ""


class Purse:
    """What each account won and lost, and why."""

    def __init__(self, story):
        self.story, self.brought, self.moves = story, {}, {}
        coins = {}
        for line in story.lines:
            if line.form == "fund" and is_good(line):
                self.move(story.by_account.get(line.get("account")), int(line.get("amount")))
        for row in story.rows:
            line = row.lines[-1]
            if line.answer[0] == "deposited":
                coins[line.answer[1]] = int(line.get("amount"))
                self.move(row.source, -int(line.get("amount")), f"deposited {int(line.get('amount')):,}")
        for it in story.exits:
            self.of_exit(it, coins)

    def move(self, lane, amount, why=None):
        if not lane or lane == CHAIN:
            return
        if why is None:
            self.brought[lane] = self.brought.get(lane, 0) + amount
        else:
            self.moves.setdefault(lane, []).append((amount, why))

    def of_exit(self, it, coins):
        end = self.story.rows[it.ended] if it.ended is not None else None
        how = end.lines[-1].answer[0] if end else ""
        open_ones = [one for one in it.challenges if one.ended is None or one.ended == it.ended]
        if how == "paid":
            self.move(it.by, coins.get(it.coin, 0), f"was paid {coins.get(it.coin, 0):,} for coin {it.coin}")
        elif how in ("cancelled", "dropped"):
            winner = end.source if how == "cancelled" else (
                self.story.rows[open_ones[0].since].source if open_ones else it.by)
            if winner != it.by:
                self.move(it.by, -BOND, f"lost a bond of {BOND}")
                self.move(winner, BOND, f"won a bond of {BOND}")
        else:
            self.move(it.by, -BOND, f"has a bond of {BOND} in an exit")
        for one in it.challenges:
            challenger = self.story.rows[one.since].source
            if one.ended is not None and one.ended != it.ended:
                winner = self.story.rows[one.ended].source
                if winner != challenger:
                    self.move(challenger, -CHALLENGE, f"lost a bond of {CHALLENGE}")
                    self.move(winner, CHALLENGE, f"won a bond of {CHALLENGE}")
            elif it.ended is None:
                self.move(challenger, -CHALLENGE, f"has a bond of {CHALLENGE} in a challenge")

    def rows(self):
        """For each account that had money: its name, what it brought, what it has, and why."""
        for lane in self.story.lanes:
            moves = self.moves.get(lane, [])
            brought = self.brought.get(lane, 0)
            if brought or moves:
                has = brought + sum(amount for amount, _ in moves)
                yield lane, brought, has, [why for _, why in moves]
