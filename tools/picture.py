"""The picture of a run: a lane for each actor, time going down, and a row for each event, with its answer at the
right.

Beside the root contract stands a bar for each exit, and behind these one for each coin.
"""
from drawing import Drawing, width_of
from looked import COLORS
from plainly import day_of, span_of
from told import CHAIN, Row

LEFT, LANE, ROW, HEAD, BARS, COLUMN = 132, 124, 40, 116, 52, 13
MOST_ALIKE, MOST_ROWS, MOST_COINS, WIDE_COINS = 4, 1500, 40, 8
# So many lines are told of rows that are drawn as one; and so many words of `safe` on a lane.
MOST_TOLD, MOST_SAID = 300, 3
VERDICTS = {"held": "green", "paid": "green", "away": "grey", "unattended": "amber", "lost": "red"}
LEGEND = {"held": "a wallet holds it", "risk": "at risk: a stranger's exit stands", "leaves": "on its way out",
          "other": "no wallet has it"}
STATES = {"held": "held", "risk": "risk", "leaves": "leaves", "other": "other"}


class TooLong(Exception):
    """The run has more rows than a picture of any use."""


def short(text, most=46):
    """A line of a schedule, where long words are cut."""
    words = [word if len(word) <= 14 else f"{word[:10]}.." for word in text.split(" ")]
    line = " ".join(words)
    return line if len(line) <= most else line[: most - 2] + ".."


def fewer(rows):
    """The rows, where of many alike in a row only the first and the last are drawn; with the new place of each."""
    shown, places, at = [], {}, 0
    while at < len(rows):
        end = at
        while end + 1 < len(rows) and rows[end + 1].like == rows[at].like and rows[at].kind != "time":
            end += 1
        if end - at < MOST_ALIKE:
            end = at
        between = rows[at + 1 : end]
        for place, row in enumerate(rows[at : end + 1]):
            places[at + place] = len(shown) + (0 if place == 0 else 2 if at + place == end else 1)
        shown.append(rows[at])
        if between:
            shown += [gap_of(between), rows[end]]
        at = end + 1
    return shown, places


def gap_of(rows):
    """One row for rows that are alike."""
    first = rows[0]
    lines = [line for row in rows for line in row.lines]
    parts = dict(holders=first.holders, at_risk=first.at_risk, down=first.down, clock=first.clock)
    return Row(lines, "gap", first.source or CHAIN, label=f"{len(rows):,} more like these", **parts)


def exhibit_of(last):
    """The last line of a run's text in words."""
    words = last.split(" ")
    said = {"no": "no exhibit", "collision": "exhibit: two strings with one digest"}
    if words[0] == "forgery":
        return f"exhibit: a forged signature, in line {words[1]}"
    return said.get(words[0]) or f"the run ended: {last}"


def passed(row):
    """How much time a tick passes."""
    span = span_of(row.passed)
    return f"{span} pass{'es' if span in ('1 day', '½ day', '1 s') else ''}" if row.passed else ""


def spoken(row, story):
    """A row as a sentence, and what `safe` says then."""
    first, last = row.numbers
    lines = f"Line {first}" if first == last else f"Lines {first} to {last}"
    who = [story.lanes[key].name for key in (row.source if row.kind != "look" else "", row.target) if key]
    said = [" to ".join(who), row.label, row.answer or passed(row)]
    looks = [f"{whose}: {it.words()}" for line in row.lines for whose, it in story.looks_at(line)]
    return f"{lines}: {': '.join(filter(None, said))}." + (f" safe says to {'; '.join(looks)}." if looks else "")


class Picture:
    """The picture of one run. Balances are what the actors have at its end, where that is known."""

    def __init__(self, title, story, balances=None):
        self.title, self.story, self.run, self.balances = title, story, story.run, balances or {}
        self.rows, self.places = fewer(story.rows)
        if len(self.rows) > MOST_ROWS:
            raise TooLong(f"the picture would have {len(self.rows):,} rows, and it has at most {MOST_ROWS:,}: "
                          "'head -n 1000 FILE | tools/story --svg -' draws the beginning")
        self.keys = list(story.lanes)
        self.bottom = HEAD + ROW * len(self.rows) + 14
        self.draw, self.legend = Drawing(), {}
        self.coins = sorted(story.coins, key=int)[:MOST_COINS]
        self.wide = len(self.coins) <= WIDE_COINS
        self.coins_left = LEFT + LANE * len(self.keys) - LANE // 2 + BARS + COLUMN * max(0, self.columns() - 3)
        self.answers_left = self.coins_left + (22 if self.wide else 11) * len(self.coins) + 14

    def columns(self):
        """How many bars stand beside the root contract at most."""
        taken = []
        for it in self.story.exits:
            self.place_exit(it, taken)
        return max((column + 1 for column, _ in taken), default=0)

    def place_exit(self, it, taken):
        """The first free column for the exit's bar, and for one of its challenges behind it."""
        start, end = self.span(it.since, it.ended)
        need = 2 if it.challenges else 1
        column = 0
        while any(used in range(column, column + need) and start <= last for used, last in taken):
            column += 1
        taken += [(column + n, end) for n in range(need)]
        return column

    def x(self, key):
        return LEFT + LANE // 2 + LANE * self.keys.index(key)

    def y(self, row):
        """Where the arrow of a row is, by its place."""
        return HEAD + ROW * row + 24

    def span(self, since, ended):
        return self.y(self.places[since]), self.y(self.places[ended]) if ended is not None else self.bottom

    def svg(self):
        verdicts = self.verdict_lines()
        below = max(map(len, verdicts.values()), default=0)
        widest = max([width_of(row.answer, 12.5) for row in self.rows] + [150])
        widest = max([widest] + [width_of(self.typed(row), 9.5, True) for row in self.rows])
        width = max(self.answers_left + widest + 14, 24 + width_of(self.title, 18) * 1.1, 640)
        self.head()
        self.lanes()
        self.axis()
        self.exits()
        self.coin_bars()
        for place, row in enumerate(self.rows):
            self.row(place, row)
        width = max(width, 12 + sum(44 + round(width_of(words, 11)) for words in self.legend.values()))
        y = self.foot(verdicts, self.bottom + 20 * below + 16)
        y = self.set_up(y + 26, width)
        self.draw_legend(y + 22)
        return self.draw.svg(width, y + 36, self.title, self.told())

    def told(self):
        """All that the picture has, for whoever hears it."""
        actors = [f"{it.name}{', ' + it.kind if it.kind else ''}" for it in self.story.lanes.values()]
        verdicts = [f"{words[0].capitalize()}, coin {words[1]}: {' '.join(words[2:])}." for words in self.run.verdicts]
        end = f"At the end: {exhibit_of(self.run.last)}."
        rows = [spoken(row, self.story) for row in self.rows]
        return " ".join([f"Actors: {'; '.join(actors)}.", *rows, *verdicts, end])

    # ---- what stands above and behind the rows

    def head(self):
        self.draw.text(12, 28, self.title, size=18, more="bold")
        self.draw.text(12, 66, "line", "soft", 10)
        self.draw.text(54, 66, "day", "soft", 10)
        for key in self.keys:
            lane, x = self.story.lanes[key], self.x(key)
            self.draw.text(x, 58, lane.name, size=13, anchor="middle", more="bold")
            about = [lane.kind, f"brings {lane.money:,}" if lane.money else ""]
            for place, words in enumerate(filter(None, about)):
                self.draw.text(x, 73 + 14 * place, words, "soft", 11, "middle")

    def lanes(self):
        """Each lane from the head to the verdicts: thin, or thick while a coin is held, or dashed while down."""
        for key in self.keys:
            top, before = HEAD - 16, ""
            for place, row in enumerate([*self.rows, None]):
                how = self.how(key, row)
                if how != before:
                    at = self.y(place) if row else self.bottom
                    self.lane(self.x(key), top, at, before or "thin", key)
                    top, before = at, how

    def how(self, key, row):
        if row is None:
            return None
        marks = (("down", row.down), ("risk", row.at_risk), ("held", row.holders))
        return next((how for how, keys in marks if key in keys), "thin")

    def lane(self, x, top, end, how, key):
        if how in ("held", "risk"):
            self.draw.line(x, top, x, end, how, 7)
            self.legend[how] = LEGEND[how]
        elif how == "down":
            self.draw.line(x, top, x, end, "soft", 2, ' stroke-dasharray="2 5"')
            self.legend["down"] = "is down"
        else:
            self.draw.line(x, top, x, end, "faint" if key != CHAIN else "chain", 1.5)

    def axis(self):
        """The days go down at the left: one behind the other, and torn where they pass."""
        self.draw.line(LEFT - 8, HEAD - 4, LEFT - 8, self.bottom, "faint", 1.5)
        if self.rows and self.rows[0].kind != "time":
            self.draw.text(54, HEAD - 2, "day 0", more="bold")

    def exits(self):
        """Beside the contract's lane: each exit from its start to its end, and its challenges."""
        taken = []
        for it in self.story.exits:
            column = self.place_exit(it, taken)
            start, end = self.span(it.since, it.ended)
            x, color = self.x(CHAIN) + 16 + COLUMN * column, "blue" if it.own else "red"
            middle = self.y(self.places[it.closed]) if it.closed is not None else end
            whose = self.story.lanes[it.by].name
            self.draw.begin(f"the exit of block {it.block}, coin {it.coin}, by {whose}")
            self.draw.box(x, start, 9, min(middle, end) - start, color)
            if middle < end:
                self.draw.box(x, middle, 9, end - middle, f"pale-{color}")
                self.legend["closed"] = "its 7 days are over"
            self.draw.end()
            self.legend["exit" if it.own else "hostile"] = "an exit" if it.own else "a stranger's exit"
            for one in it.challenges:
                first, last = self.span(one.since, one.ended if one.ended is not None else it.ended)
                self.draw.box(x + COLUMN, first, 6, last - first, "violet")
                self.legend["challenge"] = "a challenge is open"

    def coin_bars(self):
        """A bar for each coin: whose it is, whether it is at risk, on its way out, or paid."""
        step, wide = (22, 14) if self.wide else (11, 7)
        if not self.coins:
            return
        x = self.coins_left + step * len(self.coins) / 2
        more = f" (of {len(self.story.coins)})" if len(self.story.coins) > len(self.coins) else ""
        self.draw.text(x, 75, ("coins" if len(self.coins) > 1 else "coin") + more, "soft", 11, "middle")
        for place, coin in enumerate(self.coins):
            left = self.coins_left + step * place
            if self.wide or place % 5 == 0:
                self.draw.text(left + step / 2, 90, coin, "ink", 11, "middle")
            self.coin_bar(coin, left + (step - wide) / 2, wide)

    def coin_bar(self, coin, x, wide):
        past = self.story.coins[coin]
        for (since, state, holder), after in zip(past, [*past[1:], None]):
            start, end = self.span(since, after[0] if after else None)
            if state == "paid":
                self.draw.line(x - 1, start, x + wide + 1, start, "ink", 2.5)
                continue
            name = self.story.lanes[holder].name if holder else ""
            self.draw.begin(f"coin {coin}: {LEGEND[state]}{', ' + name if name else ''}")
            self.draw.box(x, start, wide, end - start, STATES[state])
            low, high = self.stretch(start, end)
            if name and self.wide and high - low > width_of(name, 10) + 4:
                self.draw.text(x + wide / 2 + 3.5, (low + high) / 2, name, "ink", 10, "middle", turn=True)
            self.draw.end()
            self.legend[state] = LEGEND[state]

    def stretch(self, start, end):
        """The longest part between these two places that no passing of time tears."""
        torn = [self.y(place) for place, row in enumerate(self.rows) if row.kind == "time"]
        edges = [start, *(y for y in torn if start < y < end), end]
        low, high = max(zip(edges, edges[1:]), key=lambda it: it[1] - it[0])
        return low + 6, high - 6

    # ---- the rows

    def typed(self, row):
        """The lines of the schedule that a row is, as they are typed."""
        if row.kind == "gap":
            return ""
        return " · ".join(f"{line.number} {short(line.text, 38 if len(row.lines) > 1 else 60)}" for line in row.lines)

    def row(self, place, row):
        first, last = row.numbers
        y = self.y(place)
        lines = [f"{line.number} {short(line.text)} → {' '.join(line.answer)}" for line in row.lines[:MOST_TOLD]]
        self.draw.begin("\n".join(lines + [f"next: {what}" for what in self.ahead(row)[:1]]))
        self.draw.text(12, y + 4, str(first) if first == last else f"{first}–{last}", "soft", 10)
        getattr(self, f"draw_{row.kind}")(y, row)
        named = self.is_named(row)
        color = "amber" if named else "red" if row.bad else "ink"
        self.draw.text(self.answers_left, y + 3, row.answer or passed(row), color, more="bold" if named else "")
        self.draw.text(self.answers_left, y + 16, self.typed(row), "soft", 9.5, more="mono")
        self.looks(y, row)
        self.draw.end()

    def looks(self, y, row):
        """Below the row, on the lanes of holders: each new word of `safe`, with its coin where there are several."""
        found = {}
        for line in row.lines if row.kind != "gap" else []:
            for _, it in self.story.looks_at(line):
                found.setdefault(it.node, []).append((f"{it.coin} {it.word}" if self.story.many else it.word, it.word))
        for node, looks in found.items():
            x = self.x(node) + 7
            for place, (words, word) in enumerate(looks[:MOST_SAID]):
                more = ".." if place + 1 == MOST_SAID < len(looks) else ""
                self.draw.text(x, y + 14, words + more, COLORS.get(word, "soft"), 9.5, "start", "halo")
                x += width_of(words, 9.5) + 6
            self.legend["said"] = "what safe says to the holder"

    def ahead(self, row):
        return [f"{day_of(time)}: {what}" for time, what in row.ahead]

    def is_named(self, row):
        """A verdict names the line."""
        return any(words[2:] == ["unattended", str(row.numbers[1])] for words in self.run.verdicts)

    def label(self, left, right, y, words, color):
        """A label above an arrow, between the lanes' ends."""
        half = width_of(words, 11) / 2
        middle = max(min((left + right) / 2, self.x(self.keys[-1]) + 10 - half), LEFT + half)
        self.draw.text(middle, y - 8, words, color, 11, "middle", "halo")

    def draw_arrow(self, y, row, color=None, more=""):
        color = color or ("red" if row.bad else "ink")
        from_x, to_x = self.x(row.source), self.x(row.target)
        step = 5 if to_x > from_x else -5
        self.draw.line(from_x, y, to_x - step, y, color, 1.4, f'{more} marker-end="url(#to-{color})"')
        self.label(from_x, to_x, y, row.label, color)

    def draw_look(self, y, row):
        self.draw_arrow(y, row, "red" if row.bad else "soft", ' stroke-dasharray="4 3"')

    def draw_mark(self, y, row):
        color = "red" if row.bad else "ink"
        self.draw.circle(self.x(row.source), y, 4, color)
        self.beside(y, row, color)

    def beside(self, y, row, color):
        """The label at the right of a mark, or at its left where there is no room."""
        x, wide = self.x(row.source), width_of(row.label, 11) + 10
        if x + wide > self.x(CHAIN) + 12 and x - wide > LEFT:
            self.draw.text(x - 10, y + 4, row.label, color, 11, "end", "halo")
        else:
            self.draw.text(x + 10, y + 4, row.label, color, 11, "start", "halo")

    def draw_cross(self, y, row):
        x = self.x(row.source)
        for slope in (5, -5):
            self.draw.line(x - 5, y - slope, x + 5, y + slope, "red", 2.5)
        self.beside(y, row, "red")

    def draw_gap(self, y, row):
        self.beside(y, row, "soft")

    def draw_time(self, y, row):
        self.draw.torn(LEFT - 14, self.answers_left - 16, y)
        early = row.label.split(" day ")
        if len(early) > 1:
            self.draw.text(54, y - 9, early[0], "ink", 10)
        self.draw.text(54, y + 4, "day " + row.label.rpartition("day ")[2] if "day " in row.label else row.label,
                       "ink", 12, more="bold")

    def draw_said(self, y, row):
        """It is told at the right alone."""

    # ---- what stands below

    def verdict_lines(self):
        """The verdicts of each wallet, in short; those that are alike are counted."""
        found = {}
        for name, coin, *words in self.run.verdicts:
            found.setdefault(name, {}).setdefault(tuple(words), []).append(coin)
        lines = {}
        for name, kinds in found.items():
            for words, coins in kinds.items():
                said = f"{words[0]}, line {words[1]}" if len(words) > 1 else words[0]
                of = f"coin {coins[0]}: " if len(coins) == 1 else f"{len(coins)} coins: "
                of = of if self.story.many else ""
                lines.setdefault(name, []).append((of + said, VERDICTS[words[0]]))
        return lines

    def foot(self, verdicts, y):
        """The verdicts, what each has at the end, and the exhibit; where it ends."""
        if verdicts:
            self.draw.text(12, self.bottom + 18, "verdict", "soft", 10)
        for name, said in verdicts.items():
            for place, (words, color) in enumerate(said):
                x, top, width = self.x(name), self.bottom + 6 + 20 * place, max(44, 6.3 * len(words) + 12)
                self.draw.box(x - width / 2, top, width, 17, color, ' rx="8"')
                self.draw.text(x, top + 12.5, words, "paper", 11, "middle", "bold")
        if self.balances:
            self.draw.text(12, y + 4, "at the end", "soft", 10)
        for key, balance in self.balances.items():
            self.draw.text(self.x(key), y + 4, f"has {balance:,}", "soft", 11, "middle")
        y += 30 if self.balances else 14
        said = exhibit_of(self.run.last)
        self.draw.text(LEFT, y, said, "ink" if said == "no exhibit" else "red", 13, more="bold")
        return y

    def set_up(self, y, width):
        """The lines that no row has: what they declare stands above the lanes."""
        shown = {line.number for row in self.story.rows for line in row.lines}
        rest = [f"{it.number} {short(it.text)}" for it in self.run.lines if it.number not in shown]
        parts, line = [], ""
        for words in rest:
            if line and width_of(f"{line} · {words}", 9.5, True) > width - LEFT - 20:
                parts.append(line)
                line = ""
            line = f"{line} · {words}" if line else words
        for place, line in enumerate(filter(None, [*parts, line])):
            self.draw.text(12, y, "set up" if place == 0 else "", "soft", 10)
            self.draw.text(LEFT, y, line, "soft", 9.5, more="mono")
            y += 14
        return y

    def draw_legend(self, y):
        x = 12
        colors = {**STATES, "down": "", "exit": "blue", "hostile": "red",
                  "closed": "pale-blue" if all(it.own for it in self.story.exits) else "pale-red",
                  "challenge": "violet", "said": ""}
        for kind in filter(self.legend.get, colors):
            words = self.legend[kind]
            if kind == "down":
                self.draw.line(x, y - 4, x + 20, y - 4, "soft", 2, ' stroke-dasharray="2 5"')
            elif kind == "said":
                self.draw.text(x + 2, y - 1, "act", COLORS["act"], 9.5)
            else:
                self.draw.box(x, y - 9, 20, 9, colors[kind])
            self.draw.text(x + 26, y, words, "soft", 11)
            x += 44 + round(width_of(words, 11))
