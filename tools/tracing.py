"""A run told as a text, for a terminal: who did what, what it was answered, what each has then, and what is ahead."""
from looked import COLORS
from picture import MOST_ALIKE, exhibit_of, passed
from plainly import day_of, span_of, why

PAINTS = {"bold": "1", "soft": "2", "red": "31", "green": "32", "amber": "33", "blue": "34", "violet": "35",
          "cyan": "36"}
KINDS = {"stranger": "red", "wallet": "green", "watcher": "cyan"}
VERDICTS = {"held": "green", "paid": "green", "away": "soft", "unattended": "amber", "lost": "red"}


class Trace:
    """The lines of the text; with colors, or plain."""

    def __init__(self, story, colors, width, money=None):
        self.story, self.colors, self.width, self.money = story, colors, width, money or {}
        self.names = max([len(lane.name) for lane in story.lanes.values()] + [1])
        self.actor = max(self.width_of(row) for row in story.rows) if story.rows else 0

    def width_of(self, row):
        return len(self.who(row))

    def paint(self, words, *paints):
        if not self.colors or not words:
            return words
        return f"\033[{';'.join(PAINTS[it] for it in paints)}m{words}\033[0m" if paints else words

    def padded(self, words, width, *paints):
        return self.paint(words, *paints) + " " * (width - len(words))

    def lines(self):
        yield from self.actors()
        rows, at = self.story.rows, 0
        while at < len(rows):
            alike = at
            while alike + 1 < len(rows) and rows[alike + 1].like == rows[at].like and rows[at].kind != "time":
                alike += 1
            yield from self.row(rows[at])
            if alike - at >= MOST_ALIKE:
                first, last = rows[at + 1].numbers[0], rows[alike - 1].numbers[1]
                yield self.paint(f"{f'{first}-{last}':>9}  {alike - at - 1:,} more like these", "soft")
                at = alike
            else:
                at += 1
        yield from self.end()

    def actors(self):
        for lane in self.story.lanes.values():
            about = [lane.kind, f"account {lane.account}" if lane.account and lane.kind else "",
                     f"brings {lane.money:,}" if lane.money else ""]
            said = ", ".join(filter(None, about))
            name = self.padded(lane.name, self.names if said else 0, "bold", *self.colour(lane))
            yield f"{'':>9}  {name}  {said}".rstrip()
        yield ""

    def colour(self, lane):
        return [KINDS[lane.kind]] if lane.kind in KINDS else []

    def who(self, row):
        keys = [key for key in (row.source if row.kind != "look" else "", row.target) if key]
        return " → ".join(self.story.lanes[key].name for key in keys)

    def row(self, row):
        first, last = row.numbers
        number = str(first) if first == last else f"{first}-{last}"
        if row.kind == "time":
            yield from self.time(row, number)
            return
        reason = why(row.lines[-1].answer)
        answer = row.answer + (f" ({reason})" if reason else "")
        paints = ["red"] if row.bad or row.kind == "cross" else ["soft"] if row.kind in ("look", "said") else []
        lane = self.story.lanes.get(row.source if row.kind != "look" else row.target)
        who = self.padded(self.who(row), self.actor, *(self.colour(lane) if lane else []))
        label = self.padded(row.label, 26, *paints)
        number = self.paint(f"{number:>9}", "soft")
        yield f"{number}  {who}  {label}  {self.paint(answer, *paints)}{self.paid(row)}".rstrip()
        yield from self.looks(row)
        yield from self.next(row)

    def time(self, row, number):
        what = ", ".join(filter(None, [passed(row), row.answer]))
        rule = "─" * max(4, min(self.width, 100) - len(what) - len(row.label) - 18)
        yield f"{self.paint(f'{number:>9}', 'soft')}  {self.paint('── ' + row.label, 'bold')} " \
              f"{self.paint(what, 'soft')} {self.paint(rule, 'soft')}"
        yield from self.looks(row)
        yield from self.next(row)

    def looks(self, row):
        """What `safe` says anew to the holders."""
        said = [f"{whose}: {self.paint(it.words(), 'soft' if color == 'grey' else color)}" for line in row.lines
                for whose, it in self.story.looks_at(line) for color in [COLORS.get(it.word, "grey")]]
        if said:
            yield f"{'':>9}  safe says to " + "; ".join(said)

    def paid(self, row):
        """What the accounts have after it, where it moved money."""
        told = []
        for line in row.lines:
            for account, balance, was in self.money.get(line.number, ()):
                told.append(f"{self.story.name_of(account)} {balance:,} ({balance - was:+,})")
        return self.paint("  " + ", ".join(told), "blue") if told else ""

    def next(self, row):
        """The next deadline, where time passes or an exit changes."""
        if row.ahead and (row.kind == "time" or row.lines[-1].answer[0] in ("started", "challenged", "responded")):
            time, what = row.ahead[0]
            left = f"in {span_of(time - row.clock)}" if time > row.clock else "now"
            paint = "amber" if row.at_risk else "violet"
            yield self.paint(f"{'':>9}  next: {what} {'by' if what.startswith(('cancel', 'answer')) else 'from'} "
                             f"{day_of(time)}, {left}", paint)

    def end(self):
        run = self.story.run
        yield ""
        for name, coin, *words in run.verdicts:
            said = words[0] + (f", by the tick of line {words[1]}" if len(words) > 1 else "")
            yield f"{'':>9}  {name.capitalize()}, coin {coin}: {self.paint(said, 'bold', VERDICTS[words[0]])}"
        said = exhibit_of(run.last)
        yield f"{'':>9}  {self.paint(said, *(['bold'] if said == 'no exhibit' else ['bold', 'red']))}"
