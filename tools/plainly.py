"""Answers and times in words that a person reads: for tools/story and the gallery's pictures."""
from grammar import refusals

DAY = 86_400
CHALLENGE_TIME, ANSWER_TIME, EXIT_TIME = 7 * DAY, 7 * DAY // 2, 21 * DAY // 2


def day_of(seconds):
    """A time of the clock in days since it began."""
    halves, rest = divmod(seconds, DAY // 2)
    if rest == DAY // 2 - 1:
        return f"1 s before {day_of(seconds + 1)}"
    if rest == 1 and halves:
        return f"1 s after {day_of(seconds - 1)}"
    if not rest:
        return f"day {halved(halves)}"
    if seconds < DAY:
        return clock(seconds)
    return f"day {seconds // DAY}, {clock(seconds % DAY)}"


def halved(halves):
    whole, half = divmod(halves, 2)
    return f"{'' if half and not whole else f'{whole:,}'}{'½' if half else ''}"


def clock(seconds):
    """A time within a day: as h:mm, or in seconds where it isn't a whole minute."""
    return f"{seconds // 3600}:{seconds // 60 % 60:02}" if seconds % 60 == 0 else f"{seconds:,} s"


def span_of(seconds):
    """How long it is, in days where it is days."""
    halves, rest = divmod(seconds, DAY // 2)
    if rest == DAY // 2 - 1:
        return f"1 s less than {span_of(seconds + 1)}"
    if rest or not halves:
        return f"{days(2 * (halves // 2))}, {clock(seconds % DAY)}" if seconds >= DAY else clock(seconds)
    return days(halves)


def days(halves):
    return f"{halved(halves)} day{'' if halves <= 2 else 's'}"


def count(number, of, more=None):
    return f"{number} {of}" if str(number) == "1" else f"{number} {more or of + 's'}"


def said(answer):
    """An answer in words; that of a call or a command which the picture shows by an arrow or a mark."""
    kind, rest = answer[0], answer[1:]
    if kind == "refused":
        return refusal(rest)
    if kind == "done":
        return "done, then it crashed: " + said(rest)
    return SAID[kind](*rest) if kind in SAID else " ".join(answer)


def refusal(cause):
    """A refusal, with its cause in words."""
    numbers = " ".join(cause[1:])
    if cause[0] == "no-funds" and len(cause) == 3:
        return f"refused: no-funds, has {int(cause[1]):,} of {int(cause[2]):,}"
    if cause[0] in ("early", "clock-back") and len(cause) == 2:
        return f"refused: {cause[0]}, {'from' if cause[0] == 'early' else 'it is'} {day_of(int(cause[1]))}"
    return f"refused: {cause[0]}{' ' + numbers if numbers else ''}"


def why(answer):
    """What a refusal's cause means, or nothing."""
    return refusals().get(answer[1], ("", ""))[1] if answer[0] == "refused" else ""


def offers(number, *kinds):
    return "due: " + ", ".join(kinds) if kinds else "nothing is due"


def stands(opens):
    """An exit that stands has a time to be stopped, and one from which it may be finished."""
    return f"stands: stop it before {day_of(opens - EXIT_TIME + CHALLENGE_TIME)}, finish from {day_of(opens)}"


SAID = {
    "deposited": lambda coin, block: f"coin {coin}, block {block}",
    "committed": lambda block: f"block {block}",
    "started": lambda opens: stands(int(opens)),
    "challenged": lambda until: f"challenged, until {day_of(int(until))}",
    "nothing": lambda: "no such offer",
    "accepted": lambda coin, tip: "accepted",
    "guarded": lambda coin, tip: "guarded",
    "sent": lambda leaf: "signed",
    "leaving": lambda tip: "notes it",
    "reclaimed": lambda coin, leaf: "taken back",
    "migrated": lambda: "may name last blocks",
    "released": lambda: "guards it no more",
    "offers": offers,
    "pooled": lambda coin: "tested and pooled",
    "laid": lambda coin: "laid, untested",
    "sealed": lambda leaves: f"sealed, {count(leaves, 'leaf', 'leaves')}",
    "bundled": lambda tip: "made",
    "proved": lambda: "made",
    "crashed": lambda: "down",
    "stopped": lambda: "stopped, and down",
    "opened": lambda notes, leaves: f"up: {count(notes, 'note')}, {leaves} signed",
    "up": lambda: "wasn't down",
    "down": lambda: "not done: it's down",
    "money": lambda balance: f"{int(balance):,}",
}
