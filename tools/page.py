"""The page of a run: its picture, and all its lines with their answers as a table. It takes nothing from elsewhere."""
import re
from html import escape

from looked import COLORS
from picture import VERDICTS, exhibit_of, passed, short
from plainly import said, why
from sentences import CALLS
from told import CHAIN, SETS_UP

STYLE = """
:root{color-scheme:light dark;--paper:#fff;--ink:#222;--soft:#5f5f5f;--rule:#ddd;--bad:#b3261e;
--good:#2e7d32;--warn:#9a5b00}
@media screen and (prefers-color-scheme:dark){:root{--paper:#15181c;--ink:#e6e6e6;--soft:#a9aeb5;--rule:#3a3f46;
--bad:#ff8a80;--good:#81c784;--warn:#ffb74d}}
body{margin:0 auto;max-width:76rem;padding:1rem;background:var(--paper);color:var(--ink);
font:16px/1.45 Helvetica,Arial,"DejaVu Sans",sans-serif}
h1{font-size:1.5rem;margin:.2rem 0}h2{font-size:1.15rem;margin:1.6rem 0 .4rem}
.picture{overflow:auto;max-height:92vh}.picture svg{display:block}
.heads{position:sticky;top:0;z-index:1;height:1.5rem;background:var(--paper);border-bottom:1px solid var(--rule)}
.heads span{position:absolute;transform:translateX(-50%);font:bold 13px Helvetica,Arial,sans-serif;white-space:nowrap}
.story p{max-width:44rem;margin:.35rem 0}.money td:nth-child(n+2):nth-child(-n+3){white-space:nowrap}
ul{padding-left:1.2rem}.bad{color:var(--bad)}.good{color:var(--good)}.warn{color:var(--warn)}.soft{color:var(--soft)}
table{border-collapse:collapse;width:100%}th,td{text-align:left;vertical-align:top;padding:.25rem .6rem .25rem 0;
border-bottom:1px solid var(--rule)}th{color:var(--soft);font-weight:normal}
code{font-family:Menlo,Consolas,"DejaVu Sans Mono",monospace;font-size:.85em;overflow-wrap:anywhere}
td.time{font-weight:bold;padding-top:.8rem}
.wide{display:none}@media screen and (max-width:56rem){.wide{display:block}}
@media (max-width:40rem){thead{display:none}tr{display:block;padding:.35rem 0;border-bottom:1px solid var(--rule)}
td{display:block;border:0;padding:0 .5rem .1rem 0}td[data-of]::before{content:attr(data-of) ": ";color:var(--soft)}}
@media print{.picture{overflow:visible;max-height:none}.heads{display:none}tr{break-inside:avoid}
.picture svg{max-width:100%;height:auto;max-height:25cm}
.table{break-before:page}}
"""
TONES = {"green": "good", "amber": "warn", "red": "bad", "grey": "soft", "blue": "soft"}


def page(title, story, svg, reason="", sentences=(), purse=()):
    """The whole page. The reason is that of a line which ended the run; the sentences tell what it was about."""
    parts = [
        '<!doctype html>\n<html lang="en">\n<head>\n<meta charset="utf-8">',
        '<meta name="viewport" content="width=device-width, initial-scale=1">',
        f"<title>{escape(title)}</title>\n<style>{STYLE}</style>\n</head>\n<body>\n<h1>{escape(title)}</h1>",
        f'<div class="story">{"".join(f"<p>{escape(it)}</p>" for it in sentences)}</div>' if sentences else "",
        *verdicts(story.run),
        *money(story, purse),
        f"<p class=\"bad\"><code>{escape(reason)}</code></p>" if reason else "",
        '<h2>The picture</h2>\n<p class="wide soft">It may be wider than this screen: move it sideways. Each line '
        "stands below.</p>",
        '<div class="picture" tabindex="0" role="region" aria-label="the picture">',
        heads(story, svg), f"{svg}</div>",
        '<div class="table"><h2>Line by line</h2>\n<table><thead><tr><th>line</th><th>schedule</th><th>answer</th>'
        f"<th>in words</th>{'<th>safe says</th>' if story.looks else ''}</tr></thead>\n<tbody>",
        *rows(story),
        "</tbody></table></div>\n</body>\n</html>",
    ]
    return "\n".join(filter(None, parts)) + "\n"


def verdicts(run):
    yield "<ul>"
    for name, coin, *words in run.verdicts:
        what = words[0] + (f", by the tick of line {words[1]}" if len(words) > 1 else "")
        tone = TONES[VERDICTS[words[0]]]
        yield f'<li>{escape(name.capitalize())}, coin {coin}: <b class="{tone}">{what}</b></li>'
    said_last = exhibit_of(run.last)
    yield f'<li class="{"" if said_last == "no exhibit" else "bad"}">{escape(said_last)}</li>\n</ul>'


def heads(story, svg):
    """The lanes' names, which stay above the picture where it is scrolled."""
    found = re.findall(r'<text x="([0-9.]+)" y="58"[^>]*>([^<]*)</text>', svg)
    width = re.search(r'viewBox="0 0 ([0-9.]+) ', svg)
    spans = "".join(f'<span style="left:{x}px">{name}</span>' for x, name in found)
    return f'<div class="heads" aria-hidden="true" style="width:{width[1] if width else 0}px">{spans}</div>'


def money(story, purse):
    """What every account won and lost."""
    if not purse:
        return
    yield '<h2>Who won and lost</h2>\n<table class="money"><tbody>'
    for lane, brought, has, reasons in purse:
        change = f"{has - brought:+,}" if has != brought else "as before"
        yield (f"<tr><td><b>{escape(story.lanes[lane].name)}</b></td><td>brought {brought:,}</td>"
               f"<td>has {has:,} ({change})</td><td>{escape('; '.join(reasons))}</td></tr>")
    yield "</tbody></table>"


def rows(story):
    """A row of the table for each line, and one in front of each tick that tells the day."""
    of_line = {line.number: row for row in story.rows for line in row.lines}
    for line in story.lines:
        row = of_line.get(line.number)
        if row and row.kind == "time":
            yield f'<tr><td class="time" colspan="{5 if story.looks else 4}">{escape(row.label)}</td></tr>'
        tone = ' class="bad"' if row and row.bad and row.lines[-1] is line else ""
        yield (
            f'<tr{tone}><td data-of="line">{line.number}</td>'
            f'<td data-of="schedule"><code>{escape(short(line.text, 200))}</code></td>'
            f'<td data-of="answer"><code>{escape(" ".join(line.answer))}</code></td>'
            f'<td class="words">{escape(words_of(line, row, story))}</td>{looks_of(line, story)}</tr>'
        )


def looks_of(line, story):
    """The cell of what `safe` says anew behind a line; none where it was never asked."""
    if not story.looks:
        return ""
    said = (f"{escape(whose)}: <b class=\"{TONES[COLORS.get(it.word, 'grey')]}\">{escape(it.words())}</b>"
            for whose, it in story.looks_at(line))
    return f'<td data-of="safe says">{"<br>".join(said)}</td>'


def words_of(line, row, story):
    """What a line did, in words."""
    if row is None or line.form in SETS_UP:
        return ""
    if row.kind == "time":
        return ", ".join(filter(None, [passed(row), row.answer]))
    if line is not row.lines[-1]:
        return said(line.answer)
    who = " → ".join(story.lanes[key].name for key in (row.source if row.kind != "look" else "", row.target) if key)
    reason = why(line.answer)
    told = ": ".join(filter(None, [who, ", ".join(filter(None, [row.label, row.answer]))]))
    call = CALLS.get("exit" if row.label.startswith("exit ") else row.label.split(",")[0].split(" ")[0], "")
    call = f". It {call}" if call and row.target == CHAIN else ""
    return told + (f" ({reason})" if reason else "") + call
