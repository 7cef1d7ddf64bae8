"""The sentences of pages: those with more than 40 words, for docs/check; and how many words a page has.

A heading, a paragraph, an entry of a list and a cell of a table end a sentence as a full stop does. In a cell, which
has no room for a list, a semicolon ends an entry. Blocks of code and comments are no sentences. A code span is one
word, whatever stands in it, and of a link its text counts.
"""
import re

MOST = 40
# Pages whose words are counted, with how many they may have.
WORDS = {"README.md": 1500, "docs/": 35_000}
FENCED = re.compile(r"^( *)(```+|~~~+)[^\n]*\n.*?^ *\2[^\n]*$", re.M | re.S)
COMMENT = re.compile(r"<!--.*?-->", re.S)
SPAN = re.compile(r"(`+)(?!`).+?(?<!`)\1(?!`)", re.S)
IMAGE = re.compile(r"!\[[^\]]*\]\([^)]*\)")
LINK = re.compile(r"\[([^\]]*)\]\([^)]*\)")
# Where a block begins within lines that follow one another: a heading, an entry of a list, a row of a table.
BEGINS = re.compile(r" *(?:#+ |[-*+] |\d+[.)] |\|)")
# What goes on in no other line: a heading and a row.
ALONE = re.compile(r" *(?:#+ |\|)")
# Where a sentence ends within a block, and the next one begins.
ENDS = re.compile(r"(?<=[^.\s][.!?])[\"'”’)*_\]]*\s+(?=[\"'“‘(*_\[]*[A-Z0-9§])")


def blocks(text):
    """The text's headings, paragraphs, entries of lists and cells of tables, each on one line."""
    text = COMMENT.sub("", FENCED.sub("", text))
    text = LINK.sub(r"\1", IMAGE.sub("", SPAN.sub("§", text)))
    block = []
    for line in [*(re.sub(r"^(?: *>)+ ?", "", line) for line in text.splitlines()), ""]:
        if not line.strip() or BEGINS.match(line):
            yield " ".join(block)
            block = []
        if ALONE.match(line):
            yield from re.split(r"(?<!\\)\||; ", line) if "|" in line else [line]
        elif line.strip():
            block.append(re.sub(r"^ *(?:[-*+] |\d+[.)] )", "", line).strip())


def sentences(text):
    """The text's sentences."""
    for block in blocks(text):
        yield from filter(None, map(str.strip, ENDS.split(block)))


def words_of(sentence):
    """How many words a sentence has: what has no letter, digit or code is none."""
    return sum(1 for word in sentence.split() if re.search(r"[\w§]", word))


def sentence_misses(pages):
    """Sentences that have too many words."""
    for page, text in pages.items():
        for sentence in sentences(text):
            count = words_of(sentence)
            if count > MOST:
                yield f"{page} has a sentence of {count} words, and {MOST} are the most: {sentence[:80]}.."


def word_misses(pages):
    """Pages that have too many words, by `wc -w`."""
    for begins, most in WORDS.items():
        count = sum(len(text.split()) for page, text in pages.items() if page.startswith(begins))
        if count > most:
            yield f"{begins} has {count:,} words, and {most:,} are the most"
