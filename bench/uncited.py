"""The lemmas of a crate that nothing cites, and a file without one: for bench/shorter."""
import collections
import glob
import os
import re

import antt
from functions import text_of
from terms import lemmas_of

TOP = os.path.dirname(os.path.dirname(os.path.abspath(__file__)))
WORD = re.compile(rf"[^{antt.APART}\[\]]+")
# Files of other kinds that cite lemmas, as src/*.rt do: `crate::proofs::X::lemma`. There any word counts.
OTHERS = ("crates/*/src/**/*.rt", "crates/*/*/*.edit", "examples/**/*.rt", "bench/**/*.edit", "**/*.md")


def words_of(text):
    return collections.Counter(WORD.findall("\n".join(antt.code_lines(text))))


class Cited:
    """What the other files of a repository cite of a crate's lemma files, which are given by their names."""

    def __init__(self, crate, names, top=TOP):
        self.start = f"Rattle.{crate}.proofs."
        paths = {path for it in OTHERS for path in glob.glob(f"{top}/{it}", recursive=True)}
        self.words = {word for path in paths for word in WORD.findall(text_of(path).replace("::", " "))}
        self.words = {part for word in self.words for part in (word, word.strip("`"))}
        own = {f"{top}/crates/{crate}/proofs/{name}.antt" for name in names}
        self.texts = [text_of(path) for path in glob.glob(f"{top}/**/*.antt", recursive=True) if path not in own]
        self.texts = [antt.ungrouped(text) for text in self.texts if self.start in text]

    def imported(self, name, texts):
        """The names that any file but the lemma file itself imports of it; None among them where it is named whole."""
        found, module = set(), re.escape(self.start + name)
        sought = re.compile(module + r"(?:\.\{([^}]*)\}|\.([^\s{};.(),]+)|(?![.\w-]))")
        for text in [*self.texts, *(antt.ungrouped(text) for other, text in texts.items() if other != name)]:
            for many, one in sought.findall(text):
                found |= {it.split()[0].strip("«»") for it in many.split(",") if it.strip()} if many else {one or None}
        return found

    def uncited(self, texts):
        """The lemmas that nothing cites but their own proofs, as pairs of a file's name and theirs."""
        found = set()
        for name, text in texts.items():
            imported, words = self.imported(name, texts), words_of(text)
            for it in [] if None in imported else lemmas_of(text):
                own = words_of(text[it.start : it.end])[it.name]
                if words[it.name] == own and it.name not in imported | self.words:
                    found.add((name, it.name))
        return found


def without(text, name):
    """The text without a lemma, the comment above it, and the imports that only it used."""
    it = next(it for it in lemmas_of(text) if it.name == name)
    lines, first = text.split("\n"), it.first
    while first and re.match(r" *--(?! ----)", lines[first - 1]):
        first -= 1
    if first and not lines[first - 1].strip():
        first -= 1
    return antt.without_unused("\n".join(lines[:first] + lines[it.last + 1 :]))
