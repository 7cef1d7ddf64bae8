"""Tries bench/proofs: what it counts in a file with each kind of declaration, and what it takes out of one."""
import contextlib
import io
import os
import tempfile
import types
import unittest

import antt

HERE = os.path.dirname(os.path.abspath(__file__))
TEXT = """-- Numbers, told with sym and grind.
use Rattle.a.Common.{◌≡◌, ◌∷◌, if◌then◌else◌, ◌&&◌, ℕ, List, ap, sym, length as size, take as front, «to»}
use Rattle.a.proofs.start.Goals as goal
use Rattle.a.specs.{gone, gone_too}
use Rattle.a.Deep
use Deep.More.{more}
unfoldable pub use Rattle.a.proofs.Other.{passed-on}

infixr 20 ◌▹◌
abbrev pub ◌▹◌ : {A : Type 0} → A → A → List A
one ▹ other = one ∷ front other

IsFew : List ℕ → Type 0
IsFew [] = goal.few

pub record Few (xs : List ℕ) : Type 0 where
  pub are : size xs ≡ 0

ruleset few = (
  more,
  «to»,
)

-- its term stands below its head
pub below : (n : ℕ)
    → n ≡ n
unfolding IsFew
below n =
    grind (arith, n.ap "sym -- -")

by_cases : (b : Bool) → (if b then 1 else 2) ≡ size (b ∷ [])
by_cases true = refl

by_cases false = at refl -- grind
  where
    -- of one
    at : 2 ≡ 2 → 2 ≡ 1
    at two = grind-less two

module _ (x : ℕ)
    (y : ℕ) where
  within : x ≡ x
  within = omega (
    arith,
  )

  module _ (z : ℕ) where
    pub deep : z ≡ z
    deep = goal.gone

  behind : let n = x in n ≡ n
  behind {x = y} = grind (rules, within, passed.ap)

pub returns : goal.returns
returns c = c.args.sym ∙ λ n. ap
"""
LEFT = TEXT.replace(", ◌&&◌", "").replace(", sym, length", ", length").replace(
    "use Rattle.a.specs.{gone, gone_too}\n", "")
GATE = "| crate | proof | tests |\n|---|---|---|\n| more | 17 | 1 |\n| few | 8 | 2 |\n| in all | 25 | 3 |\n"


class Proofs(unittest.TestCase):
    @classmethod
    def setUpClass(cls):
        cls.script = types.ModuleType("proofs")
        cls.script.__file__ = f"{HERE}/proofs"
        with open(cls.script.__file__, encoding="utf-8") as file:
            exec(compile(file.read(), cls.script.__file__, "exec"), cls.script.__dict__)

    def said(self, call, *given):
        out = io.StringIO()
        with contextlib.redirect_stdout(out):
            call(*given)
        return out.getvalue()

    def test_lemmas_and_their_lines(self):
        lemmas = {it.name: it for it in antt.declarations_of(antt.items_of(TEXT)) if antt.is_lemma(it)}
        lines = {name: antt.proof_lines(it) for name, it in lemmas.items()}
        self.assertEqual(lines, {
            "below": 2, "by_cases": 5, "within": 3, "deep": 1, "behind": 1, "returns": 1,
        })
        self.assertEqual([name for name, it in lemmas.items() if not antt.is_one_line(it)], ["by_cases", "within"])
        self.assertEqual(lemmas["deep"].line, 1 + TEXT[: TEXT.index("pub deep")].count("\n"))

    def test_figures(self):
        self.assertEqual(dict(self.script.counts_of(TEXT)), {
            "lines": TEXT.count("\n"), "imports": 6, "unused": 4, "lemmas": 6, "one line": 4, "proof": 13, "left": 8,
            "grind": 2,
        })

    def test_imports_that_nothing_uses(self):
        said = self.said(self.script.show_unused, [("x", TEXT)])
        self.assertEqual(said, "x:2: ◌&&◌, sym\nx:4: gone, gone_too\n")
        self.assertEqual(antt.without_unused(TEXT), LEFT)
        self.assertEqual(antt.without_unused(LEFT), LEFT)
        self.assertEqual(antt.without_unused("use a.{b}\n\nc : d\nc = e.b\n"), "c : d\nc = e.b\n")
        self.assertEqual(antt.without_unused("use a.{b as f, c as g} -- {h}\n\nd : g\nd = b\n"),
                         "use a.{c as g} -- {h}\n\nd : g\nd = b\n")

    def test_files_are_changed_and_named(self):
        with tempfile.TemporaryDirectory() as room:
            for name, text in (("Some", TEXT), ("Other", LEFT)):
                os.makedirs(f"{room}/crates/one/proofs/below", exist_ok=True)
                with open(f"{room}/crates/one/proofs/below/{name}.antt", "w", encoding="utf-8") as file:
                    file.write(text)
            files = [*self.script.files_of("one", room)]
            said = self.said(self.script.rewrite, files, antt.without_unused, room)
            self.assertEqual(said, "crates/one/proofs/below/Some.antt\n")
            self.assertEqual([text for _, text in self.script.files_of(None, room)], [LEFT, LEFT])

    def test_tables(self):
        rows = {f"crates/{name}/proofs/X.antt": self.script.counts_of(text)
                for name, text in (("few", LEFT), ("none", ""), ("more", TEXT + TEXT))}
        with tempfile.NamedTemporaryFile("w", encoding="utf-8") as gate:
            gate.write(GATE)
            gate.flush()
            said = self.said(self.script.show, rows, 1, gate.name)
        lines = said.split("\n")
        self.assertEqual([line.split(" | ")[0] for line in lines if line], [
            "| file", "|---|---|---|---|---|---|---|---|---|", "| crates/more/proofs/X.antt", "| crate",
            "|---|---|---|---|---|---|---|---|---|---|", "| more", "| few", "| none", "| 3 files",
        ])
        whole = LEFT.count("\n") + 2 * TEXT.count("\n")
        self.assertEqual(lines[-2], f"| 3 files | {whole} | 17 | 8 | 18 | 12 (67 %) | 39 | 24 | 6 | 25 |")
        said = self.said(self.script.show_tabs, rows, None)
        self.assertEqual([line.split("\t")[0] for line in said.split("\n")],
                         ["file", *(f"crates/{it}/proofs/X.antt" for it in ("more", "few", "none")), ""])
