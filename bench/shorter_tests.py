"""Tries bench/shorter, without a check: which terms it replaces by which calls, what it takes of a check's lines, how
the calls are put in, and which lemmas go.
"""
import os
import tempfile
import unittest

import terms
import testing

TEXT = """-- Some lemmas.
use Rattle.std.proofs.Common.{◌≡◌, ℕ, List, refl, ap, sym}
use Rattle.one.proofs.Other.{cited, IsOne, far}

-- ---- of numbers

-- one
near : (n : ℕ) → n ≡ n
near n = refl

pub cases : (xs : List ℕ) (n m : ℕ) → IsOne n → xs ≡ xs
cases [] zero at (inl rules) = near zero
cases (x ∷ xs) zero zero refl =
    let so : x ≡ x = λ y.
    let both = near in sym
      cited.given in -- near
    near "near"

again : (xs : List ℕ) → xs ≡ xs
again [] = refl
again (x ∷ xs) =
    (ap far
      (again xs), λ y. near
      (again y))

module _ (n : ℕ) where
  pub deep : ℕ → n ≡ n
  deep m = record {
      one = elim m [
        | zero ↦ cited
          refl
        | suc k ↦ within k
      ];
      two = refl }
    where
      within : ℕ → n ≡ n
      within k =
          sym
            far
"""
CALLS = {
    ("whole", "[] zero"): "cases xs n at _ = grind (arith, common_steps, near, cited) steps 9",
    ("side", "let so "): "grind (arith, common_steps, near, cited) steps 9",
    ("let", "λ y.\n  "): "grind (arith, common_steps, near, cited) steps 9",
    ("body", "sym\n   "): "grind (arith, common_steps, cited) steps 9",
    ("side", "(ap far"): "grind (arith, common_steps, again xs, far, near) steps 9",
    ("part", "ap far\n"): "grind (arith, common_steps, again xs, far) steps 9",
    ("part", "λ y. ne"): "grind (arith, common_steps, near) steps 9",
    ("part", "near\n  "): "grind (arith, common_steps, again y, near) steps 9",
    ("side", "record "): "grind (arith, common_steps, cited, within) steps 9",
    ("where", "record "): "grind (arith, common_steps, cited, far) steps 9",
    ("field", "elim m "): "grind (arith, common_steps, cited, within) steps 9",
    ("arm", "cited\n "): "grind (arith, common_steps, cited) steps 9",
    ("side", "sym\n   "): "grind (arith, common_steps, far) steps 9",
}
SAID = """./proofs/One.antt:3:1: error: `Rattle.shorter_one.proofs.One.trial-0`: `grind` found no proof
proofs/One.antt:4:1: error: `trial-11.within`: `grind` stopped
note: ./proofs/One.antt:4:1: error
holes=0
"""
BROKEN = "proofs/One.antt:4:1: error: module `Rattle.one.proofs` has no `Other`\n"
OTHER = "-- Others.\n\n" + "\n".join(f"{mark}{name} : n\n{name} = 1\n" for mark, name in (
    ("-- it\npub ", "cited"), ("", "lone"), ("pub ", "told"), ("pub ", "far"), ("pub ", "IsOne")))


class Shorter(unittest.TestCase):
    @classmethod
    def setUpClass(cls):
        cls.script = testing.script("../bench/shorter")
        cls.texts = {"One": TEXT, "Other": OTHER, "More": ""}
        cls.tries = cls.script.Tries("one", cls.texts, ["One"], 3, 9)

    def named(self, tries):
        behind = {"whole": len("cases ")}
        starts = [it.term.start + behind.get(it.term.kind, 0) for it in tries]
        return {(it.term.kind, TEXT[at : at + 7]): it.call for it, at in zip(tries, starts)}

    def test_terms_and_their_calls(self):
        self.assertEqual(self.named(self.tries.tries), CALLS)
        self.assertEqual(len(self.tries.tries), len(CALLS))
        self.assertEqual([(it.name, it.first) for it in terms.lemmas_of(TEXT)],
                         [("near", 7), ("cases", 10), ("again", 18), ("deep", 26)])

    def test_the_crate_of_copies(self):
        files = self.tries.files("shorter_one")
        self.assertEqual(files["proofs/Lib.antt"], "pub mod One\npub mod Other\n")
        copies = files["proofs/One.antt"]
        self.assertIn("use Rattle.shorter_one.proofs.Other.{cited, IsOne, far}\n", copies)
        self.assertIn(", sym, arith}\nuse Rattle.std.proofs.lemmas.Grind.{common_steps}\n", copies)
        self.assertIn("\ntrial-0 : (xs : List ℕ) (n m : ℕ) → IsOne n → xs ≡ xs\ntrial-0 xs n at _ = grind (", copies)
        self.assertIn("\n    grind (arith, common_steps, trial-4 xs, far, near) steps 9\n", copies)
        self.assertIn("\n  trial-12 m = record {\n", copies)

    def test_what_stood(self):
        stood, out = self.tries.stood(SAID)
        self.assertEqual((len(stood), out), (len(CALLS) - 2, {}))
        self.assertEqual(self.tries.stood(BROKEN + SAID)[0], [])
        self.assertRaises(SystemExit, self.tries.stood, BROKEN)

    def test_calls_are_put_in(self):
        kinds = {it: it.term.kind for it in self.tries.tries}
        few = [it for it, kind in kinds.items() if kind in ("let", "part", "arm")]
        text, count = self.script.shortened(TEXT, few)
        self.assertEqual(count, 3)
        self.assertIn(" so : x ≡ x = grind (arith, common_steps, near, cited) steps 9 in -- near\n    near", text)
        self.assertIn("        | zero ↦ grind (arith, common_steps, cited) steps 9\n        | suc k", text)
        text, count = self.script.shortened(TEXT, [it for it in kinds if it not in few])
        self.assertTrue(text.endswith("\n  deep m = grind (arith, common_steps, cited, far) steps 9\n"))
        self.assertIn("\n\npub cases : (xs : List ℕ) (n m : ℕ) → IsOne n → xs ≡ xs\ncases xs n at _ = grind (", text)
        self.assertIn("Common.{◌≡◌, ℕ, List, refl, arith}\n", text)
        self.assertEqual(self.script.shortened("near : n\nnear =\n    refl\n", []), ("near : n\nnear =\n    refl\n", 0))

    def test_long_calls(self):
        text = "  a : n\n  a b =\n      c\n        d\n        e\n        f\n"
        names = ["g" * 31, f"{'h' * 45} (i, (j), k)"]
        term, call = terms.Term("side", text.index("c\n"), len(text) - 1), f"grind (arith, {', '.join(names)}) steps 9"
        self.assertEqual(self.script.replaced(text, term, call), f"  a : n\n  a b =\n      {call}\n")
        lines = f"grind (\n        arith,\n        {names[0]},\n        {names[1]},\n      ) steps 1{'0' * 20}"
        self.assertEqual(self.script.replaced(text, term, call.replace(" 9", f" 1{'0' * 20}")),
                         f"  a : n\n  a b =\n      {lines}\n")

    def test_lemmas_that_nothing_cites_any_more(self):
        after = self.texts | {"One": TEXT.replace("cited, ", "").replace("cited", "near")}
        with tempfile.TemporaryDirectory() as room:
            for path, text in (("src/lib.rt", "crate::proofs::Other::told\n"), ("proofs/Other.antt", OTHER)):
                os.makedirs(os.path.dirname(f"{room}/crates/one/{path}"), exist_ok=True)
                with open(f"{room}/crates/one/{path}", "w", encoding="utf-8") as file:
                    file.write(text)
            left, gone = self.script.without_uncited("one", self.texts, after, room)
            self.assertEqual(gone, [("Other", "cited")])
            self.assertEqual(left["Other"], OTHER.replace("\n-- it\npub cited : n\ncited = 1\n", ""))
            with open(f"{room}/crates/one/src/lib.rt", "a", encoding="utf-8") as file:
                file.write("// crate::proofs::Other::cited, told\n")
            self.assertEqual(self.script.without_uncited("one", self.texts, after, room), (after, []))
