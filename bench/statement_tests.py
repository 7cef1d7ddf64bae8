"""Tries bench/statements: that it tells what changes a statement from what doesn't."""
import contextlib
import io
import os
import tempfile
import unittest

import antt
import testing

SPECS = """-- Sums.
use Rattle.std.specs.Prelude.{ℕ, ◌+◌, List, [], ◌∷◌}
use Rattle.low.specs.Ends.{first}
use Rattle.low.specs.More.{last}

-- of two
abbrev pub sum : List ℕ → ℕ
sum [] = 0
sum (x ∷ xs) = first (x + sum xs) "a  -- b"

module _ (n : ℕ) where
  pub record Few (xs : List ℕ) : Type 0 where
    -- it has few
    pub few : sum xs ≡ last n
"""
LOW = {"Ends": "abbrev pub first : ℕ → ℕ\nfirst n = n\n", "Names": "",
       "More": "abbrev pub last : ℕ → ℕ\nlast n = n\n"}
CODE = """ghost use Rattle.top.specs.Sums.{sum};

pub struct Total {
    pub at: u64,
}

impl Total {
    ghost view = { λ total. total.at };

    // Takes one on.
    pub fn take(&self, one: u64) -> u64
        requires small { one < 9 }
        ensures { result ≡ sum (one ∷ []) } // (so)
    {
        one
    }
}
"""
PROOFS = "sums : (n : ℕ) → sum [] ≡ 0\nsums n = refl\n"


class Statements(unittest.TestCase):
    @classmethod
    def setUpClass(cls):
        cls.script = testing.script("../bench/statements")

    def tree(self, specs=SPECS, code=CODE, proofs=PROOFS, **low):
        with tempfile.TemporaryDirectory() as room:
            files = {"top/specs/Sums.antt": specs, "top/src/total.rt": code, "top/proofs/Sums.antt": proofs}
            files |= {f"low/specs/{name}.antt": text for name, text in (LOW | low).items()}
            for path, text in files.items():
                os.makedirs(os.path.dirname(f"{room}/crates/{path}"), exist_ok=True)
                with open(f"{room}/crates/{path}", "w", encoding="utf-8") as file:
                    file.write(text)
            return self.script.Tree(room)

    def became(self, part="specs", **given):
        with contextlib.redirect_stdout(io.StringIO()):
            counts = self.script.told(self.tree(), self.tree(**given), part, part)
        return {**counts}, [*self.script.compared(self.tree(), self.tree(**given), part)]

    def test_what_changes_no_statement(self):
        broken = SPECS.replace("first (x + sum xs)", "first\n    (x\n      + sum xs)").replace("-- of two\n", "")
        passed = SPECS.replace("low.specs.Ends", "low.specs.Names").replace("abbrev pub", "unfoldable pub")
        names = "pub use Rattle.low.specs.Ends.{first}\n"
        code = CODE.replace(" } // (so)", "\n        }").replace("    one\n", "    one + 0\n")
        passed = {"specs": passed, "Names": names}
        for given in ({"specs": antt.grouped(SPECS)}, {"specs": broken}, passed, {"code": code}):
            self.assertEqual(self.became(**given), ({}, []))
        self.assertIn("low.specs.{Ends.{first}, More.{last}}", antt.grouped(SPECS))

    def test_what_moved(self):
        moved = {"specs": SPECS.replace("specs.Ends", "specs.Names"), "Ends": "", "Names": LOW["Ends"]}
        self.assertEqual(self.became(**moved)[1],
                         [("moved", "crates/low/specs/Ends.antt: first, to crates/low/specs/Names.antt")])

    def test_what_changed_came_and_went(self):
        code = CODE.replace("one < 9", "one < 8").replace("ensures {", "ensures more {")
        for given, counts, name in (
            ({"specs": SPECS.replace("sum [] = 0", "sum [] = 1")}, {"changed": 1}, "top/specs/Sums.antt: sum"),
            ({"specs": SPECS.replace("a  -- b", "a -- b")}, {"changed": 1}, "top/specs/Sums.antt: sum"),
            ({"specs": SPECS.replace("_ (n : ℕ)", "_ (n m : ℕ)")}, {"changed": 1}, "top/specs/Sums.antt: Few"),
            ({"specs": SPECS.replace("More.{last}", "Ends.{first as last}")}, {"changed": 1},
             "top/specs/Sums.antt: Few, which names another last"),
            ({"code": CODE.replace("at: u64", "at: u32")}, {"changed": 1}, "top/src/total.rt: Total"),
            ({"code": CODE.replace("total.at", "0")}, {"changed": 1}, "top/src/total.rt: Total view"),
            ({"code": CODE.replace("&self", "&mut self")}, {"changed": 1}, "top/src/total.rt: Total::take"),
            ({"code": code}, {"changed": 1, "went": 1, "came": 1}, "top/src/total.rt: Total::take ensures"),
        ):
            found, each = self.became(**given)
            self.assertEqual(found, counts)
            self.assertIn(f"crates/{name}", [it for _, it in each])

    def test_lemmas(self):
        self.assertEqual(self.became("proofs", proofs=PROOFS.replace("= refl", "=\n    omega")), ({}, []))
        self.assertEqual(self.became("proofs", proofs=PROOFS.replace("≡ 0", "≡ 1"))[0], {"changed": 1})
        self.assertEqual(self.became(proofs=""), ({}, []))
