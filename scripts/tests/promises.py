#!/usr/bin/env python3
"""Tests of scripts/promises on a made-up tree: pages of three kinds. Usage: scripts/tests/promises.py"""
import sys
import unittest

sys.dont_write_bytecode = True
from made_up import Tree

# low states two pages, one with parameters; up proves the second page, which low only states; code has a module's page.
FILES = {
    "crates.txt": "low:\nup: low\ncode:\n",
    "crates/low/src/lib.rt": "// Low.\n",
    "crates/low/specs/Lib.antt": "pub mod Promises\npub mod Sheet\n",
    "crates/low/specs/Promises.antt": """use Rattle.std.specs.Prelude.{ℕ}

-- A record beside the page needs no value.
pub record Holding (n : ℕ) : Type 0 where
  pub is : n ≡ 0

pub record Promises : Type 0 where
  -- a promise
  pub same : (n : ℕ) → n ≡ n
""",
    "crates/low/specs/Sheet.antt": "pub record Cases (n m : ℕ) (rows : List ℕ) : Type 0 where\n  pub one : n ≡ n\n",
    "crates/low/proofs/Lib.antt": "pub mod Kept\n",
    "crates/low/proofs/Kept.antt": "pub mod Deep\n",
    "crates/low/proofs/Kept/Deep.antt": """use Rattle.low.specs.Promises.{Promises as Page}

-- kept
pub promises : Page
promises = record { same = λ n. refl; }
""",
    "crates/up/src/lib.rt": "// Up.\n",
    "crates/up/proofs/Lib.antt": "pub mod Cases\n",
    "crates/up/proofs/Cases.antt": """use Rattle.low.specs.Sheet.{Cases}

module _ (n : ℕ) where
  pub cases : (m : ℕ) (rows : List ℕ) → Cases n m rows
  cases m rows = record { one = refl; }
""",
    "crates/code/src/lib.rt": "pub mod inner; // inner.rt\n",
    "crates/code/src/inner.rt": "pub fn one() -> u64 {\n    1\n}\n",
    "crates/code/specs/Lib.antt": "pub mod Inner\n",
    "crates/code/specs/Inner.antt": "pub mod Promises\n",
    "crates/code/specs/Inner/Promises.antt": "pub record Promises : Type 0 where\n  pub one : 1 ≡ 1\n",
    "crates/code/proofs/inner.antt": "pub mod Promises\n",
    "crates/code/proofs/inner/Promises.antt": """use Rattle.code.specs.Inner.Promises.{Promises}

pub promises : Promises
promises = record { one = refl; }
""",
}
DEEP, CASES = "crates/low/proofs/Kept/Deep.antt", "crates/up/proofs/Cases.antt"


class Promises(unittest.TestCase):
    def refused(self, file, old, new, *said):
        """With this edit the check fails, and its first line has these words."""
        with Tree(FILES) as tree:
            tree.edit(file, old, new)
            status, text = tree.run("promises")
            self.assertEqual(status, 1, text)
            for words in said:
                self.assertIn(words, text.splitlines()[0])

    def test_kept(self):
        with Tree(FILES) as tree:
            self.assertEqual(tree.run("promises"), (0, "promise pages: 3 kept, 0 not\n"))
            said = "17 copies of pages with a piece of the proof taken away: 17 refused\n"
            self.assertEqual(tree.run("promises", "test"), (0, said))

    def test_value_gone(self):
        self.refused(DEEP, "pub promises : Page\npromises = record { same = λ n. refl; }\n", "",
                     "low/specs/Promises.antt: the record Promises is not kept: no crate's proofs/ have a value of it")

    def test_in_a_comment(self):
        self.refused(DEEP, "pub promises : Page\npromises", "-- pub promises : Page\nother : ℕ\nother", "no crate's")

    def test_not_pub(self):
        self.refused(DEEP, "pub promises", "promises", "`promises` of " + DEEP + " is not marked `pub`")

    def test_not_led_to(self):
        self.refused("crates/low/proofs/Lib.antt", "pub mod Kept\n", "", "that no `pub mod` lines lead to")
        self.refused("crates/low/proofs/Kept.antt", "pub mod Deep\n", "mod Deep\n", "that no `pub mod` lines lead to")
        self.refused("crates/code/proofs/inner.antt", "pub mod Promises\n", "-- none\n", "that no `pub mod` lines lead")
        self.refused("crates/low/specs/Lib.antt", "pub mod Promises\n", "", "no `pub mod` lines of specs/ lead to it")

    def test_another_page_of_that_name(self):
        self.refused(DEEP, "Rattle.low.specs.Promises.{", "Rattle.code.specs.Inner.Promises.{", "no crate's")

    def test_hypotheses(self):
        self.refused(DEEP, ": Page\n", ": ⊥ → Page\n", "assumes something that the page does not state")
        self.refused(DEEP, ": Page\n", ": (h : ⊥) → Page\n", "assumes something")
        self.refused(CASES, "(rows : List ℕ) →", "(rows : List ℕ) → n ≡ m →", "assumes something")
        self.refused(CASES, "module _ (n : ℕ) where", "module _ (n : ℕ) (h : n ≡ 0) where", "assumes something")

    def test_not_at_variables(self):
        self.refused(CASES, "Cases n m rows", "Cases n n rows", "is not of the page at variables")
        self.refused(CASES, "Cases n m rows", "Cases 0 m rows", "is not of the page at variables")
        self.refused(CASES, "Cases n m rows", "Cases n m (0 ∷ rows)", "is not of the page at variables")

    def test_file_without_a_record(self):
        self.refused("crates/low/specs/Promises.antt", "pub record Promises", "pub record Kept",
                     "crates/low/specs/Promises.antt: has no record named Main or Promises or Cases")

    def test_proving_crate_not_listed(self):
        self.refused("crates.txt", "up: low\n", "", "crates/low/specs/Sheet.antt: the record Cases is not kept")


unittest.main()
