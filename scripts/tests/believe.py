#!/usr/bin/env python3
"""Tests of scripts/believe on a made-up tree. Usage: scripts/tests/believe.py"""
import sys
import unittest

sys.dont_write_bytecode = True
from made_up import Tree

# file::read has a contract over file_rules; its page needs one definition more; price is no crate to believe in.
FILES = {
    "crates.txt": "file_rules:\nprice:\nfile: file_rules\n",
    "docs/BELIEVE.md": "",
    "crates/file_rules/src/lib.rt": "// Rules.\n",
    "crates/file_rules/specs/Lib.antt": "pub mod Table\npub mod Inner\n",
    "crates/file_rules/specs/Table.antt": """-- Tables.

-- A table.
pub record Table : Type 0 where
  pub rows : ℕ

-- What is read.
pub table_at : ℕ → Table
table_at n = record { rows = n; }

pub spare : ℕ
spare = 1

pub large : Table → ℕ
large t = t.rows
""",
    "crates/file_rules/specs/Inner.antt": "pub inner : ℕ\ninner = 1\n",
    "crates/price/src/lib.rt": "// Prices.\n",
    "crates/price/specs/Lib.antt": "pub mod Cost\n",
    "crates/price/specs/Cost.antt": "pub cost : ℕ\ncost = 1\n",
    "crates/file/src/lib.rt": """ghost use Rattle.file_rules.specs.Table.{table_at};

// What is answered.
pub enum Read {
    Done,
}

// Reads a table.
pub fn read(n: u64) -> Read
    ensures { table_at n }
{
    Read::Done
}
""",
    "crates/file/specs/Lib.antt": "pub mod Promises\n",
    "crates/file/specs/Promises.antt": """use Rattle.file_rules.specs.Table.{Table, large}

pub record Promises : Type 0 where
  pub one : (t : Table) → large t ≡ 1
""",
}
TABLE = "crates/file_rules/specs/Table.antt"


class Believe(unittest.TestCase):
    def said(self, tree):
        """What the check complains of, but for trusted crates that the made-up tree has not."""
        status, text = tree.run("believe", "check")
        self.assertEqual(status, 1, text)
        return [l for l in text.splitlines() if "`" in l or "BELIEVE" in l or "names file_rules" in l]

    def complains(self, file, old, new, *words):
        """Where this edit is made and the page written anew, the check's one complaint has these words."""
        with Tree(FILES) as tree:
            tree.edit(file, old, new)
            tree.run("believe", "write")
            said = self.said(tree)
            self.assertEqual(len(said), 1, said)
            for word in words:
                self.assertIn(word, said[0])

    def test_written(self):
        with Tree(FILES) as tree:
            self.assertEqual(len(self.said(tree)), 1)
            self.assertEqual(tree.run("believe", "write"), (0, ""))
            self.assertEqual(self.said(tree), [])
            self.assertEqual(tree.run("believe")[1], tree.read("docs/BELIEVE.md"))
            self.assertIn("- [Table](../%s), 8 of 15 lines: `Table` 3, `table_at` 3; for the pages `large` 2" % TABLE,
                          tree.read("docs/BELIEVE.md"))
            self.assertIn("- file_rules: Inner\n- price: Cost\n", tree.read("docs/BELIEVE.md"))

    def test_counts(self):
        with Tree(FILES) as tree:
            self.assertEqual(tree.run("believe", "counts")[1].splitlines(), [
                "contracts of the public calls: 1, 3 lines",
                "definitions behind the contracts: 3, 10 lines",
                "promise pages: 1, 2 lines",
                "definitions that only the promise pages need: 1, 2 lines",
                "definitions and pages in all: 5, 14 lines",
                "of these, the page at the top: 0, 0 lines",
                "crates that hold them: 2",
                "files that hold them: 3",
                "files of specs/ that hold none: 2, 4 lines",
            ])

    def test_stale(self):
        with Tree(FILES) as tree:
            tree.run("believe", "write")
            tree.edit(TABLE, "-- What is read.\n", "-- What is read.\n-- And more.\n")
            stale = "docs/BELIEVE.md is not what the files give now: run 'scripts/believe write'"
            self.assertEqual(self.said(tree), [stale])

    def test_left(self):
        self.complains(TABLE, "rows = n; }", "rows = Rattle.price.specs.Cost.cost; }",
                       "crates/price/specs/Cost.antt: `cost` is what a reader must believe", "price is not in TRUSTED")
        self.complains("crates/file/specs/Promises.antt", "t ≡ 1", "t ≡ Rattle.price.specs.Cost.cost", "`cost`")

    def test_proofs(self):
        with Tree(FILES) as tree:
            tree.write("crates/file_rules/proofs/Lib.antt", "pub mod Laws\n")
            tree.write("crates/file_rules/proofs/Laws.antt", "pub law : ℕ\nlaw = 1\n")
            tree.edit(TABLE, "rows = n; }", "rows = Rattle.file_rules.proofs.Laws.law; }")
            tree.run("believe", "write")
            self.assertIn("`law` is what a reader must believe, and proofs/ must hold none", self.said(tree)[0])

    def test_nothing_held(self):
        with Tree(FILES) as tree:
            tree.edit("crates/file/src/lib.rt", "table_at n", "n")
            tree.edit("crates/file/specs/Promises.antt", "(t : Table) → large t ≡ 1", "1 ≡ 1")
            tree.run("believe", "write")
            self.assertEqual(len(self.said(tree)), 1)
            self.assertIn("TRUSTED of scripts/believe names file_rules, which holds nothing", self.said(tree)[0])

    def test_asked(self):
        self.complains("crates/file/src/lib.rt", "    ensures {", "    requires { table_at n }\n    ensures {",
                       "file: the public call `read` has a `requires`")

    def test_why(self):
        with Tree(FILES) as tree:
            self.assertEqual(tree.run("believe", "why", "Table"), (
                0, "file::read -> file_rules.specs.Table.table_at -> file_rules.specs.Table.Table\n"))
            self.assertEqual(tree.run("believe", "why", "spare")[0], 2)


unittest.main()
