#!/usr/bin/env python3
"""Tests of scripts/deps on a made-up tree of five crates. Usage: scripts/tests/deps.py"""
import sys
import unittest

sys.dont_write_bytecode = True
from made_up import Tree

# low has a type; next gives it away; top calls next, so it needs low too; said and edit name low in other ways.
FILES = {
    "crates.txt": "# The list.\nlow:\nnext: low\ntop: low next\nsaid: low io\nedit: low\n",
    "crates/low/src/lib.rt": "// Low.\npub enum Low {\n    One,\n}\n\npub mod deep; // deep.rt\n",
    "crates/low/src/deep.rt": "pub fn count() -> u64 {\n    1\n}\n",
    "crates/low/specs/Lib.antt": "-- Low.\npub mod Low\n",
    "crates/low/specs/Low.antt": "-- Low.\npub low : ℕ\nlow = 1\n",
    "crates/next/src/lib.rt": "use low::Low;\n\npub fn make() -> Low {\n    Low::One\n}\n",
    "crates/top/src/lib.rt": "// It stands on low:: through next, which a comment does not name.\n"
                             "pub fn top() -> u64 {\n    let x = next::make();\n    1\n}\n",
    "crates/said/src/main.rt": "// A program.\nfn main() {\n    io::print(b\"\");\n}\n",
    "crates/said/proofs/Lib.antt": "-- Laws.\npub mod SaidLaws\n",
    "crates/said/proofs/SaidLaws.antt": "-- Rattle.next is in a comment alone.\nuse Rattle.low.specs.Low.{low}\n",
    "crates/edit/src/lib.rt": "pub fn edit() -> u64 {\n    0\n}\n",
    "crates/edit/must-fail/one.edit": "file: src/lib.rt\nold:     0\nnew:     low::deep::count()\n",
}


class Deps(unittest.TestCase):
    def wrong(self, old, new, *said):
        """With the list changed so, the check fails and says these lines."""
        with Tree(FILES) as tree:
            tree.edit("crates.txt", old, new)
            status, text = tree.run("deps", "check")
            self.assertEqual(status, 1, text)
            self.assertEqual(text.splitlines()[:-1], list(said))
            tree.run("deps", "write")
            self.assertEqual(tree.read("crates.txt"), FILES["crates.txt"])

    def test_right(self):
        with Tree(FILES) as tree:
            status, text = tree.run("deps", "check")
            self.assertEqual((status, text.count("\n")), (0, 1), text)

    def test_named_and_not_listed(self):
        self.wrong("said: low io", "said: io", "said: names low, and does not list it")
        self.wrong("said: low io", "said: low", "said: names io, and does not list it")
        self.wrong("next: low", "next:", "next: names low, and does not list it")
        self.wrong("edit: low", "edit:", "edit: names low, and does not list it")

    def test_listed_and_not_named(self):
        self.wrong("said: low io", "said: low next io", "said: lists next, and none of its files names it")
        self.wrong("edit: low", "edit: low os", "edit: lists os, and none of its files names it")
        self.wrong("low:\n", "low: bytes\n", "low: lists bytes, and none of its files names it")

    def test_reached_through_a_call(self):
        self.wrong("top: low next", "top: next",
                   "top: calls a function that takes or gives a type of low, and does not list it")

    def test_static_library(self):
        """The word before the colon stays, and is no crate."""
        listed = FILES["crates.txt"].replace("top:", "top staticlib:")
        with Tree(dict(FILES, **{"crates.txt": listed})) as tree:
            self.assertEqual(tree.run("deps", "check")[0], 0)
            tree.edit("crates.txt", "top staticlib: low next", "top staticlib: low")
            self.assertEqual(tree.run("deps", "check")[1].splitlines()[0], "top: names next, and does not list it")
            tree.run("deps", "write")
            self.assertEqual(tree.read("crates.txt"), listed)

    def test_imports(self):
        """A `use` of several names, one under another name, names their crate; std's own modules are std's."""
        with Tree(FILES) as tree:
            tree.write("crates/next/src/lib.rt", "use std::{fs, io};\nuse low::{Low as Lowest, deep};\n\n"
                       "pub fn make() -> Lowest {\n    io::nothing(deep::count());\n    Lowest::One\n}\n")
            self.assertEqual(tree.run("deps", "check")[0], 0)

    def test_above(self):
        with Tree(FILES) as tree:
            self.assertEqual(tree.run("deps", "above", "next"), (0, "top\n"))
            self.assertEqual(tree.run("deps", "above", "low"), (0, "next\ntop\nsaid\nedit\n"))

    def test_order(self):
        """A crate that stands above what it names comes after it; the others keep their places."""
        with Tree(FILES) as tree:
            tree.write("crates.txt", "# The list.\ntop: next low\nlow:\nsaid: low io\nnext: low\nedit: low\n")
            self.assertEqual(tree.run("deps", "write"), (0, ""))
            self.assertEqual(tree.read("crates.txt"), FILES["crates.txt"])

    def test_faults(self):
        with Tree(FILES) as tree:
            self.assertEqual(tree.run("deps", "above", "nobody"), (2, "deps: crates.txt lists no crate 'nobody'\n"))
            self.assertEqual(tree.run("deps")[0], 2)
            tree.write("crates/low/src/lib.rt", "pub fn low() -> u64 {\n    next::make()\n}\n")
            circle = "deps: the crates name each other in a circle: low next low\n"
            self.assertEqual(tree.run("deps", "write"), (2, circle))


unittest.main()
