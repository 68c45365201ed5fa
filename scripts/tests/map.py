#!/usr/bin/env python3
"""Tests of scripts/map on a made-up list of crates, without Graphviz. Usage: scripts/tests/map.py"""
import sys
import unittest

sys.dont_write_bytecode = True
from made_up import Tree

# term follows from term_add, so text's arrow to it is left out, as is the kit's io.
LIST = "refusal:\nterm_add: refusal\nterm: refusal term_add\ntext: refusal term_add term\nrun_texts: text io\n"
PICTURE = """<svg width="1">
<!-- The graph, by which scripts/map check knows the picture:
floor Refusals, names and numbers: refusal
floor Terms: term_add term
floor Texts: text
floor Runs: run_texts
term_add > refusal
term > term_add
text > term
run_texts > text
-->
</svg>
"""


class Map(unittest.TestCase):
    def checked(self, crates, picture):
        with Tree({"crates.txt": crates, "docs/map.svg": picture}) as tree:
            return tree.run("map", "check")

    def test_right(self):
        said = "docs/map.svg is the map of crates.txt: 5 crates, 4 arrows\n"
        self.assertEqual(self.checked(LIST, PICTURE), (0, said))

    def test_wrong(self):
        wrong = (1, "docs/map.svg is not the map of crates.txt: run 'scripts/map'\n")
        self.assertEqual(self.checked(LIST + "text_write: term\n", PICTURE), wrong)
        self.assertEqual(self.checked(LIST.replace("text: refusal term_add term", "text: refusal"), PICTURE), wrong)
        self.assertEqual(self.checked(LIST, PICTURE.replace("text > term", "text > term_add")), wrong)
        self.assertEqual(self.checked(LIST, "<svg></svg>\n"), wrong)

    def test_no_floor(self):
        said = "map: the crate odd belongs to no floor; give it one in FLOORS of scripts/house/__init__.py\n"
        self.assertEqual(self.checked(LIST + "odd:\n", PICTURE), (2, said))

    def test_dot(self):
        with Tree({"crates.txt": LIST}) as tree:
            text = tree.run("map", "dot")[1]
            self.assertEqual(text.count(" -> "), 4)
            self.assertEqual(text.count("subgraph"), 4)


unittest.main()
