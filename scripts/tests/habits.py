#!/usr/bin/env python3
"""Tests of ./check, scripts/prove and scripts/seconds on a made-up tree, with an `rt` that prints what the real one
would. Usage: scripts/tests/habits.py"""
import os
import shutil
import subprocess
import sys
import unittest

sys.dont_write_bytecode = True
from made_up import SCRIPTS, Tree

PROOF = "crates/low/proofs/find/Answers.antt"
NONE = """rt: chose --jobs 2 for low
checked low::find, 2 of 2
fn low::is: proved
note: src/lib.rt:11:5: it is not proved that what the function ensures holds when it returns (`returns`)
fn low::find: no proof: expected answers in ./proofs/find/Answers.antt; `search` did not prove `returns`
help: write ./proofs/find/Answers.antt with these lines, and check again: each hole's goal is what is left to show there
    use Rattle.low.proofs.find.Goals as goal

    -- src/lib.rt:11:5
    pub returns : goal.returns
    returns c = ?
note: `returns` of proofs/find/Answers.antt must prove: c.echo.result ≡ c.args.x
  names you can use, by step:
  | c: .requires
  | c.args: .x

logic=not-proved
rt: rt lemma WORD.. finds a lemma by guessed names or words of the goal
"""
STARTED = """wrote ./proofs/find/Answers.antt
started=1
./proofs/find/Answers.antt:4:13: goal ? in `returns`
only=1 holes=1
"""
WRITTEN = """use Rattle.low.proofs.find.Goals as goal

-- src/lib.rt:11:5
pub returns : goal.returns
returns c = ?

-- src/lib.rt:12:5
pub kept : goal.kept
kept c = search rules
"""
SKELETON = """-- `low::find` meets its contract. Assumes nothing.
use Rattle.low.proofs.find.Goals as goal

pub returns : goal.returns
returns c = ?

pub kept : goal.kept
kept c = search rules
"""
REFUSED = """./proofs/find/Answers.antt:7:16: error: `kept`: `search`: no proof of `c .before .before .κs`
fn low::find: not proved
logic=not-proved
"""
GOALS = """./proofs/find/Answers.antt:5:16: goal ? in `returns`
    c : goal.Start
  ⊢ c.args.x
      ≡ 1  (computed from something)
  names you can use, by step:
    c: .requires
    c.args: .x
  the newest fields, with their types:
    c.args.x : ℕ
./proofs/find/Answers.antt:9:16: goal ? in `kept`
  ⊢ Type 0
  names you can use: as in `returns` above
logic=not-proved
"""
LOG = """== low
proved: nothing
low proved (4 s)
top proved (30 s)
gone proved (7 s)
mid NOT PROVED (3 s)
rt: must-fail low/wrong: refused, as it must be (first at src/lib.rt:3:1; 5 s)
rt: must-fail low/missing: refused, as it must be (9 s)
rt: top ran as nobody, and wrote what its file 'stdout' has (2 s)
rt: low proved
== all of it (61 s)
4 passed, 0 failed
"""
KEPT = "all all of it 61\ncrate low 4\ncrate top 30\nedit low/wrong 5\nrun top 2\n"
FILES = {
    "crates.txt": "low:\nmid: low\ntop: mid\n",
    "crates/low/src/lib.rt": "// Low.\n",
    "crates/low/must-fail/wrong.edit": "",
    "crates/mid/src/lib.rt": "// Mid.\n",
    "crates/top/src/main.rt": "// Top.\n",
    "log": LOG,
}


class Habits(unittest.TestCase):
    def tree(self, said="", status=0, **files):
        """A tree in which rt says this, with a copy of the scripts."""
        tree = Tree(dict(FILES, **files))
        tree.__enter__()
        self.addCleanup(tree.__exit__)
        os.makedirs(tree.path("scripts"))
        shutil.copytree(os.path.join(SCRIPTS, "house"), tree.path("scripts/house"))
        for name in ("scripts/prove", "check"):
            shutil.copy(os.path.join(os.path.dirname(SCRIPTS), name), tree.path(name))
        self.rt(tree, said, status)
        return tree

    @staticmethod
    def rt(tree, said, status=0, writes=""):
        """An `rt` that says this, and writes that into the crate's proof of find where it is asked to start one."""
        tree.write("said", said)
        tree.write("writes", writes)
        tree.write("bin/rt", '#!/bin/sh\necho "$(basename "$PWD") $*" >>%s\ncase "$*" in *--start*) '
                   'mkdir -p proofs/find && cp %s proofs/find/Answers.antt; cat %s; exit 1 ;; esac\ncat %s\nexit %s\n' % (
                       tree.path("asked"), tree.path("writes"), tree.path("started"), tree.path("said"), status))
        tree.write("started", STARTED)
        os.chmod(tree.path("bin/rt"), 0o755)

    @staticmethod
    def run_in(tree, path, *words):
        done = subprocess.run([tree.path(path)] + list(words), cwd=tree.root, text=True, check=False,
                              env=dict(os.environ, PATH=tree.path("bin") + ":" + os.environ["PATH"]),
                              stdout=subprocess.PIPE, stderr=subprocess.STDOUT)
        return done.returncode, done.stdout.splitlines()

    # -- ./check

    def test_check(self):
        tree = self.tree("fn low::is: proved\nnote: long\nlogic=proved functions=1\n", **{"docs/seconds.txt": KEPT})
        status, lines = self.run_in(tree, "check", "low")
        self.assertEqual(status, 0, lines)
        self.assertEqual(lines[:2], ["== low", "logic=proved functions=1"])
        self.assertEqual(lines[3:], [
            "== what this changes",
            "low: 4 s last time; must-fail edits: 1, 5 s",
            "  above: mid                not timed",
            "  above: top                30 s",
            "above: 2 crates, 30 s in all and 1 not timed",
        ])
        self.assertEqual(tree.read("asked"), "low check\n")

    def test_check_fails(self):
        tree = self.tree(REFUSED, 1)
        status, lines = self.run_in(tree, "check", "--above", "low")
        self.assertEqual(status, 1, lines)
        self.assertIn("error: `kept`", lines[1])
        self.assertEqual(tree.read("asked"), "low check\n")

    def test_check_above(self):
        tree = self.tree("fn low::is: proved\nnote: long\nlogic=proved\n")
        status, lines = self.run_in(tree, "check", "--above", "low")
        self.assertEqual(status, 0, lines)
        self.assertRegex("\n".join(lines), r"== all of it\nmid proved \(\d+ s\)\ntop proved \(\d+ s\)$")
        self.assertEqual(tree.read("asked"), "low check\nmid check\ntop check\n")

    def test_check_above_fails(self):
        """The first that is not proved ends it: those above it cannot be."""
        tree = self.tree()
        self.rt(tree, "src/lib.rt:1:1: error: no\n", "$([ $(basename $PWD) = low ]; echo $?)")
        status, lines = self.run_in(tree, "check", "--above", "low")
        self.assertEqual((status, lines[-2]), (1, "src/lib.rt:1:1: error: no"), lines)
        self.assertRegex(lines[-1], r"^mid NOT PROVED \(\d+ s\)$")
        self.assertEqual(tree.read("asked"), "low check\nmid check\n")

    def test_check_wrong(self):
        tree = self.tree()
        self.assertEqual(self.run_in(tree, "check", "none"), (2, ["check: crates.txt lists no crate 'none'"]))
        self.assertEqual(self.run_in(tree, "check")[0], 2)
        self.assertEqual(self.run_in(tree, "check", "--below", "low")[0], 2)

    # -- scripts/prove

    def test_dev(self):
        tree = self.tree(NONE, 1)
        status, lines = self.run_in(tree, "scripts/prove", "dev", "low")
        self.assertEqual(status, 1)
        self.assertEqual([line.split(":")[0] for line in lines[:-1]], ["note", "fn low", "logic=not-proved"])
        self.assertRegex(lines[-1], r"^1 functions proved; [\d.]+ s; whole output: target/prove/low.out$")
        self.run_in(tree, "scripts/prove", "dev", "low", "find")
        self.assertEqual(tree.read("asked"), "low check\nlow check --only find\n")

    def test_skeleton_holes_fill(self):
        tree = self.tree()
        self.rt(tree, NONE, 1, WRITTEN)
        self.assertEqual(self.run_in(tree, "scripts/prove", "skel", "low"), (0, ["wrote %s with 1 holes" % PROOF]))
        self.assertEqual(tree.read("asked"), "low check\nlow check --start low::find --allow-holes\n")
        self.assertEqual(tree.read(PROOF), SKELETON)
        self.rt(tree, REFUSED, 1)
        status, lines = self.run_in(tree, "scripts/prove", "dev", "low")
        self.assertEqual(status, 1)
        self.assertIn("`c .b2 .κs`", lines[0])
        self.assertEqual(self.run_in(tree, "scripts/prove", "holes", "low"), (0, ["hole: %s kept" % PROOF]))
        self.assertIn("\nkept c = ?\n", tree.read(PROOF))
        tree.write("answers", "@ kept c = f (c .b3 .x)\n  more\n@ returns c = c.args.x\n")
        self.assertEqual(self.run_in(tree, "scripts/prove", "fill", PROOF, "answers"), (0, []))
        self.assertEqual(tree.read(PROOF), SKELETON.replace("returns c = ?", "returns c = c.args.x").replace(
            "kept c = search rules", "kept c = f (c .before .before .before .x)\n  more"))
        tree.write("answers", "@ nothing c = 1\n")
        self.assertEqual(self.run_in(tree, "scripts/prove", "fill", PROOF, "answers"),
                         (2, ["prove: nothing stands 0 times in " + PROOF]))

    def test_goals(self):
        status, lines = self.run_in(self.tree(GOALS, 1), "scripts/prove", "goals", "low")
        self.assertEqual((status, lines[0::2][:2]), (0, ["returns ? : ⊢ c.args.x ≡ 1", "kept ? : ⊢ Type 0"]))
        status, lines = self.run_in(self.tree(NONE, 1), "scripts/prove", "goals", "low", "find")
        self.assertEqual((status, lines[0]), (0, "returns : c.echo.result ≡ c.args.x"))
        self.assertEqual(self.run_in(self.tree(GOALS, 1), "scripts/prove", "goals", "low", "other")[1][:-1], [])

    def test_paths(self):
        tree = self.tree(GOALS, 1)
        self.assertEqual(self.run_in(tree, "scripts/prove", "paths", "low", "find"), (0, [
            "returns ?: c: .requires; c.args: .x", "kept ?: as in `returns` above"]))
        self.rt(tree, NONE, 1)
        self.assertEqual(self.run_in(tree, "scripts/prove", "paths", "low", "low::find"), (0, [
            "returns: c: .requires; c.args: .x"]))
        self.assertEqual(self.run_in(tree, "scripts/prove", "paths", "low", "other")[0], 2)

    def test_prove_wrong(self):
        tree = self.tree()
        none = (2, ["prove: crates.txt lists no crate 'none'"])
        self.assertEqual(self.run_in(tree, "scripts/prove", "dev", "none"), none)
        self.assertEqual(self.run_in(tree, "scripts/prove", "holes", "low")[0], 2)
        self.assertEqual(self.run_in(tree, "scripts/prove", "paths", "low")[0], 2)
        self.assertEqual(self.run_in(tree, "scripts/prove")[0], 2)

    # -- scripts/seconds

    def test_seconds(self):
        """Old lines stay where the log has none; what is no more goes."""
        old = "crate low 9\ncrate mid 8\ncrate old 7\nedit low/old 6\n"
        with Tree(dict(FILES, **{"docs/seconds.txt": old})) as tree:
            status, text = tree.run("seconds", "log")
            self.assertEqual((status, text), (0, "docs/seconds.txt: 6 lines, 5 of them new\n"))
            kept = [line for line in tree.read("docs/seconds.txt").splitlines() if not line.startswith("#")]
            self.assertEqual(kept, KEPT.replace("crate top", "crate mid 8\ncrate top").splitlines())

    def test_seconds_differ(self):
        after = KEPT.replace("crate low 4", "crate low 24").replace("edit low/wrong 5", "edit low/new 6")
        with Tree(dict(FILES, a=KEPT, b=after)) as tree:
            status, text = tree.run("seconds", "diff", "a", "b")
            rows = [line.split() for line in text.splitlines()]
            self.assertEqual(status, 0, text)
            self.assertIn("all of it 61 61 +0".split(), rows)
            self.assertIn("proofs, 2 and 2 34 54 +20".split(), rows)
            self.assertEqual(rows[-3:], ["crate low 4 24 +20".split(), "edit low/new - 6 +6".split(),
                                         "edit low/wrong 5 - -5".split()])

    def test_seconds_wrong(self):
        with Tree(dict(FILES, empty="nothing\n", bad="crate low\n")) as tree:
            for words, said in ((["empty"], "empty has no line with seconds"), (["none"], "cannot be read"),
                                (["diff", "bad", "bad"], "bad, line 1: 'KIND NAME SECONDS' is expected"),
                                (["diff", "none", "bad"], "'none' is neither a file nor a commit"), ([], "give a LOG")):
                status, text = tree.run("seconds", *words)
                self.assertEqual((status, text.count("\n")), (2, 1), text)
                self.assertIn(said, text)


unittest.main()
