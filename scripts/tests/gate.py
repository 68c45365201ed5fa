#!/usr/bin/env python3
"""Tests of ./test on made-up steps: what it says at its end of what was left out; and of the comparisons with the
crate's Rust where no compiler can be had. Usage: scripts/tests/gate.py"""
import os
import shutil
import struct
import subprocess
import sys
import unittest

sys.dont_write_bytecode = True
from made_up import SCRIPTS, Tree

TOP = os.path.dirname(SCRIPTS)
SCRIPT = "#!/bin/sh\n"
OK = "rt: ok; handles allowed: none; every proof and must-fail edit was done in this run"
RT = SCRIPT + 'case $* in ci) echo "rt: one proved"; echo "%s"; echo "3 passed, 0 failed" ;; *) exit 7 ;; esac\n' % OK


def put(tree, path, text):
    tree.write(path, text)
    os.chmod(tree.path(path), 0o755)


def run(tree, path, *words):
    """A script of the made-up tree, with the commands of its folder `bin` first, or alone if there are many."""
    alone = os.path.exists(tree.path("bin/bash"))
    env = dict(os.environ, PATH=tree.path("bin") + ("" if alone else ":" + os.environ["PATH"]))
    done = subprocess.run([tree.path(path)] + list(words), env=env, text=True, check=False,
                          stdout=subprocess.PIPE, stderr=subprocess.STDOUT, stdin=subprocess.DEVNULL)
    return done.returncode, done.stdout.splitlines()


class Gate(unittest.TestCase):
    def gate(self, steps, rt=RT, edits=0):
        """What ./test says with these steps and so many must-fail edits, from 'all of it' on, and its exit status."""
        with Tree({"crates/one/must-fail/%d.edit" % number: "" for number in range(edits)}) as tree:
            os.makedirs(tree.path("crates/one/out"), exist_ok=True)
            shutil.copy(os.path.join(TOP, "test"), tree.path("test"))
            put(tree, "bin/rt", rt)
            for name, text in steps.items():
                put(tree, "scripts/" + name, SCRIPT + text)
            status, lines = run(tree, "test")
            end = [i for i, line in enumerate(lines) if line.startswith("== all of it (")]
            return status, lines[end[0] + 1 :] if end else lines[-1:]

    def test_all_there(self):
        self.assertEqual(self.gate({"check-a": "echo fine\n", "after-b": "echo fine\n"}), (0, ["3 passed, 0 failed"]))

    def test_left_out(self):
        self.assertEqual(self.gate({
            "check-a": "echo 'not compared: a, for want of it'\necho fine\n",
            "check-b": "echo 'it is not run: said within a line'\necho 'not checked: b'\n",
            "after-c": "echo 'not run: c'\n",
        }), (0, ["not compared: a, for want of it", "not checked: b", "not run: c", "3 passed, 0 failed"]))

    def test_failing(self):
        failed = "test: scripts/%s failed; see the lines above"
        self.assertEqual(self.gate({"check-a": "echo 'not run: a'\nexit 1\n"}), (1, [failed % "check-a"]))
        self.assertEqual(self.gate({"after-a": "exit 3\n"}), (1, [failed % "after-a"]))
        self.assertEqual(self.gate({"check-a": "echo fine\n"}, RT.replace("0 failed", "1 failed")),
                         (1, ["test: rt ci did not end in 'N passed, 0 failed'"]))
        self.assertEqual(self.gate({}, SCRIPT + "echo '2 passed, 1 failed'\nexit 1\n"), (1, ["2 passed, 1 failed"]))
        self.assertEqual(self.gate({}, SCRIPT + "echo '3 passed, 0 failed'\n"),
                         (1, ["test: rt ci has passed without its line 'rt: ok'"]))

    def test_edits(self):
        """A bad edit fails, and so does one that rt ci did not try; one that only a limit refused passes."""
        bad = (1, ["test: must-fail edits are bad; see above what rt ci says of each: bring them to the code"])
        for said, edits, wanted in (
            ("2 refused", 2, (0, ["3 passed, 0 failed"])),
            ("2 refused, 1 of them only by a limit", 2, (0, ["3 passed, 0 failed"])),
            ("1 refused, 1 bad", 2, bad),
            ("2 refused, 1 of them only by a limit, 1 bad", 2, bad),
            ("0 refused, 2 bad", 2, bad),
            ("2 refused", 3, (1, ["test: rt ci has refused 2 must-fail edits, and 3 are there"])),
        ):
            with self.subTest(said=said):
                rt = RT.replace("none;", "none; must-fail edits: %s;" % said)
                self.assertEqual(self.gate({"after-a": "echo fine\n"}, rt, edits), wanted)
        self.assertEqual(self.gate({}, edits=1), (1, ["test: rt ci has refused 0 must-fail edits, and 1 are there"]))

    def test_words(self):
        """Help is an answer, on standard output; another word is refused. Neither starts a step."""
        with Tree({}) as tree:
            shutil.copy(os.path.join(TOP, "test"), tree.path("test"))
            for word, wanted, said in (("--help", 0, "Usage: ./test"), ("--verbose", 2, "takes no arguments")):
                status, lines = run(tree, "test", word)
                self.assertEqual(status, wanted, lines)
                self.assertIn(said, "\n".join(lines))
                self.assertFalse([line for line in lines if line.startswith("==")], lines)


def stream(*parts):
    return b"".join(struct.pack("<I", len(part)) + part for part in parts)


class WithoutRust(unittest.TestCase):
    """With the crate's Rust there, or not, but neither cargo nor rustc nor a way to install them."""

    def without(self, script, shared=True, answer=b"answered\n"):
        with Tree({"here/crates.txt": ""}) as tree:
            for path in ("oracle/build", "oracle/compare", "scripts/x86-64.sh", "scripts/recorded", "scripts/" + script):
                os.makedirs(os.path.dirname(tree.path("here/" + path)), exist_ok=True)
                shutil.copy(os.path.join(TOP, path), tree.path("here/" + path))
            shutil.copytree(os.path.join(SCRIPTS, "house"), tree.path("here/scripts/house"))
            put(tree, "here/scripts/exec-program", SCRIPT + "cat >/dev/null\nexec cat answers\n")
            os.makedirs(tree.path("here/examples/recorded"))
            for path, content in (("examples/recorded/replay-0.bin", stream(b"asked", b"answered\n")),
                                  ("answers", stream(answer))):
                with open(tree.path("here/" + path), "wb") as file:
                    file.write(content)
            if shared:
                for name in ("extract", "termdag", "util"):
                    tree.write("shared/docs/src/src/%s.rs" % name, "")
            os.makedirs(tree.path("bin"))
            for folder in ("/bin", "/usr/bin"):
                for name in os.listdir(folder):
                    if name not in ("cargo", "rustc", "apt-get") and not os.path.lexists(tree.path("bin/" + name)):
                        os.symlink(os.path.join(folder, name), tree.path("bin/" + name))
            put(tree, "bin/apt-get", SCRIPT + "echo 'E: Permission denied' >&2\nexit 100\n")
            return run(tree, "here/scripts/" + script)

    def test_no_compiler(self):
        for script in ("check-oracle", "after-compare"):
            status, lines = self.without(script)
            self.assertEqual(status, 0, lines)
            told = [line for line in lines if line.startswith("not compared: ")]
            self.assertRegex("\n".join(told), r"^not compared: .*: no oracle can be built here$")
            self.assertIn("cargo-web rustc-web cannot be installed here (E: Permission denied)", "\n".join(lines))

    def test_no_rust_text(self):
        for script in ("check-oracle", "after-compare"):
            status, lines = self.without(script, shared=False)
            self.assertEqual(status, 0, lines)
            self.assertRegex(lines[0], r"^not compared: .*: the crate's Rust is not at \.\./shared/docs/src/src$")
            last = {"check-oracle": "not compared: document 01's own path with the recorded answers: it cannot be built here",
                    "after-compare": "scripts/exec-program run_program: replay-*.bin, 1 recorded answers"}
            self.assertEqual(lines[-1], last[script])

    def test_recorded_answers(self):
        """Without the oracle the program is held to the recorded answers all the same."""
        for shared in (True, False):
            status, lines = self.without("after-compare", shared, b"another\n")
            self.assertEqual(status, 1, lines)
            self.assertIn("case 0 gets another answer than the recorded one", lines[-1])


unittest.main()
