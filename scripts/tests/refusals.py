"""Tests of scripts/refusals, on copies of the repository's own files: a change of any copy is noticed and named."""
import os
import re
import shutil
import subprocess
import sys
import tempfile
import unittest

sys.dont_write_bytecode = True
TOP = os.path.dirname(os.path.dirname(os.path.dirname(os.path.abspath(__file__))))
RULES = "docs/RULES.md"
HEADER = "include/needlevale.h"
CALLER = "examples/rust/caller.rs"
RATTLE = "crates/refusal/src/lib.rt"
NUMBERS = "crates/refusal/specs/Numbers.antt"
REFERENCE = "oracle/paper/src/refusal.rs"
PACKAGE = "rust/needlevale/src/refusal.rs"
MANUAL = "man/needlevale.3"
WRITTEN = [HEADER, "README.md", MANUAL, CALLER]
HELD = [RATTLE, NUMBERS, REFERENCE]


class Refusals(unittest.TestCase):
    def setUp(self):
        self.here = tempfile.mkdtemp()
        self.addCleanup(shutil.rmtree, self.here)
        for path in [RULES] + WRITTEN + HELD:
            os.makedirs(os.path.dirname(os.path.join(self.here, path)), exist_ok=True)
            self.copy(path)

    def copy(self, path):
        """The repository's own file; of the caller in Rust, which need have no list, one that has."""
        to = os.path.join(self.here, path)
        if path != CALLER:
            shutil.copy(os.path.join(TOP, path), to)
            return
        rows = self.run_it("list")[1].splitlines()
        with open(to, "w", encoding="utf-8") as file:
            names = "".join('    "%s",\n' % row.split("\t")[1] for row in rows)
            file.write("const REFUSALS: [&str; %d] = [\n%s];\n" % (len(rows), names))

    def run_it(self, word):
        command = [sys.executable, os.path.join(TOP, "scripts", "refusals"), word]
        done = subprocess.run(command, cwd=self.here, stdout=subprocess.PIPE, stderr=subprocess.STDOUT)
        return done.returncode, done.stdout.decode()

    def change(self, path, old, new):
        """Puts new in the place of the first text that fits."""
        path = os.path.join(self.here, path)
        with open(path, encoding="utf-8") as file:
            text = file.read()
        changed = re.sub(old, lambda _: new, text, count=1, flags=re.M)
        self.assertNotEqual(text, changed, "%s has no '%s'" % (path, old))
        with open(path, "w", encoding="utf-8") as file:
            file.write(changed)

    def refused(self, path, says):
        status, said = self.run_it("check")
        self.assertEqual((status, [line for line in said.splitlines() if path in line and says in line] != []),
                         (1, True), said)
        self.assertEqual([line for line in said.splitlines()[:-1] if not line.startswith(path + ":")], [], said)

    def test_all_as_it_is(self):
        status, said = self.run_it("check")
        self.assertEqual((status, re.sub(r"\d+", "N", said)), (0, "N refusals, the same in N places\n"))
        self.assertEqual(self.run_it("write"), (0, ""))

    def test_a_changed_number_or_name_is_refused(self):
        for path, old, new, says in [
            (HEADER, r"NEEDLEVALE_BAD_ROOT = 10,", "NEEDLEVALE_BAD_ROOT = 11,", "write"),
            (HEADER, r"NEEDLEVALE_NO_ROOM\b", "NEEDLEVALE_NOROOM", "write"),
            (HEADER, r'"BadTerm", "Absent"', '"Absent", "BadTerm"', "write"),
            (HEADER, r"best only: no term", "no term", "write"),
            ("README.md", r"^\| 12 \| TooDear", "| 12 | Dear", "write"),
            ("README.md", r"^\| 16 \| .*\n", "", "write"),
            (MANUAL, r'NEEDLEVALE_BAD_STORE " \(17\)', 'NEEDLEVALE_BAD_STORE " (18)', "write"),
            (CALLER, r'"BadSort",\n', "", "write"),
            (CALLER, r"&str; \d+", "&str; 0", "write"),
            (RATTLE, r"    NoRoom,\n    BadTerm,", "    BadTerm,\n    NoRoom,", "gives NoRoom the number 14, not 13"),
            (RATTLE, r"Refusal::BadMode => 16", "Refusal::BadMode => 15", "gives BadMode the number 15, not 16"),
            (RATTLE, r"^    Trailing,\n", "", "has no Trailing (9)"),
            (NUMBERS, r"^refusal_no Absent = 15", "refusal_no Gone = 15", "has Gone (15), which the rules have not"),
            (NUMBERS, r"^refusal_no Short = 1$", "refusal_no Short = 0", "gives Short the number 0, not 1"),
            (REFERENCE, r"^    DupName,\n", "", "has no DupName (5)"),
        ]:
            with self.subTest(path=path, old=old):
                self.change(path, old, new)
                self.refused(path, says)
                self.copy(path)

    def test_a_caller_without_a_list_is_no_copy(self):
        with open(os.path.join(self.here, CALLER), "w", encoding="utf-8") as file:
            file.write("fn main() {}\n")
        self.assertEqual((self.run_it("check")[0], self.run_it("write")), (0, (0, "")))

    def test_the_package_is_held_where_it_is_there(self):
        rows = self.run_it("list")[1].splitlines()
        os.makedirs(os.path.dirname(os.path.join(self.here, PACKAGE)))
        with open(os.path.join(self.here, PACKAGE), "w", encoding="utf-8") as file:
            for number, name, _, _ in (row.split("\t") for row in rows):
                file.write('    %s = %s, "words of its own";\n' % (name, number))
        self.assertEqual(self.run_it("check")[0], 0)
        self.change(PACKAGE, "BadStore = 17", "BadStore = 18")
        self.refused(PACKAGE, "gives BadStore the number 18, not 17")

    def test_a_new_refusal_names_every_place_that_is_behind(self):
        number = len(self.run_it("list")[1].splitlines()) + 1
        self.change(RULES, r"^(?=\nThe first refusal in a call)",
                    '| <a id="R-refusal-%d"></a>%d | BadMood | the caller is cross (R-term-6) |\n' % (number, number))
        status, said = self.run_it("check")
        self.assertEqual(status, 1)
        for path in WRITTEN + HELD:
            self.assertIn("\n%s: " % path, "\n" + said)
        self.assertEqual(self.run_it("write")[0], 0)
        status, said = self.run_it("check")
        self.assertEqual((status, [path for path in WRITTEN if path in said]), (1, []), said)
        with open(os.path.join(self.here, HEADER), encoding="utf-8") as file:
            header = file.read()
        self.assertIn("    NEEDLEVALE_BAD_MOOD = %d      /* the caller is cross */\n};" % number, header)
        self.assertIn(', "BadMood",\n', header)

    def test_a_table_that_is_none_is_a_fault(self):
        self.change(RULES, r'"R-refusal-4"></a>4', '"R-refusal-4"></a>5')
        self.assertEqual(self.run_it("check")[0], 2)

    def test_a_copy_without_its_place_is_a_fault(self):
        self.change(HEADER, r"enum needlevale_refusal", "enum refusal")
        self.assertEqual(self.run_it("check")[0], 2)


if __name__ == "__main__":
    unittest.main()
