#!/usr/bin/env python3
"""Tests of scripts/dist and scripts/after-dist on a made-up tree, with a made-up kit: an `rt` that makes a program and a
library of the code's sum and of the kit's file `bytes`, each in the folder of its crate, as the real one does, and a
loader. Usage: scripts/tests/dist.py"""
import os
import platform
import shutil
import struct
import subprocess
import sys
import time
import unittest

sys.dont_write_bytecode = True
from made_up import SCRIPTS, Tree

HERE = platform.machine()
ELSEWHERE = "x86_64" if HERE == "aarch64" else "aarch64"
RT = """#!/bin/sh
kit=$(dirname "$0")/.. name=$(basename "$PWD")
sum() { cat "$kit/bytes" ../*/src/* | cksum; }
[ $1 != version ] || exec cat "$kit/id"
[ ! -e "$kit/unproved" ] || exit 1
mkdir -p out
case $1-$name in
run-needlevale) rm -f out/$name.stamp
  { echo "# $(sum)" && cat "$kit/program"; } >out/$name && chmod +x out/$name && echo made >out/$name.stamp
  echo "refused 1"; exit 3 ;;
lib-needlevale_c) sum >out/lib$name.a ;;
*) exit 2 ;;
esac
echo "crate $name: modules loaded=0 checked=1"
"""
LOADER = '#!/bin/sh\nshift 2\nexec sh "$@"\n'
RTLIB = """import os
KIT = os.path.dirname(os.path.dirname(os.path.abspath(__file__)))
RATTLE = KIT + "/bin/rattle"
class Crate:
    def __init__(self, folder, root, known, above=(), name=None):
        self.name = os.path.basename(folder)
    def words(self, flags, keeps=True):
        return ["--crate-name", self.name]
"""
RATTLE = """#!/bin/sh
[ "$1 $2 $3" = "build --crate-name needlevale_c" ] && [ "${*% -o out/libneedlevale_c.a}" != "$*" ] || exit 2
cat "$(dirname "$0")/../bytes" ../*/src/* | cksum >out/libneedlevale_c.a
"""
NONE = "#!/bin/sh\necho 'E: none here' >&2\nexit 1\n"
ANSWER = "cat >/dev/null\necho answered\n"
PROGRAM, LIBRARY, IDENTITY, SUMS = ("dist/" + name for name in (
    "needlevale-core", "libneedlevale_c.a", "IDENTITY", "SHA256SUMS"))
FILES = {
    "crates.txt": "# Crates.\nlow:\nother:\nneedlevale_c staticlib: low\nneedlevale: low io\n",
    "crates/low/src/lib.rt": "// Low.\n",
    "crates/low/specs/Lib.antt": "-- Low.\n",
    "crates/other/src/lib.rt": "// Other.\n",
    "crates/needlevale_c/src/lib.rt": "// The library.\n",
    "crates/needlevale/src/main.rt": "// The program.\n",
    "kit.txt": "kit-1\n",
    "kit/id": "kit-1\n",
    "kit/bytes": "some\n",
    "kit/program": ANSWER,
}


class Dist(unittest.TestCase):
    def setUp(self):
        self.tree = Tree(FILES).__enter__()
        self.addCleanup(self.tree.__exit__)
        for name in ("dist", "after-dist", "recorded", "x86-64.sh", "command-line.sh", "library-after-ci"):
            os.makedirs(self.tree.path("scripts"), exist_ok=True)
            shutil.copy(os.path.join(SCRIPTS, name), self.tree.path("scripts/" + name))
        shutil.copytree(os.path.join(SCRIPTS, "house"), self.tree.path("scripts/house"))
        loader = "kit/toolchain/lib/ld-linux-x86-64.so.2"
        for path, text in (("kit/bin/rt", RT), (loader, LOADER), ("kit/bin/apt-get", NONE), ("kit/bin/gcc", NONE),
                           ("kit/bin/x86_64-linux-gnu-gcc", NONE)):
            self.tree.write(path, text)
            os.chmod(self.tree.path(path), 0o755)
        os.makedirs(self.tree.path("examples/recorded"))
        with open(self.tree.path("examples/recorded/replay-0.bin"), "wb") as file:
            for part in (b"asked", b"answered\n"):
                file.write(struct.pack("<I", len(part)) + part)
        self.said("dist", "write", status=0)

    def run_script(self, *words):
        env = {key: value for key, value in os.environ.items() if key != "RATTLE_HOME"}
        env["PATH"] = self.tree.path("kit/bin") + ":/usr/bin:/bin"
        done = subprocess.run([self.tree.path("scripts/" + words[0])] + list(words[1:]), env=env, text=True, check=False,
                              stdout=subprocess.PIPE, stderr=subprocess.STDOUT, stdin=subprocess.DEVNULL)
        return done.returncode, done.stdout

    def said(self, *words, status):
        """What a script says, which must end with the status."""
        ended, text = self.run_script(*words)
        self.assertEqual(ended, status, text)
        return text

    def passes(self, said="byte for byte: the program"):
        self.said("dist", "check", status=0)
        self.assertIn(said, self.said("after-dist", status=0))

    def fails(self, sentence, checked=1):
        """Neither the early check, where it can tell, nor the comparison takes dist/ as it is; both say what to do."""
        for script, status in ((("dist", "check"), checked), (("after-dist",), 1)):
            said = self.said(*script, status=status)
            if status:
                self.assertRegex(said, "(?m)^[a-z-]+: .*%s.*; run 'scripts/dist write'$" % sentence)

    def forge(self, path, text):
        """Another text in dist/, with sums that fit it."""
        self.tree.write(path, text)
        sums = subprocess.run(["sha256sum", "IDENTITY", "libneedlevale_c.a", "needlevale-core"], text=True, check=True,
                              cwd=self.tree.path("dist"), stdout=subprocess.PIPE).stdout
        self.tree.write(SUMS, sums)

    def test_as_written(self):
        self.passes()
        self.assertEqual(self.tree.read(IDENTITY).splitlines()[0::2], ["kit: kit-1", "built on: " + HERE])

    def test_what_decides_the_bytes(self):
        self.tree.write("crates/low/specs/Lib.antt", "-- Another.\n")
        self.tree.write("crates.txt", FILES["crates.txt"].replace("other:", "other: low"))
        self.said("dist", "check", status=0)
        for path, text in (("crates/low/src/lib.rt", "// Another.\n"), ("crates/low/src/more.rt", ""), ("kit.txt", "2\n"),
                           ("crates.txt", FILES["crates.txt"].replace("needlevale: low", "needlevale:")),
                           ("crates.txt", FILES["crates.txt"].replace(" staticlib", ""))):
            before = self.tree.read(path) if os.path.exists(self.tree.path(path)) else None
            self.tree.write(path, text)
            self.assertIn("other sources than these, or by another kit; run 'scripts/dist write'",
                          self.said("dist", "check", status=1))
            if before is None:
                os.remove(self.tree.path(path))
            else:
                self.tree.write(path, before)
            self.said("dist", "check", status=0)

    def test_behind(self):
        self.tree.write("crates/low/src/lib.rt", "// Another.\n")
        self.fails("dist/ was made of other sources than these")
        self.said("dist", "write", status=0)
        self.passes()

    def test_not_whole(self):
        for path in (PROGRAM, LIBRARY, IDENTITY, SUMS):
            text = self.tree.read(path)
            os.remove(self.tree.path(path))
            self.fails(path + " is not there")
            self.tree.write(path, text + "x")
            self.said("dist", "check", status=1)
            self.said("after-dist", status=1)
            self.tree.write(path, text)
        self.fails("dist/needlevale-core is no program")

    def test_other_bytes(self):
        """Sums that fit are not enough, whichever of the two is another, nor is an identity that says no machine."""
        for path in (PROGRAM, LIBRARY):
            text = self.tree.read(path)
            self.forge(path, text + "x")
            self.fails("dist/ is not what these sources give with this kit on this machine", checked=0)
            self.forge(path, text)
        self.passes()
        for machine in ("", "built on: nowhere\n", "built on: %s\nbuilt on: x86_64\n" % HERE):
            self.forge(IDENTITY, "".join(self.tree.read(IDENTITY).splitlines(True)[:2]) + machine)
            self.fails("dist/ was made of other sources than these")

    def test_other_sources_under_their_identity(self):
        """An older program under today's identity."""
        self.tree.write("crates/low/src/lib.rt", "// Another.\n")
        now = self.said("dist", "identity", status=0)
        self.forge(IDENTITY, now + "built on: %s\n" % HERE)
        self.fails("dist/ is not what these sources give with this kit on this machine", checked=0)

    def elsewhere(self):
        self.forge(IDENTITY, self.tree.read(IDENTITY).replace(HERE, ELSEWHERE))

    def test_another_machine(self):
        self.elsewhere()
        self.passes()
        self.tree.write("kit/bytes", "others\n")
        os.remove(self.tree.path("crates/needlevale_c/out/libneedlevale_c.a"))
        self.passes("not compared: dist/ with what was built here, byte for byte: it was made on " + ELSEWHERE)
        self.passes("dist/needlevale-core: 1 recorded answers")

    def test_another_machine_and_answer(self):
        self.elsewhere()
        self.tree.write("kit/bytes", "others\n")
        self.forge(PROGRAM, self.tree.read(PROGRAM).replace("answered", "wrong"))
        self.said("dist", "check", status=0)
        self.assertIn("case 0: 'dist/needlevale-core' gives another answer", self.said("after-dist", status=1))

    def test_another_kit(self):
        for path, text in (("kit/id", "kit-2\n"), ("kit/bytes", "others\n")):
            self.tree.write(path, text)
        os.remove(self.tree.path("crates/needlevale_c/out/libneedlevale_c.a"))
        self.passes("with 'kit-2' gives other bytes for the same sources")
        self.assertIn("the kit here is 'kit-2', not that of kit.txt", self.said("dist", "write", status=2))
        self.tree.write("kit.txt", "kit-2\n")
        self.fails("dist/ was made of other sources than these, or by another kit")
        self.said("dist", "write", status=0)
        self.passes()

    def test_not_proved(self):
        """What is not proved is not built, and an older program is not taken for it."""
        self.tree.write("crates/low/src/lib.rt", "// Another.\n")
        self.tree.write("kit/unproved", "")
        self.assertIn("the library could not be proved and built", self.said("dist", "write", status=2))
        os.remove(self.tree.path("kit/unproved"))
        self.tree.write("kit/bin/rt", RT.replace("[ $1 != version ]", "[ $1 != run ] || exit 1\n[ $1 != version ]"))
        self.assertIn("the program could not be proved and built", self.said("dist", "write", status=2))
        self.assertIn("run 'scripts/dist write'", self.said("dist", "check", status=1))

    def test_after_ci(self):
        """Over what rt ci has just left rt need prove nothing; over anything else the library is rt lib's."""
        built = "crates/needlevale_c/out/libneedlevale_c.a"
        self.tree.write("kit/bin/rtlib.py", RTLIB)
        self.tree.write("kit/bin/rattle", RATTLE)
        os.chmod(self.tree.path("kit/bin/rattle"), 0o755)
        self.tree.write("kit/bin/rt", RT.replace("lib-needlevale_c)", "lib-needlevale_c) echo asked >../../asked;"))
        rlib, asked = "crates/low/out/rlib/low.rlib/format", self.tree.path("asked")
        for what, is_asked in (("nothing left", True), ("left by rt ci", False), ("an earlier check's", True),
                               ("older than the sources", True), ("with another kit", True)):
            with self.subTest(what=what):
                shutil.rmtree(self.tree.path("crates/low/out"), ignore_errors=True)
                os.remove(self.tree.path(built))
                if what != "nothing left":
                    time.sleep(0.02)
                    self.tree.write(rlib, "")
                if what == "an earlier check's":
                    self.tree.write("crates/low/out/rlib/stamp", "")
                if what == "older than the sources":
                    time.sleep(0.02)
                    self.tree.write("crates/low/src/lib.rt", FILES["crates/low/src/lib.rt"])
                if what == "with another kit":
                    self.tree.write("kit/bin/rtlib.py", RTLIB.replace("def words", "def no_words"))
                self.passes()
                self.assertEqual(os.path.exists(asked), is_asked)
                if is_asked:
                    os.remove(asked)

    def test_words(self):
        self.said("dist", status=2)
        self.said("dist", "check", "write", status=2)


unittest.main()
