"""docs/seconds.txt: the seconds of the gate, which scripts/seconds writes and ./check shows."""
import os

from .common import Fault

KEPT = os.path.join("docs", "seconds.txt")
HEAD = ("# Seconds in the gate, by 'scripts/seconds LOG': all of it, each crate's proofs, must-fail edit and run.\n"
        "# Several crates run at a time, so a single number is rough, and sums say more.\n"
        "# Today's rt tells no seconds: a crate's come from './check --above'; those of edits and runs, and of crates that\n"
        "# were not timed since, are of the kit rattle-kit-5b.\n")
KINDS = (("all", "all of it"), ("crate", "proofs"), ("edit", "must-fail edits"), ("run", "runs"))


def parse(text, name):
    """The seconds of a kept file: (kind, name) to seconds."""
    found = {}
    for number, line in enumerate(text.splitlines(), 1):
        if line.strip() and not line.startswith("#"):
            words = line.rsplit(" ", 1)
            kind, _, what = words[0].partition(" ")
            if len(words) != 2 or kind not in dict(KINDS) or not words[1].isdigit():
                raise Fault("%s, line %d: 'KIND NAME SECONDS' is expected, not '%s'" % (name, number, line))
            found[kind, what] = int(words[1])
    return found
