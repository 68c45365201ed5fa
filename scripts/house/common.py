"""What all of it needs: a fault told in one sentence, and files as text."""
import os
import sys


class Fault(Exception):
    """What a script tells its user in one sentence."""


def run(main):
    """Runs a script's main with its arguments; a fault is one sentence and exit status 2."""
    try:
        sys.exit(main(sys.argv[1:]))
    except Fault as fault:
        print("%s: %s" % (os.path.basename(sys.argv[0]), fault), file=sys.stderr)
        sys.exit(2)
    except BrokenPipeError:
        sys.stderr.close()
        sys.exit(1)


def root_folder():
    """The repository's top: the folder with crates.txt, here or above, as rt finds it."""
    here = os.getcwd()
    while not os.path.isfile(os.path.join(here, "crates.txt")):
        if os.path.dirname(here) == here:
            raise Fault("there is no crates.txt in this folder or above it")
        here = os.path.dirname(here)
    return here


def read(path):
    try:
        with open(path, encoding="utf-8") as file:
            return file.read()
    except (OSError, UnicodeDecodeError) as why:
        raise Fault("%s cannot be read: %s" % (path, why))


def files(folder, ending):
    """The files below a folder whose name has the ending, as paths relative to it, in order."""
    found = []
    for here, folders, names in os.walk(folder):
        folders.sort()
        found += [os.path.relpath(os.path.join(here, n), folder) for n in names if n.endswith(ending)]
    return sorted(found)
