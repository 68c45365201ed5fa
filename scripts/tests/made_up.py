"""A made-up repository in a temporary folder, for the tests of the scripts. Not a command."""
import os
import subprocess
import tempfile

SCRIPTS = os.path.dirname(os.path.dirname(os.path.abspath(__file__)))


class Tree:
    """A folder with the given files, by their paths; gone at the end of the `with` block."""

    def __init__(self, files):
        self.files = files

    def __enter__(self):
        self.folder = tempfile.TemporaryDirectory()
        for path, text in self.files.items():
            self.write(path, text)
        return self

    def __exit__(self, *_):
        self.folder.cleanup()

    @property
    def root(self):
        return self.folder.name

    def path(self, path):
        return os.path.join(self.folder.name, path)

    def write(self, path, text):
        os.makedirs(os.path.dirname(self.path(path)), exist_ok=True)
        with open(self.path(path), "w", encoding="utf-8") as file:
            file.write(text)

    def read(self, path):
        with open(self.path(path), encoding="utf-8") as file:
            return file.read()

    def edit(self, path, old, new):
        """Replaces a text that must stand in the file once."""
        text = self.read(path)
        assert text.count(old) == 1, (path, old, text.count(old))
        self.write(path, text.replace(old, new))

    def run(self, script, *words):
        """A script of the repository's, run in the folder: its exit status and all that it said."""
        done = subprocess.run([os.path.join(SCRIPTS, script)] + list(words), cwd=self.folder.name, text=True,
                              encoding="utf-8", stdout=subprocess.PIPE, stderr=subprocess.STDOUT, check=False)
        return done.returncode, done.stdout
