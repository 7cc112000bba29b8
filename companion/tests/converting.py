"""What the tests of conversions share: calls of commands, copies of the models in xmml/, and the program."""
import contextlib
import io
import os
import shutil
import subprocess
import tempfile
import unittest

from companion.commands import main

TOP = os.path.dirname(os.path.dirname(os.path.dirname(os.path.abspath(__file__))))
MODELS = os.path.join(os.path.dirname(os.path.abspath(__file__)), "xmml")


def program():
    """The flame that runs here, or none. Where ./flame would have to build first, it is passed over."""
    for name in (os.environ.get("FLAME"), os.path.join(TOP, "flame"), os.path.join(TOP, "dist", "flame")):
        if not name:
            continue
        with contextlib.suppress(OSError):
            done = subprocess.run(
                [os.path.abspath(name), "trial", "0", "0", "0"],
                env={"PATH": "/usr/bin:/bin"},
                stdout=subprocess.DEVNULL,
                stderr=subprocess.DEVNULL,
            )
            if done.returncode == 0:
                return os.path.abspath(name)
    return None


class Case(unittest.TestCase):
    """A case in a folder of its own, in which the models lie."""

    maxDiff = None

    def setUp(self):
        folder = tempfile.mkdtemp(prefix="flamekit-")
        self.addCleanup(shutil.rmtree, folder)
        self.addCleanup(os.chdir, os.getcwd())
        shutil.copytree(MODELS, folder, dirs_exist_ok=True)
        os.chdir(folder)

    def call(self, *words):
        """The status of a command, and what it prints on standard output and on standard error."""
        out, err = io.StringIO(), io.StringIO()
        with contextlib.redirect_stdout(out), contextlib.redirect_stderr(err):
            status = main(list(words))
        return status, out.getvalue(), err.getvalue()

    def put(self, name, text):
        with open(name, "w", encoding="utf-8") as file:
            file.write(text)

    def text(self, name):
        with open(name, encoding="utf-8") as file:
            return file.read()

    def flame(self, *words):
        """The same of a call of the program; skips the test where none runs."""
        if Case.found is None:
            Case.found = [program()]
        if Case.found[0] is None:
            self.skipTest("no flame runs here: neither FLAME of the environment, nor ./flame, nor dist/flame")
        done = subprocess.run([Case.found[0], *words], capture_output=True, text=True)
        return done.returncode, done.stdout, done.stderr

    # The program, once it was looked for.
    found = None
