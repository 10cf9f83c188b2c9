"""What the tests share: a folder of their own, and runs of scripts."""

import os
import pathlib
import shutil
import subprocess
import tempfile
import unittest

ROOT = pathlib.Path(__file__).resolve().parent.parent.parent


def text_of(file):
    """The text of a file."""
    return file.read_text(encoding="utf-8")


def contents(folder):
    """All files below a folder, and what they hold."""
    return {str(file.relative_to(folder)): file.read_bytes() for file in folder.rglob("*") if file.is_file()}


class Scratch(unittest.TestCase):
    """A test with a folder of its own, which is gone at the end."""

    def setUp(self):
        self.folder = pathlib.Path(tempfile.mkdtemp(prefix="tools-"))
        self.addCleanup(shutil.rmtree, self.folder)
        self.variables = {}

    def write(self, path, text="", mode=0o644):
        """Makes a file in the folder."""
        file = self.folder / path
        file.parent.mkdir(parents=True, exist_ok=True)
        file.write_text(text, encoding="utf-8")
        file.chmod(mode)
        return file

    def copy_tools(self):
        """Copies the scripts of `tools/` that run and build the programs, and what was measured of the crates."""
        shutil.copytree(ROOT / "tools", self.folder / "tools", ignore=lambda folder, names: [name for name in names if pathlib.Path(folder, name).is_dir()])
        self.write("tools/bench/gate.tsv", text_of(ROOT / "tools" / "bench" / "gate.tsv"))

    def run_script(self, *words, **how):
        """Runs a script in the folder, and returns how that went."""
        how = {"stdin": subprocess.DEVNULL, **how} if "input" not in how else how
        how = {"stdout": subprocess.PIPE, "stderr": subprocess.PIPE, "timeout": 60, **how}
        return subprocess.run([str(word) for word in words], cwd=self.folder, env={**os.environ, **self.variables}, check=False, **how)

    def passes(self, *words, **how):
        """Runs a script that must end well, and returns its output."""
        ran = self.run_script(*words, **how)
        self.assertEqual(ran.returncode, 0, ran.stderr.decode())
        return ran.stdout.decode()

    def fails(self, *words, **how):
        """Runs a script that must end with status 1, and returns what it says."""
        ran = self.run_script(*words, **how)
        self.assertEqual((ran.returncode, ran.stdout), (1, b""), ran.stderr.decode())
        self.assertNotIn(b"Traceback", ran.stderr)
        return ran.stderr.decode()
