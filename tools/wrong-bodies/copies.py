"""Copies of the tree, in which bodies are checked."""

import os
import re
import shutil
import subprocess
from pathlib import Path

from tree import below, crates, lines_of

LEFT_OUT = ("out", "must-fail", "wrong-bodies")
KIT = Path(shutil.which("rt") or "rt").resolve().parent.parent


def words_over(root, crate):
    """The words by which `rattle` reads a crate over the libraries that `rt ci` has built in a tree."""
    uses, externs = crates(), lines_of(root / "crates.txt")[crate].partition("#")[0].partition(":")[2].split()
    top = "src/main.rt" if (root / "crates" / crate / "src" / "main.rt").exists() else "src/lib.rt"
    library = lambda name: root / "crates" / name / "out" / "rlib" if name in uses else KIT / "rlibs"
    words = ["--crate-name", crate, top, "--antt-project", KIT / "rattle" / "logic" / "antt-project.json", "--logic-built", KIT / "logic_built"]
    words += [word for name in ["std", *externs] for word in ("--extern", f"{name}={library(name) / name}.rlib")]
    return [*words, *[word for name in [*below(crate, uses), "std"] for word in ("-L", f"dependency={library(name)}")]]


def copied(one, other):
    """Copies a file, or gives what was proved a second name: a check replaces such a file, and changes none."""
    if one.endswith(".oantt"):
        try:
            return os.link(one, other)
        except OSError:
            pass  # Where the copy is on another disk.
    return shutil.copy2(one, other)


class Copy:
    """A copy of the tree. It takes over the work that was kept of a crate when it is first checked.

    Given `built`, a tree in which `rt ci` has proved and built the libraries, it asks `rattle` itself over those: `rt` would build them anew.
    """

    def __init__(self, root, origin, built=None):
        self.root, self.origin, self.crates, self.built = Path(root), Path(origin), crates(), built
        self.held = set()
        self.root.mkdir(parents=True)
        for name in ("crates.txt", "HANDLES"):
            if (self.origin / name).exists():
                shutil.copy2(self.origin / name, self.root / name)
        for part in sorted((self.origin / "crates").glob("*/*")):
            if part.name not in LEFT_OUT:
                self.take(part.relative_to(self.origin))

    def take(self, path):
        """Copies a file or a folder of the tree."""
        begin, place = self.origin / path, self.root / path
        place.parent.mkdir(parents=True, exist_ok=True)
        if begin.is_dir():
            shutil.copytree(begin, place, symlinks=True, copy_function=copied)
        else:
            shutil.copy2(begin, place)

    def fetch(self, crate, part):
        """Takes over a part of the work that was kept of a crate: what was proved (`incremental`), or its built library (`rlib`)."""
        path = Path("crates") / crate / "out" / part
        if (crate, part) not in self.held and (self.origin / path).exists():
            shutil.rmtree(self.root / path, ignore_errors=True)
            self.take(path)
        self.held.add((crate, part))

    def prepare(self, crate):
        """Takes over the libraries that a crate rests on, and the work that was kept of it.

        It takes that work anew before each check, since a check of bodies loses a part of it. Over built libraries the crate as it stands
        wasn't checked, so there the copy goes on with what its own checks have kept.
        """
        if not self.built:
            for lower in below(crate, self.crates):
                self.fetch(lower, "rlib")
            self.held.discard((crate, "incremental"))
        self.fetch(crate, "incremental")

    def keep(self, other, crate):
        """Keeps the work of another copy on a crate, for the copies that begin with this crate later."""
        path = Path("crates") / crate / "out" / "incremental"
        if not (self.root / path).exists() and (other.root / path).exists():
            shutil.copytree(other.root / path, self.root / f"{path}.new", symlinks=True, copy_function=copied)
            (self.root / f"{path}.new").rename(self.root / path)

    def names_built(self, crate):
        """The names of the functions in the built library of a crate, as a check prints them, if there is one."""
        file = self.built and self.built / "crates" / crate / "out" / "rlib" / f"{crate}.rlib" / "toolchain" / "mir.json"
        return set(re.findall(rf"\b{crate}::[\w:+]+", file.read_text(encoding="utf-8"))) if file and file.exists() else set()

    def check(self, crate, texts=None, jobs=1, only=()):
        """Checks a crate, or some functions and what they call, with other texts in some of its files, which are as before afterwards."""
        folder, kept = self.root / "crates" / crate, {}
        try:
            for file, text in (texts or {}).items():
                kept[file] = (folder / file).read_bytes()
                (folder / file).write_text(text, encoding="utf-8")
            words = ["--jobs", str(jobs), *(word for name in only for word in ("--only", name.partition("::")[2]))]
            if self.built:
                return self.run(crate, KIT / "bin" / "rattle", "check", *words_over(self.built, crate), "--incremental", "out/incremental", *words)
            return self.run(crate, "rt", "check", *words)
        finally:
            for file, data in kept.items():
                (folder / file).write_bytes(data)

    def build(self, crate):
        """Builds the library of a crate that was checked, if others rest on it."""
        if not self.built and any(crate in uses for uses in self.crates.values()):
            self.run(crate, "rt", "lib")

    def run(self, crate, *words):
        """Runs a command in the folder of a crate, and returns what it printed."""
        folder = self.root / "crates" / crate
        ran = subprocess.run(words, cwd=folder, stdin=subprocess.DEVNULL, capture_output=True, text=True, errors="replace")
        return ran.stdout + ran.stderr

    def text(self, crate, file):
        return (self.root / "crates" / crate / file).read_text(encoding="utf-8")

