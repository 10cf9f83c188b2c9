"""Tests `tools/add-to`."""

import hashlib
import re
import shutil

from scratch import ROOT, Scratch, contents, text_of

SCRIPT = ROOT / "tools" / "add-to"
RLP = ["rlp_format", "rlp_write", "rlp_reading", "rlp"]


def lines_here():
    """The lines of the `crates.txt` of this repository."""
    return {line.split(":")[0].split()[0]: line for line in text_of(ROOT / "crates.txt").splitlines()}


def code_of(folder):
    """The files of a crate that a check reads."""
    return {path: content for path, content in contents(folder).items() if path.split("/")[0] in ("src", "specs", "proofs")}


class AddTo(Scratch):
    """A repository to which crates are added."""

    def crate(self, name):
        """The folder of a crate."""
        return self.folder / "crates" / name

    def lines(self):
        """The lines of the repository's `crates.txt`."""
        return text_of(self.folder / "crates.txt").splitlines()

    def refuses(self, *words):
        """Calls the script in a way that it must refuse, with nothing changed."""
        before = contents(self.folder)
        said = self.fails(SCRIPT, *words)
        self.assertEqual(contents(self.folder), before)
        return said

    def age(self, name, path, text):
        """Makes a file of a copy what another version may have had."""
        self.write(f"crates/{name}/{path}", text)
        added = self.crate(name) / "ADDED"
        rows = [row for row in text_of(added).splitlines() if not row.endswith(f"  {path}")]
        added.write_text("\n".join([*rows, f"{hashlib.sha256(text.encode()).hexdigest()}  {path}", ""]), encoding="utf-8")

    def age_line(self, name, line):
        """Makes the line of a copy what another version may have had."""
        added = self.crate(name) / "ADDED"
        added.write_text(text_of(added).replace(f"# {lines_here()[name]}", f"# {line}", 1), encoding="utf-8")
        self.write("crates.txt", text_of(self.folder / "crates.txt").replace(lines_here()[name], line, 1))

    def test_empty_repository(self):
        self.passes(SCRIPT, ".")
        self.assertEqual(self.lines(), [lines_here()[name] for name in RLP])
        self.assertEqual(sorted(file.name for file in (self.folder / "crates").iterdir()), sorted(RLP))
        for name in RLP:
            self.assertEqual(code_of(self.crate(name)), code_of(ROOT / "crates" / name))
            self.assertTrue((self.crate(name) / "LICENSE").exists())

    def test_twice(self):
        self.passes(SCRIPT, ".")
        before = contents(self.folder)
        self.passes(SCRIPT, ".")
        self.assertEqual(contents(self.folder), before)

    def test_crates_beside_the_list(self):
        self.write("crates.txt", "app: rlp_format\n")
        self.write("app/src/main.rt")
        self.passes(SCRIPT, ".", "rlp_format")
        self.assertEqual(self.lines(), ["rlp_format: hex", "app: rlp_format"])
        self.assertTrue((self.folder / "rlp_format/src/lib.rt").exists())

    def test_another_crate_of_the_name(self):
        self.passes(SCRIPT, ".")
        self.write("crates/rlp/src/lib.rt", "// mine\n")
        self.assertIn("another rlp;", self.refuses(".", "rlp_blocks"))

    def test_unknown_crate(self):
        self.assertIn("usage: tools/add-to", self.refuses(".", "rlpx"))
        self.assertIn("usage: tools/add-to", self.refuses())

    def test_line_that_is_told(self):
        said = self.passes(SCRIPT, ".")
        self.assertIn("crates.txt: my_crate: rlp bytes\n", said)
        self.write("crates.txt", f"{text_of(self.folder / 'crates.txt')}app: hex rlp # mine\n")
        self.write("crates/app/src/main.rt")
        self.assertIn("crates.txt: app: hex rlp rlp_blocks bytes\n", self.passes(SCRIPT, ".", "rlp_blocks"))
        self.assertIn("app: hex rlp # mine", self.lines())

    def test_cost_that_is_told(self):
        rows = [line.split("\t") for line in text_of(ROOT / "tools" / "bench" / "gate.tsv").splitlines() if "\tproof\t" in line]
        seconds, memory = {row[0]: int(row[4]) for row in rows}, {row[0]: int(row[5]) for row in rows}
        said = self.passes(SCRIPT, ".", "rlp_format")
        self.assertIn(f"about {seconds['rlp_format'] / 60:.0f} minutes", said)
        self.assertIn(f"up to {memory['rlp_format'] / 1000:.1f} GB", said)
        self.assertIn("run `rt all check` in .", said)

    def test_page(self):
        self.passes(SCRIPT, ".", "rlp_blocks")
        pages = [file for file in self.folder.rglob("CALLING.md")]
        self.assertIn(self.crate("rlp") / "CALLING.md", pages)
        for page in pages:
            for link in re.findall(r"\]\(([^)#]+)", text_of(page)):
                exists_here = (ROOT / page.parent.relative_to(self.folder) / link).exists()
                self.assertTrue(link.startswith("http") or (page.parent / link).exists() or not exists_here, f"{page}: {link}")

    def test_checksums(self):
        self.passes(SCRIPT, ".")
        for name in RLP:
            self.passes("sh", "-c", f"cd crates/{name} && sha256sum --check --strict --quiet ADDED")
            listed = {row.split("  ")[1] for row in text_of(self.crate(name) / "ADDED").splitlines()[1:]}
            self.assertEqual(listed, set(contents(self.crate(name))) - {"ADDED"})

    def test_update(self):
        self.passes(SCRIPT, ".")
        wanted = contents(self.folder)
        self.age("rlp", "src/lib.rt", "// older\n")
        self.age("rlp", "specs/Gone.antt", "-- gone\n")
        self.age("rlp", "CALLING.md", "older\n")
        self.age_line("rlp", "rlp: rlp_format")
        self.assertNotEqual(contents(self.folder), wanted)
        self.passes(SCRIPT, "--update", ".")
        self.assertEqual(contents(self.folder), wanted)

    def test_update_of_nothing_new(self):
        self.passes(SCRIPT, ".")
        wanted = contents(self.folder)
        self.passes(SCRIPT, "--update", ".")
        self.assertEqual(contents(self.folder), wanted)

    def test_update_adds_what_is_missing(self):
        self.passes(SCRIPT, ".")
        wanted = contents(self.folder)
        shutil.rmtree(self.crate("rlp_reading"))
        self.write("crates.txt", text_of(self.folder / "crates.txt").replace(f"{lines_here()['rlp_reading']}\n", ""))
        self.passes(SCRIPT, "--update", ".")
        self.assertEqual(self.lines().index(lines_here()["rlp_reading"]), 3)
        self.assertEqual({path: content for path, content in contents(self.folder).items() if path != "crates.txt"}, {path: content for path, content in wanted.items() if path != "crates.txt"})

    def test_update_keeps_the_crates_of_others(self):
        self.passes(SCRIPT, ".")
        self.write("crates.txt", f"# mine\n{text_of(self.folder / 'crates.txt')}app: rlp\n")
        self.write("crates/app/src/main.rt", "// mine\n")
        before = contents(self.folder)
        self.age("rlp", "src/lib.rt", "// older\n")
        self.passes(SCRIPT, "--update", ".")
        self.assertEqual(contents(self.folder), before)

    def test_update_of_changed_files(self):
        self.passes(SCRIPT, ".")
        self.age("rlp_reading", "src/lib.rt", "// older\n")
        for path in ("src/rlp.rt", "src/new.rt", "CALLING.md", "new-type", "LICENSE"):
            before = contents(self.folder)
            self.write(f"crates/rlp/{path}", "mine\n")
            self.assertIn(f"crates/rlp/{path} isn't as it was added", self.refuses("--update", "."))
            (self.crate("rlp") / path).unlink()
            if f"crates/rlp/{path}" in before:
                (self.crate("rlp") / path).write_bytes(before[f"crates/rlp/{path}"])
        self.passes(SCRIPT, "--update", ".")

    def test_update_of_a_file_that_went(self):
        self.passes(SCRIPT, ".")
        (self.crate("rlp") / "src/lib.rt").unlink()
        self.assertIn("crates/rlp/src/lib.rt isn't as it was added", self.refuses("--update", "."))

    def test_update_of_a_changed_line(self):
        self.passes(SCRIPT, ".")
        self.write("crates.txt", text_of(self.folder / "crates.txt").replace("rlp_reading: rlp_format", "rlp_reading: rlp_format bytes"))
        self.assertIn("the line `rlp_reading: rlp_format bytes hex` isn't as it was added", self.refuses("--update", "."))

    def test_update_of_a_copy_without_checksums(self):
        self.passes(SCRIPT, ".")
        wanted = contents(self.folder)
        for name in RLP:
            (self.crate(name) / "ADDED").unlink()
        self.assertIn("no crate has a file ADDED", self.refuses("--update", "."))
        self.passes(SCRIPT, "--update", ".", "rlp")
        self.assertEqual(contents(self.folder), wanted)
        (self.crate("rlp") / "ADDED").unlink()
        self.write("crates/rlp/src/lib.rt", "// older, or mine\n")
        self.assertIn("crates/rlp/src/lib.rt isn't as it was added", self.refuses("--update", ".", "rlp"))

    def test_update_of_a_crate_that_is_no_more(self):
        self.passes(SCRIPT, ".")
        self.write("crates.txt", f"rlp_old:\n{text_of(self.folder / 'crates.txt')}")
        self.write("crates/rlp_old/src/lib.rt", "// older\n")
        self.write("crates/rlp_old/ADDED", "# rlp_old:\n")
        self.assertIn("remove crates/rlp_old and its line", self.passes(SCRIPT, "--update", "."))
        self.assertTrue((self.crate("rlp_old") / "src/lib.rt").exists())
