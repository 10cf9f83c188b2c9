"""Tests that `tools/bench/library.py` refuses operations whose results differ."""

from scratch import ROOT, Scratch


class Sums(Scratch):
    """Two programs that print a sum."""

    def test_sums_that_differ(self):
        for name, total in (("one", 1), ("other", 2)):
            self.write(name, f"#!/bin/sh\necho {total}\n", 0o755)
        script = ("python3", "-B", ROOT / "tools" / "bench" / "library.py", "./one", "--against", "./other", "--write", "times.tsv", "kinds")
        ran = self.run_script(*script)
        self.assertEqual(ran.returncode, 1)
        self.assertIn("refused: the sums of the results are 1 and 2", ran.stdout.decode())
        self.assertIn("nothing was written", ran.stderr.decode())
        self.assertFalse((self.folder / "times.tsv").exists())
