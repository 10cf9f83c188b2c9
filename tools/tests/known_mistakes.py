"""Tests `tools/known-mistakes`: what it reads of a file, the program that it makes, and what it says of answers."""

import importlib.machinery
import importlib.util
import pathlib
import sys
import unittest

FOLDER = pathlib.Path(__file__).resolve().parents[1]
sys.path.append(str(FOLDER))


def script():
    """The script as a module."""
    loader = importlib.machinery.SourceFileLoader("known_mistakes_script", str(FOLDER / "known-mistakes"))
    module = importlib.util.module_from_spec(importlib.util.spec_from_loader(loader.name, loader))
    loader.exec_module(module)
    return module


SCRIPT = script()


class KnownMistakes(unittest.TestCase):
    """The files of `must-fail/` as they stand, and answers that are made up."""

    def mistake(self, name):
        return next(SCRIPT.Mistake(page) for page in SCRIPT.ROOT.glob(f"crates/*/must-fail/*__{name}.edit"))

    def faults(self, mistake, said, right):
        return list(SCRIPT.faults_of(mistake, (said, ""), right))

    def test_each_file_has_rows_or_a_reason(self):
        pages = sorted(SCRIPT.ROOT.glob("crates/*/must-fail/*.edit"))
        self.assertTrue(pages)
        for page in pages:
            mistake = SCRIPT.Mistake(page)
            self.assertTrue(mistake.wrong and mistake.changes, page)
            self.assertTrue(mistake.reason or all(gives != right for _, gives, right in mistake.rows), page)
            self.assertTrue(mistake.texts(SCRIPT.ROOT), page)

    def test_program(self):
        text = SCRIPT.program(["let list = Rlp::new(&[0xc0]); list.size()"])
        self.assertIn("use rlp::Rlp;\n", text)
        self.assertNotIn("use rlp::RlpStream;\n", text)
        self.assertIn('    let list = Rlp::new(&[0xc0]);\n    println!(rt; "{:?}", list.size())\n', text)

    def test_answers(self):
        mistake = self.mistake("number_takes_leading_zero")
        (_, gives, right), *_ = mistake.rows
        self.assertEqual(self.faults(mistake, [gives], [right]), [])
        self.assertIn("makes no mistake", self.faults(mistake, [right], [right])[0])
        self.assertIn("and not", self.faults(mistake, ["no answer"], [right])[0])
        self.assertIn("by the sources", self.faults(mistake, [gives], [gives])[0])


if __name__ == "__main__":
    unittest.main()
