"""Tests which words of definitions the pages find in the imports of a source file."""

import sys
import unittest

from scratch import ROOT

sys.path += [str(ROOT / "tools" / folder) for folder in ("", "wrong-bodies", "pages")]

from clauses import imports_of


class Imports(unittest.TestCase):
    def words(self, line):
        return [f"{module}.{name}" + f" as {alias}" * (alias != name) for alias, name, _, module in imports_of(line, ["rlp"])]

    def test_words_of_one_module_are_found(self):
        self.assertEqual(self.words("ghost use Rattle.rlp.specs.Views.View.{View, item_at};"), ["Views.View.View", "Views.View.item_at"])

    def test_words_of_joined_imports_are_found(self):
        line = "ghost use Rattle.rlp.specs.{Form.{fault_of, items_of}, Left.ItemsLeft, Views.{Depth.depth, View.{View}}};"
        self.assertEqual(self.words(line), ["Form.fault_of", "Form.items_of", "Left.ItemsLeft", "Views.Depth.depth", "Views.View.View"])

    def test_a_word_under_another_name_is_found_by_it(self):
        self.assertEqual(self.words("ghost use Rattle.rlp.specs.{Form.{fault_of as fault}};"), ["Form.fault_of as fault"])

    def test_other_crates_modules_and_declared_types_are_left_out(self):
        self.assertEqual(self.words("ghost use Rattle.std.specs.Prelude.{length};"), [])
        self.assertEqual(self.words("ghost use Rattle.rlp.specs.Left;"), [])
        self.assertEqual(self.words("ghost use Rattle.rlp.specs.{declared.error.Error.{Error}, Left.{left}};"), ["Left.left"])
