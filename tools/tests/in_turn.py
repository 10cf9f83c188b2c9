"""Tests the order of crates in which `tools/wrong-bodies/run --minutes` tries their bodies."""

import pathlib
import sys
import unittest

FOLDER = pathlib.Path(__file__).resolve().parents[1]
sys.path += [str(FOLDER), str(FOLDER / "wrong-bodies")]

from order import PARTS, PAUSE, TURN, changed_by, in_turn

NAMES = [f"crate_{number:02}" for number in range(18)]


class InTurn(unittest.TestCase):
    """The order, from a log and a time."""

    def test_changed(self):
        log = f"@{5 * PAUSE}\n\ncrates/one/src/lib.rt\ncrates.txt\n@{4 * PAUSE}\n\ncrates/two/specs/Lib.antt\n@{3 * PAUSE - 1}\n\ncrates/three/src/lib.rt\n"
        self.assertEqual(changed_by(log), {"one", "two"})

    def test_no_history(self):
        self.assertEqual(changed_by(""), set())

    def test_changed_first(self):
        for turn in range(PARTS):
            order = in_turn(NAMES, {"crate_03", "crate_17", "gone"}, turn * TURN)
            self.assertEqual(set(order[:2]), {"crate_03", "crate_17"})
            self.assertEqual(sorted(order), NAMES)

    def test_all_come_round(self):
        most = -(-len(NAMES) // PARTS)
        for begin in (0, 24 * 3600 // TURN):
            step = 1 if begin == 0 else begin
            tried = {name for turn in range(PARTS) for name in in_turn(NAMES, set(), turn * step * TURN)[:most]}
            self.assertEqual(sorted(tried), NAMES)


if __name__ == "__main__":
    unittest.main()
