"""Tests the roots of the rows of `crates/rlp_tool_vectors` by the second implementation in `tools/fuzz/tries.py`."""

import re
import sys
import unittest

from scratch import ROOT, text_of

sys.path.append(str(ROOT / "tools" / "fuzz"))

import tries
from strict import strict_items, strict_string

ROWS = ROOT / "crates" / "rlp_tool_vectors" / "data" / "roots.txt"
REPEATED = re.compile(r"<([0-9a-f]+)\*(\d+)>")


def rows_of(call):
    """The bytes and the roots of the rows of a call that use no names."""
    text = text_of(ROWS).replace("\\\n    ", "")
    for line in text.splitlines():
        line = REPEATED.sub(lambda found: found[1] * int(found[2]), line)
        if line.startswith(call + " | ") and "<" not in line:
            _, digits, root = line.split(" | ")
            yield bytes.fromhex(digits), bytes.fromhex(root)


class Roots(unittest.TestCase):
    """The roots of ordered lists."""

    def test_roots_of_values(self):
        count = 0
        for encoded, root in rows_of("root: of values"):
            self.assertEqual(tries.root([strict_string(item) for item in strict_items(encoded)]), root)
            count += 1
        self.assertGreater(count, 10)

    def test_roots_of_made_lists(self):
        count = 0
        for length, root in rows_of("root: made"):
            self.assertEqual(tries.root(tries.made(int.from_bytes(length, "big"))), root)
            count += 1
        self.assertGreater(count, 7)
