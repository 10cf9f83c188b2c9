"""Tests `tools/build`."""

import os
import pty
import re
import time

from stand_in import StandIn


class Building(StandIn):
    """A copy of the scripts, where nothing is built."""

    def checked(self):
        """The crates that were checked, in order."""
        return [call.split()[0] for call in self.calls() if call.split()[1] == "check"]

    def on_terminal(self, *words):
        """Runs the script with standard error at a terminal, and returns what that shows, and when."""
        ours, theirs = pty.openpty()
        child = os.fork()
        if child == 0:
            os.dup2(theirs, 2)
            os.chdir(self.folder)
            os.execve("tools/build", ["tools/build", *words], {**os.environ, **self.variables, "COLUMNS": "200"})
        os.close(theirs)
        shown, began = [], time.monotonic()
        try:
            while piece := os.read(ours, 4096):
                shown.append((time.monotonic() - began, piece.decode()))
        except OSError:
            pass
        os.close(ours)
        return os.waitstatus_to_exitcode(os.waitpid(child, 0)[1]), shown

    def test_order(self):
        self.passes("tools/build", "rlp_tool")
        self.assertEqual(self.checked()[0], "low")
        self.assertEqual(self.checked()[3:], ["rlp_tool_main"])
        self.assertEqual(sorted(self.checked()), ["left", "low", "right", "rlp_tool_main"])
        for crate in ("low", "left", "right"):
            self.assertLess(self.calls().index(f"{crate} lib"), self.calls().index("rlp_tool_main run"))
        self.assertLess(self.calls().index("low lib"), next(place for place, call in enumerate(self.calls()) if call.startswith("left check")))

    def test_both_programs(self):
        self.passes("tools/build")
        self.assertEqual(sorted(self.checked()), ["left", "low", "right", "rlp_show_main", "rlp_tool_main"])
        for name in ("rlp_tool", "rlp_show"):
            self.assertEqual(self.run_script(f"./{name}").stderr, b"told\n")

    def test_library(self):
        ran = self.run_script("tools/build", "rlp_c")
        self.assertEqual(ran.returncode, 0)
        self.assertEqual(self.calls()[-1], "rlp_c lib")
        self.assertIn("build: crates/rlp_c/out/librlp_c.a is built", ran.stderr.decode())

    def test_lines(self):
        ran = self.run_script("tools/build", "rlp_tool")
        self.assertEqual(ran.stdout, b"")
        *lines, last = ran.stderr.decode().splitlines()
        self.assertEqual(len(lines), 4)
        for place, line in enumerate(lines, 1):
            self.assertRegex(line, rf"^build: crate {place} of 4, \w+: proved, \d+\.\d minutes since the start, about \d+ to go$")
        self.assertEqual(last, "build: crates/rlp_tool_main/out/rlp_tool_main is built")

    def test_terminal(self):
        self.write("notes/seconds", "3")
        status, shown = self.on_terminal("rlp_tool")
        self.assertEqual(status, 0)
        text = "".join(piece for _, piece in shown)
        self.assertRegex(text, r"crate 1 of 4, \d+\.\d min, about \d+ to go; low: function 1 of 2")
        self.assertRegex(text, r"crate 3 of 4, \d+\.\d min, about \d+ to go; (left|right): function 1 of 2")
        times = [0, *(at for at, _ in shown)]
        self.assertLess(max(later - sooner for sooner, later in zip(times, times[1:])), 5)
        self.assertEqual(len(re.findall(r"proved, ", text)), 4)

    def test_failure(self):
        self.write("notes/fails-left")
        said = self.fails("tools/build", "rlp_tool")
        self.assertIn("fn left::one: not proved\nbuild: left failed\n", said)
        self.assertNotIn("rlp_tool_main", self.checked())
        self.assertFalse((self.folder / "crates/rlp_tool_main/out/rlp_tool_main").exists())

    def test_what_is_built(self):
        self.passes("tools/build", "rlp_tool")
        before = self.calls()
        ran = self.run_script("tools/build", "rlp_tool")
        self.assertEqual((ran.returncode, self.calls()), (0, before))
        self.write("crates/low/src/new.rt")
        self.passes("tools/build", "rlp_tool")
        self.assertEqual(len(self.calls()), 2 * len(before))

    def test_usage(self):
        for word in ("rlp_what", "--help"):
            self.assertIn("usage: tools/build", self.fails("tools/build", word))
        self.assertEqual(self.calls(), [])
