"""Tests `rlp_tool` and `rlp_show`, and `tools/run` and `tools/unproved`, which they call."""

import os
import pathlib
import shutil
import subprocess
import time
import unittest

from scratch import ROOT, Scratch
from stand_in import StandIn

ENDED = b"checked: ended status=0\nraces: not looked for, since a kit has no ThreadSanitizer\nrun=ended status=%d runners=1 races=unchecked proved=no\n"
BOTH = b"interpreter: ended status=7\nchecked: ended status=7\nrun=ended status=7 runners=2 proved=no\n"
# A program that prints its input and more, all without a last newline.
ECHO = """//! Prints its input.
#![tactic(auto)]

use std::io::Read;
use std::process::ExitCode;

fn main(rt: HostRuntime) -> ExitCode {
    let mut input = Vec::new(rt.alloc());
    let _read = rt.stdin().read_to_end(&mut input);
    let length = input.len();
    let _told = print!(rt; "{length} bytes");
    let _more = eprintln!(rt; "told");
    ExitCode::from(7)
}
"""


class NotBuilt(StandIn):
    """The programs, where nothing is built."""

    def test_output_and_status(self):
        for said in (b"", b"one\ntwo\n", b"no newline", b"\0\xff\r\n\n"):
            self.answer(said, ENDED % 5)
            ran = self.run_script("./rlp_tool")
            self.assertEqual((ran.stdout, ran.returncode), (said, 5))

    def test_line_of_errors(self):
        self.answer(b"", ENDED % 0)
        ran = self.run_script("./rlp_tool")
        self.assertRegex(ran.stderr.decode(), r"^rlp_tool: .*not proved.*; tools/build rlp_tool proves and builds the program, in about \d+ minutes\n$")

    def test_errors_of_the_program(self):
        for errors in (b"usage: run=ended status=1\nchecked: mine\n", b"interpreter: ended status=1\nmore\n"):
            for own in (ENDED % 7, BOTH):
                self.answer(b"", errors + own)
                ran = self.run_script("./rlp_show", "what")
                self.assertEqual(ran.stderr.split(b"\n", 1)[1], errors)
                self.assertEqual(ran.returncode, 7)

    def test_arguments(self):
        for words in ([], ["--help"], ["--json", "block", "0x c0"], ["", "*", "a'b"], ["--"]):
            self.run_script("./rlp_show", *words)
            self.assertEqual(self.calls()[-1], " ".join(["rlp_show_main try --steps 1 --", *words]))

    def test_input(self):
        for given in (b"", b"c0", b"c0\n" * 500_000):
            for words in (["./rlp_tool"], ["./rlp_tool", "--help"], ["./rlp_show"], ["./rlp_show", "--json"], ["./rlp_show", "--json", "block"], ["./rlp_show", "--bytes", "block"]):
                self.run_script(*words, input=given)
                self.assertEqual((self.notes / "input").read_bytes(), given)

    def test_input_that_is_slow(self):
        with subprocess.Popen(["./rlp_tool"], cwd=self.folder, env={**os.environ, **self.variables}, stdin=subprocess.PIPE, stderr=subprocess.DEVNULL) as ran:
            for piece in (b"c0", b"c1\n", b"80"):
                ran.stdin.write(piece)
                ran.stdin.flush()
                time.sleep(0.1)
            ran.stdin.close()
        self.assertEqual((self.notes / "input").read_bytes(), b"c0c1\n80")

    def test_input_that_is_not_read(self):
        reads, writes = os.pipe()
        for words in (["--help"], ["-V"], ["0xc0"], ["block", "0xc0"], ["--json", "enr:-I"], ["block", "header"]):
            self.assertEqual(self.run_script("./rlp_show", *words, stdin=reads).returncode, 0)
        os.close(writes)
        os.close(reads)

    def test_input_at_a_terminal(self):
        script = "printf 'c0\\nc1\\n\\004' | script --quiet --command './rlp_tool 2> /dev/null' /dev/null"
        self.run_script("sh", "-c", script)
        self.assertEqual((self.notes / "input").read_bytes(), b"c0\nc1\n")

    def test_no_answer(self):
        why = b"checked: no-answer: the program wrote more than 1048576 bytes to standard output or to standard error, the limit on each\nrun=no-answer proved=no\n"
        self.answer(b"a part", why)
        said = self.fails("./rlp_tool")
        self.assertRegex(said, r"^rlp_tool: .*\nrlp_tool: no answer: .*1 MiB of output.*run tools/build rlp_tool first\n$")

    def test_try_that_fails(self):
        for why in (b"src/main.rt:1:1: error[what]: no\nrun=none proved=no\n", b"checked: fault: index out of bounds\nrun=fault proved=no\n", b""):
            self.answer(b"a part", why)
            said = self.fails("./rlp_tool").split("\n", 1)[1]
            self.assertEqual(said, why.decode() + "rlp_tool: no answer, since rt try failed; tools/build rlp_tool proves and builds the program\n")

    def test_too_much_input(self):
        big = self.folder / "big"
        with big.open("wb") as file:
            file.truncate((64 << 20) + 1)
        with big.open("rb") as file:
            self.assertIn("64 MiB of input", self.fails("./rlp_tool", stdin=file))
        self.assertEqual(self.calls(), [])

    def test_output_that_fails(self):
        self.answer(b"one\n", ENDED % 0)
        with open("/dev/full", "wb") as full:
            self.assertEqual(self.run_script("./rlp_tool", stdout=full).returncode, 3)

    def test_no_rt(self):
        (self.folder / "bin" / "rt").unlink()
        (self.folder / "bin" / "python3").symlink_to(shutil.which("python3"))
        for name in ("sh", "env", "dirname", "find", "realpath"):
            (self.folder / "bin" / name).symlink_to(shutil.which(name))
        self.variables["PATH"] = str(self.folder / "bin")
        self.assertIn("no command rt", self.fails("./rlp_tool"))

    def test_from_another_folder(self):
        self.answer(b"one\n", ENDED % 0)
        (self.folder / "far").mkdir()
        (self.folder / "far" / "tool").symlink_to("../rlp_tool")
        ran = self.run_script("sh", "-c", "cd far && ./tool")
        self.assertEqual((ran.stdout, ran.returncode), (b"one\n", 0))

    def test_usage(self):
        for words in (["tools/run"], ["tools/run", "low"], ["tools/unproved"]):
            self.assertIn("usage: tools/unproved", self.fails(*words))


class Built(StandIn):
    """The programs, where they are built."""

    def test_what_is_built(self):
        for script in ("rlp_tool", "rlp_show"):
            self.build_program(f"{script}_main")
            ran = self.run_script(f"./{script}", "a b", "--help", input=b"no newline")
            self.assertEqual((ran.stdout, ran.stderr, ran.returncode), (b"built a b|built --help|no newline", b"told\n", 3))
        self.assertEqual(self.calls(), [])

    def test_newer_sources(self):
        for crate in ("rlp_tool_main", "left", "low"):
            os.utime(self.build_program("rlp_tool_main"), (time.time() - 1, time.time() - 1))
            self.write(f"crates/{crate}/specs/New.antt")
            self.assertIn(b"not proved", self.run_script("./rlp_tool").stderr)

    def test_newer_sources_of_other_crates(self):
        os.utime(self.build_program("rlp_tool_main"), (time.time() + 1, time.time() + 1))
        os.utime(self.write("crates/other/src/new.rt"), (time.time() + 9, time.time() + 9))
        self.assertEqual(self.run_script("./rlp_tool").stderr, b"told\n")


@unittest.skipUnless(shutil.which("rt"), "there is no rt")
class Real(Scratch):
    """A small program by the `rt try` of the kit."""

    def test_small_program(self):
        self.copy_tools()
        self.write("crates.txt", "rlp_tool_main:\n")
        self.write("crates/rlp_tool_main/src/main.rt", ECHO)
        ran = self.run_script("tools/run", "rlp_tool", input=b"c0\n" * 1000, timeout=300)
        self.assertEqual((ran.stdout, ran.returncode), (b"3000 bytes", 7), ran.stderr.decode())
        self.assertEqual(ran.stderr.split(b"\n", 1)[1], b"told\n")
        self.assertEqual([file.name for file in pathlib.Path(self.folder).glob("crates/*/*")], ["src"])
