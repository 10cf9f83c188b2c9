"""A copy of the scripts with a program and three libraries of its own, and a script in the place of `rt`."""

import os
import shutil

from scratch import ROOT, Scratch, text_of

# What stands in for `rt`. It notes each call and the input of a program, and answers as the files `said` and `errors` say.
RT = """#!/bin/sh
echo "$(basename "$PWD") $*" >> "$NOTES/calls"
case $1 in
  try)
    cat > "$NOTES/input"
    cat "$NOTES/said"
    cat "$NOTES/errors" >&2
    exit 9 ;;
  check)
    if [ -e "$NOTES/fails-$(basename "$PWD")" ]; then echo "fn $(basename "$PWD")::one: not proved"; exit 1; fi
    echo "checked $(basename "$PWD")::one, 1 of 2"
    sleep "$(cat "$NOTES/seconds")"
    echo "checked $(basename "$PWD")::two, 2 of 2" ;;
  run)
    mkdir -p out
    cp "$NOTES/program" "out/$(basename "$PWD")" ;;
  lib)
    mkdir -p out
    touch "out/lib$(basename "$PWD").a" ;;
esac
"""
# A program that prints its arguments and its input.
PROGRAM = '#!/bin/sh\nprintf "built %s|" "$@"\ncat\necho told >&2\nexit 3\n'
CRATES = """low:
left: low
right: low hex
rlp_tool_main: left right
rlp_show_main: left
rlp_c staticlib: right
other:
"""


class StandIn(Scratch):
    """A copy of the scripts in a folder of its own."""

    def setUp(self):
        super().setUp()
        self.copy_tools()
        for script in ("rlp_tool", "rlp_show"):
            shutil.copy2(ROOT / script, self.folder / script)
        self.write("crates.txt", CRATES)
        for name in ("low", "left", "right", "rlp_c", "other"):
            self.write(f"crates/{name}/src/lib.rt")
        for name in ("rlp_tool_main", "rlp_show_main"):
            self.write(f"crates/{name}/src/main.rt")
        self.write("crates/low/specs/Lib.antt")
        self.notes = self.folder / "notes"
        self.write("bin/rt", RT, 0o755)
        self.write("notes/program", PROGRAM, 0o755)
        self.write("notes/seconds", "0")
        self.answer(b"", b"run=ended status=0 runners=1 races=unchecked proved=no\n")
        self.variables = {"NOTES": str(self.notes), "PATH": f"{self.folder / 'bin'}:{os.environ['PATH']}"}

    def answer(self, said, errors):
        """Sets what `rt try` prints."""
        (self.notes / "said").write_bytes(said)
        (self.notes / "errors").write_bytes(errors)

    def calls(self):
        """How `rt` was called: the folder of each call, and the words."""
        file = self.notes / "calls"
        return text_of(file).splitlines() if file.exists() else []

    def build_program(self, name):
        """Makes a program as `rt run` does."""
        return self.write(f"crates/{name}/out/{name}", PROGRAM, 0o755)
