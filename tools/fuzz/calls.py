"""Calls of `rlp_show` in each form, with the status, the output and the standard error that they must have."""

import os
import pathlib
import re
import subprocess
import tempfile

HERE = pathlib.Path(__file__).resolve().parent
SOURCE = (HERE.parents[1] / "crates/rlp_show/src/help.rt").read_text(encoding="utf-8")


def printed(name):
    """A text of `help.rt`, by the name of its constant."""
    text = re.search(rf'^pub const {name}: &str =\s+"(?:\\\n)?([^"]*)";$', SOURCE, re.MULTILINE).group(1)
    return text.replace("\\n", "\n")


HELP, USAGE, VERSION = printed("HELP"), printed("USAGE"), printed("VERSION")
# A withdrawal of EIP-4895: its index 0, the validator 1000, the address and the amount 5; its lines, its JSON and its rows.
ADDRESS = "5df9b87991262f6ba471f09758cde1c0fc1de734"
RECORD = f"0xda808203e894{ADDRESS}05"
LINES = f"index: 0\nvalidator_index: 1000\naddress: 0x{ADDRESS}\namount: 5\n\n"
ROWS = f"""0 da - list
1 80 - index: 0
2 82 03e8 validator_index: 1000
5 94 {ADDRESS} address: 0x{ADDRESS}
26 - 05 amount: 5

"""
GUESSED = "".join([f"withdrawal.{line}\n" for line in LINES.splitlines() if line]) + "\n"
JSON = f'{{"withdrawal":{{"index":"0x0","validatorIndex":"0x3e8","address":"0x{ADDRESS}","amount":"0x5"}}}}\n'
ACCESS_LIST = "access_list: []\n\n"
WRONG = "error RlpIncorrectListLen\n"
# With --json a fault is an object, and names the kind.
WRONG_IN_JSON = '{"error":{"name":"withdrawal","fault":"RlpIncorrectListLen"}}\n'
# Two lines, of which the second is no withdrawal.
INPUT = f"{RECORD}\nc0\n"

# Each row: the words, the input or the path of what stands for it, the status, the output or the path of what takes it,
# and the standard error. The input is read to its end exactly by a call without a record.
CALLS = (
    ("", INPUT, 0, GUESSED + ACCESS_LIST, ""),
    ("withdrawal", INPUT, 5, LINES + WRONG, ""),
    ("--json", f"{RECORD}\n", 0, JSON, ""),
    ("--json withdrawal", INPUT, 5, JSON + WRONG_IN_JSON, ""),
    ("withdrawal", "", 0, "", ""),
    (RECORD, INPUT, 0, GUESSED, ""),
    (f"withdrawal {RECORD}", INPUT, 0, LINES, ""),
    (f"--json {RECORD}", INPUT, 0, JSON, ""),
    (f"--json withdrawal {RECORD}", INPUT, 0, JSON, ""),
    ("--bytes withdrawal", INPUT, 5, ROWS + WRONG, ""),
    (f"--bytes withdrawal {RECORD}", INPUT, 0, ROWS, ""),
    ("--bytes 0xc0", INPUT, 0, "0 c0 - access_list: []\n\n", ""),
    ("withdrawal 0xc0", INPUT, 5, WRONG, ""),
    ("--json withdrawal 0xc0", INPUT, 5, WRONG_IN_JSON, ""),
    (f"withdrawal {RECORD}\nc0\n{RECORD}", INPUT, 5, LINES + WRONG + LINES, ""),
    (f"withdrawal {RECORD}\r", INPUT, 0, LINES, ""),
    ("0x0", INPUT, 5, "error hex\n", ""),
    ("enr:=", INPUT, 5, "error base64\n", ""),
    ("--help", INPUT, 0, HELP, ""),
    ("-h", INPUT, 0, HELP, ""),
    ("--json --help", INPUT, 0, HELP, ""),
    ("--version", INPUT, 0, VERSION, ""),
    ("-V", INPUT, 0, VERSION, ""),
    ("nonsense", INPUT, 4, "", USAGE),
    ("withdrawal nonsense", INPUT, 4, "", USAGE),
    (f"withdrawal {RECORD} {RECORD}", INPUT, 4, "", USAGE),
    ("--json --json", INPUT, 4, "", USAGE),
    ("--bytes --json", INPUT, 4, "", USAGE),
    ("\udcff", INPUT, 4, "", USAGE),
    # An input that can't be read.
    ("", "/", 2, "", ""),
    ("withdrawal", "/", 2, "", ""),
    ("--json", "/", 2, "", ""),
    (f"withdrawal {RECORD}", "/", 0, LINES, ""),
    ("--help", "/", 0, HELP, ""),
    ("nonsense", "/", 4, "", USAGE),
    # An output that takes nothing.
    ("", INPUT, 3, "/dev/full", ""),
    ("withdrawal", INPUT, 3, "/dev/full", ""),
    (f"withdrawal {RECORD}", INPUT, 3, "/dev/full", ""),
    (f"--json {RECORD}", INPUT, 3, "/dev/full", ""),
    ("--help", INPUT, 3, "/dev/full", ""),
    ("--version", INPUT, 3, "/dev/full", ""),
    ("nonsense", INPUT, 4, "/dev/full", USAGE),
    ("nonsense", INPUT, 4, "", "/dev/full"),
)


def is_path(text):
    return text.startswith("/")


def opened(text, room, name):
    """A file for a stream: that of a path, or a new one with this text."""
    if text == "/":
        return os.open(text, os.O_RDONLY)
    if is_path(text):
        return os.open(text, os.O_WRONLY)
    (room / name).write_text(text, encoding="utf-8")
    return os.open(room / name, os.O_RDWR)


def ended(program, row, room):
    """How a call ends: its status, what it writes, what it says, and how many bytes of the input it took."""
    words, given, _, output, errors = row
    files = [opened(given, room, "input")]
    files += [opened(text if is_path(text) else "", room, name) for text, name in ((output, "output"), (errors, "errors"))]
    arguments = [os.fsencode(word) for word in words.split(" ") if word]
    ran = subprocess.run([*program, *arguments], stdin=files[0], stdout=files[1], stderr=files[2], check=False, timeout=60)
    took = 0 if is_path(given) else os.lseek(files[0], 0, os.SEEK_CUR)
    for file in files:
        os.close(file)
    texts = [text if is_path(text) else (room / name).read_text(encoding="utf-8") for text, name in ((output, "output"), (errors, "errors"))]
    return ran.returncode, *texts, took


def differing(program):
    """The first call that ends otherwise than its row says, and how it ends; or None."""
    with tempfile.TemporaryDirectory(prefix="calls-") as folder:
        for row in CALLS:
            words, given, status, output, errors = row
            is_read = not is_path(given) and not any(word.startswith(("0x", "enr:", "-h", "--h", "-V", "--v")) for word in words.split(" "))
            wanted = status, output, errors, len(given) if is_read and status != 4 else 0
            found = ended(program, row, pathlib.Path(folder))
            if found != wanted:
                return f"{words!r} ends with {found!r} and not {wanted!r}"
    return None
