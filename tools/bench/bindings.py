"""bindings.py FOLDER [WORD..]: runs the library from C, Rust, Python and JavaScript over each input, which it makes in the folder, beside a plain loop of the same language, and prints nanoseconds of processor time for a call: the shortest of 15 runs."""

import os
import pathlib
import random
import shutil
import subprocess
import sys

from kinds import list_of, nested, number, string
from machine import is_wanted

TOP = pathlib.Path(__file__).resolve().parents[2]
BINDINGS, PREFIX = TOP / "bindings", TOP / "out" / "bindings"
SEED = 20151007
OPERATIONS = ("decode", "is_canonical", "encode", "plain_decode", "plain_encode")
# What JavaScript alone has.
OTHERS = ("flatten", "tree")


def first_transaction():
    """Mainnet's first transaction, from the public vectors."""
    rows = (BINDINGS / "vectors").read_text().splitlines()
    return bytes.fromhex(next(row for row in rows if row.startswith("f86780862d79883d20")).split(" ")[0])


def inputs():
    """The names of the inputs, and their bytes."""
    source = random.Random(SEED)
    header = list_of([string(source.randbytes(length)) for length in (32, 32, 20, 32, 32, 32, 256, 7, 3, 3, 2, 4, 20, 32, 8)])
    return {
        "first transaction": first_transaction(),
        "block of 200 transactions": list_of([header, list_of([first_transaction()] * 200), list_of([])]),
        "10,000 numbers": list_of([string(number(source, 8)) for _ in range(10_000)]),
        "1 MiB string": string(source.randbytes(1 << 20)),
        "nesting to 200": nested(source, 199),
    }


def programs(folder):
    """The words that run the program of each language that the machine has tools for."""
    found = {}
    if shutil.which("cc"):
        program = folder / "bench_c"
        words = ["cc", "-O2", f"-I{BINDINGS / 'c'}", BINDINGS / "c" / "bench.c", BINDINGS / "c" / "tests" / "plain.c"]
        subprocess.run([*words, PREFIX / "lib" / "librlp.a", "-o", program], check=True)
        found["C"] = [program]
    if shutil.which("cargo"):
        words = ["cargo", "build", "-q", "--release", "--offline", "--example", "bench"]
        folders = {"RLP_LIBRARY_DIR": str(PREFIX / "lib"), "CARGO_TARGET_DIR": str(folder / "cargo")}
        subprocess.run(words, cwd=BINDINGS / "rust", env={**os.environ, **folders}, check=True)
        found["Rust"] = [folder / "cargo" / "release" / "examples" / "bench"]
    if (PREFIX / "python").exists():
        found["Python"] = [sys.executable, "-B", BINDINGS / "python" / "bench.py"]
    node = BINDINGS / "javascript" / "node"
    if (PREFIX / "javascript").exists() and subprocess.run([node, "-e", ""], check=False).returncode == 0:
        found["JavaScript"] = [node, BINDINGS / "javascript" / "bench.js", PREFIX / "javascript"]
    return found


def measured(words, path):
    """The numbers that a program prints, by name."""
    variables = {**os.environ, "PYTHONPATH": str(PREFIX / "python")}
    out = subprocess.run([*words, path], capture_output=True, text=True, check=True, env=variables).stdout
    return {name: float(value) for name, value in (line.split() for line in out.splitlines())}


def main():
    folder, wanted = pathlib.Path(sys.argv[1]).resolve(), sys.argv[2:]
    folder.mkdir(parents=True, exist_ok=True)
    found = programs(folder)
    print(f"{'nanoseconds':40}" + "".join(f"{operation:>14}" for operation in OPERATIONS))
    for name, data in inputs().items():
        if not is_wanted(name, wanted):
            continue
        path = folder / "input"
        path.write_bytes(data)
        for language, words in found.items():
            times = measured(words, path)
            others = "".join(f", {other} {time:,.0f}" for other, time in times.items() if other in OTHERS)
            print(f"{name:30}{language:10}" + "".join(f"{times[operation]:14,.0f}" for operation in OPERATIONS) + others, flush=True)


main()
