"""Runs the program on each kind of input, and prints bytes of input per second of processor time.

usage: measure.py PROGRAM FOLDER [--against PROGRAM [--called NAME]] [--write FILE] [WORD..]

It makes the inputs in the folder, from a fixed seed. With a WORD it takes the kinds whose names hold one. `--write` writes what `page.py`
makes a table of.
"""

import os
import random
import statistics
import subprocess

from kinds import kinds
from machine import is_wanted, parser, seconds, write

SEED = 20151007
RUNS = 5
BYTES = 16_000_000
DISTINCT = 2_000_000


def made(folder, name, line_of):
    """The file of a kind: distinct lines of some bytes, repeated up to the size."""
    path = os.path.join(folder, "".join(c if c.isalnum() else "_" for c in name))
    recipe = os.path.join(os.path.dirname(os.path.abspath(__file__)), "kinds.py")
    if os.path.exists(path) and os.path.getmtime(path) > os.path.getmtime(recipe):
        return path
    source = random.Random(f"{SEED} {name}")
    lines, size = [], 0
    while size < DISTINCT:
        lines.append(line_of(source) + "\n")
        size += len(lines[-1])
    text = "".join(lines)
    with open(path + ".new", "w") as file:
        file.write(text * (BYTES // len(text)))
    os.rename(path + ".new", path)
    return path


def is_answered(program, path):
    """Whether no line is answered with an error."""
    with open(path, "rb") as lines:
        out = subprocess.run([program], stdin=lines, capture_output=True, check=True).stdout
    return not out.startswith(b"error") and b"\nerror" not in out


def rate(size, times):
    return f"{size / statistics.median(times) / 1e6:9.1f} {size / max(times) / 1e6:9.1f}"


def words():
    given = parser("program", "folder")
    given.add_argument("--against", metavar="PROGRAM")
    given.add_argument("--called", metavar="NAME", default="other build")
    return given.parse_intermixed_args()


def main():
    given, rows = words(), []
    os.makedirs(given.folder, exist_ok=True)
    programs = [given.program] + ([given.against] if given.against else [])
    other = "; then those of the other build, and the time of this one by the other's" if given.against else ""
    print(f"MB/s of input, by processor time: the median and the smallest of {RUNS} runs{other}")
    for name, line_of in kinds().items():
        if not is_wanted(name, given.words):
            continue
        path = made(given.folder, name, line_of)
        if not is_answered(given.program, path):
            print(f"{name:40}not measured: a line is answered with an error", flush=True)
            continue
        times = [[] for _ in programs]
        for _ in range(RUNS):
            for program, taken in zip(programs, times):
                taken.append(seconds([program], path))
        size = os.path.getsize(path)
        ratio = f"{statistics.median(times[0]) / statistics.median(times[1]):9.2f}" if given.against else ""
        print(f"{name:40}" + "".join(rate(size, taken) for taken in times) + ratio, flush=True)
        rows.append([name, *(f"{size / statistics.median(taken) / 1e6:.1f}" for taken in times), *([ratio.strip()] if ratio else [])])
    if given.write:
        heads = ["kind of lines", "MB/s", *([f"MB/s, {given.called}", "ratio of times"] if given.against else [])]
        write(given.write, heads, rows, runs=f"median of {RUNS} runs")


if __name__ == "__main__":
    main()
