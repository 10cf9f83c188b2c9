"""Runs a node's day: a program reads, checks and writes blocks that `blocks.py` makes, by one process, and by one a part of the input.

usage: day.py PROGRAM FOLDER [--blocks N] [--write FILE]

It makes the input in the folder, once: the blocks of a tenth of a day at most, which are read as many times as there are blocks to read.
`--write` writes what `page.py` makes a table of.
"""

import os
import resource
import shlex
import shutil
import statistics
import subprocess
import tempfile
import time

import preloaded
from blocks import A_DAY, made
from machine import parser, write

RUNS = 3
DISTINCT = A_DAY // 10
PARTS = 4
HEADS = ["how", "seconds", "processor seconds", "ms a block", "MB/s", "allocations a block", "memory of a process, MB"]


def input_of(folder, blocks):
    """The file of some blocks, and what it holds, as the program tells it."""
    path, recipe = os.path.join(folder, f"day_{blocks}"), os.path.join(os.path.dirname(os.path.abspath(__file__)), "blocks.py")
    if not os.path.exists(path + ".sums") or os.path.getmtime(path + ".sums") < os.path.getmtime(recipe):
        with open(path, "w", encoding="ascii") as file:
            sums = [0] * 6
            for lines, counts in made(blocks):
                file.write(lines)
                sums = [sum(pair) for pair in zip(sums, counts)]
        with open(path + ".sums", "w", encoding="ascii") as file:
            file.write(" ".join(map(str, sums)))
    with open(path + ".sums", encoding="ascii") as file:
        return path, [int(number) for number in file.read().split()]


def ways(program, path, parts):
    """The commands that read the whole input once."""
    program, path, parts = map(shlex.quote, (program, path, parts))
    by_xargs = f"""ls {parts}?? | xargs -P {PARTS} -I @ sh -c '"$0" day < "$1" > "$1.told"' {program} @ && cat {parts}*.told"""
    found = {"one process": f"{program} day < {path}", f"`xargs -P {PARTS}`, {PARTS} parts": by_xargs}
    if shutil.which("parallel"):
        found[f"GNU parallel, {PARTS} parts"] = f"parallel --pipepart -a {path} --block -1 -j {PARTS} {program} day"
    else:
        print("GNU parallel isn't installed, and isn't measured")
    return found


def ran(command, rounds, sums):
    """The seconds and the processor seconds of reading the input some times. Ends where the program tells other sums."""
    before, began = resource.getrusage(resource.RUSAGE_CHILDREN), time.monotonic()
    for _ in range(rounds):
        out = subprocess.run(command, shell=True, capture_output=True, text=True, check=True).stdout
        told = [[int(number) for number in line.split()[:-1]] for line in out.splitlines() if line.replace(" ", "").isdigit()]
        if [sum(column) for column in zip(*told)] != sums:
            raise SystemExit(f"{command} tells {out!r}, and not {sums}")
    took, after = time.monotonic() - began, resource.getrusage(resource.RUSAGE_CHILDREN)
    return took, after.ru_utime + after.ru_stime - before.ru_utime - before.ru_stime


def words():
    given = parser("program", "folder", words=False)
    given.add_argument("--blocks", type=int, default=A_DAY, metavar="N")
    return given.parse_args()


def main():
    given, rows = words(), []
    os.makedirs(given.folder, exist_ok=True)
    distinct = min(given.blocks, DISTINCT)
    rounds = given.blocks // distinct
    path, sums = input_of(given.folder, distinct)
    each = f"{sums[5] / distinct / 1e3:.0f} KB with {sums[1] / distinct:.0f} transactions, {sums[3] / distinct:.0f} logs and {sums[4] / distinct:.0f} nodes"
    times = f"{distinct:,} made, read {rounds} times over; " if rounds > 1 else ""
    told = f"{distinct * rounds:,} blocks of {each} on average; {times}median of {RUNS} runs"
    print(f"{told}\n" + ", ".join(HEADS))
    with tempfile.TemporaryDirectory(prefix="part-", dir=given.folder) as parts:
        subprocess.run(["split", "-n", f"l/{PARTS}", path, os.path.join(parts, "part.")], check=True)
        requests, memory = preloaded.asked(preloaded.library(parts), [given.program, "day"], path)
        for name, command in ways(given.program, path, os.path.join(parts, "part.")).items():
            taken = sorted(ran(command, rounds, sums) for _ in range(RUNS))
            took, spent = statistics.median(pair[0] for pair in taken), statistics.median(pair[1] for pair in taken)
            numbers = [f"{took:.1f}", f"{spent:.1f}", f"{took * 1e3 / distinct / rounds:.2f}", f"{sums[5] * rounds / took / 1e6:.1f}"]
            rows.append([name, *numbers, f"{requests / distinct:.0f}", f"{memory:.1f}"])
            print(", ".join(rows[-1]), flush=True)
    if given.write:
        write(given.write, HEADS, rows, runs=told)


if __name__ == "__main__":
    main()
