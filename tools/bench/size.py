"""Runs the library and the program on inputs of many sizes, and prints nanoseconds of processor time for a byte, and memory.

usage: size.py TOOL PROGRAM FOLDER [--write FILE] [WORD..]

With a WORD it runs the kinds whose names hold one. A size that the memory can't hold is named, and left out. `--write` writes what
`page.py` makes a table and a picture of.
"""

import os
import random
import statistics
import subprocess
import tempfile

import preloaded
from kinds import list_of, string
from machine import is_wanted, parser, seconds, write

SEED = 20151007
RUNS = 5
SECONDS = 0.2
KIB, MIB, GIB = 1 << 10, 1 << 20, 1 << 30
STRINGS = [32, KIB, 32 * KIB, MIB, 32 * MIB, GIB]
LISTS = [10, 1_000, 100_000, 1_000_000, 10_000_000]
LEVELS = [20, 200, 2_000, 20_000, 200_000]
# What the program reads: the unit of the sizes, and the sizes, each with the bytes of a line and of the input.
LINES = {
    "`rlp_tool`, 16 MiB of lines": ("a line", {size: (size, 16 * MIB) for size in (KIB, 4 * KIB, 16 * KIB, 64 * KIB)}),
    "`rlp_tool`, lines of 1 KiB": ("in all", {size: (KIB, size) for size in (MIB, 16 * MIB, 256 * MIB, GIB)}),
}
# What the library does: the operation, the unit of the sizes, the sizes, and the bytes of memory for one of the unit.
OPERATIONS = {
    "write a string": ("write_string", "", STRINGS, 2),
    "read a string": ("read_string", "", STRINGS, 2),
    "write a list of numbers": ("write_list", "items", LISTS, 27),
    "`decode_list`": ("read_list", "items", LISTS, 42),
    "`iter`": ("iterate_list", "items", LISTS, 27),
    "nested lists, closed by one call": ("close_at_once", "levels", LEVELS, 64),
    "nested lists, closed one by one": ("close_one_by_one", "levels", LEVELS, 64),
}
HEADS = ["kind", "size", "bytes", "ns a byte", "ratio to the smallest size", "memory, MB"]


def named(size, unit):
    """A size as text."""
    for name, bytes_of in (("GiB", GIB), ("MiB", MIB), ("KiB", KIB)):
        if unit not in ("items", "levels") and size % bytes_of == 0:
            return f"{size // bytes_of} {name} {unit}".strip()
    return f"{size:,} {unit or 'bytes'}"


def median_of(words, path):
    """The median of runs that together take long enough."""
    taken = []
    while len(taken) < RUNS or sum(taken) < RUNS * SECONDS / 2:
        taken.append(seconds(words, path))
    return statistics.median(taken)


def line_of(source, length):
    """A line of so many bytes or a few less: a list of strings of 32 bytes, in digits."""
    return list_of([string(source.randbytes(32)) for _ in range((length - 8) // 66)]).hex() + "\n"


def file_of(folder, length, size):
    """The file of lines of so many bytes. At most one is there at a time."""
    source, path = random.Random(f"{SEED} {length}"), os.path.join(folder, "lines")
    text = "".join(line_of(source, length) for _ in range(MIB // length))
    with open(path, "w", encoding="ascii") as file:
        for _ in range(size // MIB):
            file.write(text)
    return path


def lines_measured(tool, preload, folder, length, size):
    """The nanoseconds for a byte and memory, for the program over one input."""
    path = file_of(folder, length, size)
    spent = median_of([tool], path) - median_of([tool], os.devnull)
    return spent * 1e9 / os.path.getsize(path), preloaded.asked(preload, [tool], path)[1]


def operation_measured(program, preload, operation, size):
    """The bytes, nanoseconds for a byte and memory, for an operation of the library."""
    def words(times):
        return [program, operation, str(size), str(times)]

    told, times, start = subprocess.run(words(1), capture_output=True, text=True, check=True).stdout, 1, seconds(words(0))
    if not told.strip().isdigit():
        raise SystemExit(f"{operation} of {size}: {told}")
    while seconds(words(times)) - start < SECONDS / 4:
        times *= 4
    taken = [(seconds(words(times)) - seconds(words(0))) * 1e9 / times / int(told) for _ in range(RUNS)]
    return int(told), statistics.median(taken), preloaded.asked(preload, words(1))[1]


def available():
    """The bytes of memory that are free for programs."""
    with open("/proc/meminfo", encoding="ascii") as told:
        return next(int(line.split()[1]) * 1024 for line in told if line.startswith("MemAvailable:"))


def cases(given, preload, folder):
    """The kinds, each with its unit and with what measures a size."""
    for name, (unit, sizes) in LINES.items():
        yield name, unit, {size: (0, lambda size=size, pair=pair: (size, *lines_measured(given.tool, preload, folder, *pair))) for size, pair in sizes.items()}
    for name, (operation, unit, sizes, memory) in OPERATIONS.items():
        yield name, unit, {size: (size * memory, lambda size=size, operation=operation: operation_measured(given.program, preload, operation, size)) for size in sizes}


def rows_of(name, unit, sizes):
    """The rows of a kind."""
    least = None
    for size, (needed, measure) in sizes.items():
        if needed > available():
            row = [name, named(size, unit), "", "left out", "", f"needs {needed / 1e6:.0f}"]
        else:
            count, time, memory = measure()
            least = least or time
            row = [name, named(size, unit), str(count), f"{time:.3f}", f"{time / least:.2f}", f"{memory:.1f}"]
        print(", ".join(row), flush=True)
        yield row


def main():
    given, rows = parser("tool", "program", "folder").parse_intermixed_args(), []
    os.makedirs(given.folder, exist_ok=True)
    print(", ".join(HEADS))
    with tempfile.TemporaryDirectory(prefix="size-", dir=given.folder) as folder:
        preload = preloaded.library(folder)
        for name, unit, sizes in cases(given, preload, folder):
            if is_wanted(name, given.words):
                rows += rows_of(name, unit, sizes)
    if given.write:
        write(given.write, HEADS, rows, runs=f"median of {RUNS} runs")


if __name__ == "__main__":
    main()
