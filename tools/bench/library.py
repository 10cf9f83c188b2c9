"""Runs each operation of the library many times over, and prints nanoseconds of processor time for one, or instructions.

usage: library.py PROGRAM [--against PROGRAM [--called NAME]].. [--instructions] [--write FILE] [WORD..]

With a WORD it runs the operations whose names hold one. `--write` writes what `page.py` makes a table of. An operation whose results have
another sum in another program isn't measured, and then nothing is written and the status is 1.
"""

import re
import statistics
import subprocess

import machine

# Each round runs all operations once, so that what disturbs the machine for a while doesn't disturb all runs of an operation.
RUNS = 7
SECONDS = 0.3
# what another program is called, if nothing else is said
OTHER = "other build"
# how often an operation is run for the sum of its results, which all programs must print
TURNS = 1000
# operations, by what one of them reads or writes
OPERATIONS = {
    "encode_small_number": "the encoding of a number below 128",
    "encode_number": "the encoding of a number of 1 to 8 bytes",
    "encode_32_bytes": "the encoding of 32 bytes",
    "encode_1000_bytes": "the encoding of 1,000 bytes",
    "encode_transaction": "the encoding of a transaction of nine fields",
    "encode_block": "the encoding of a list of 100 transactions",
    "encode_unbounded_list": "an unbounded list of 1,000 numbers",
    "encode_list": "encode_list of 1,000 numbers",
    "append_raw": "a list of 100 raw transactions",
    "close_nested": "200 lists of one item each, closed by one call",
    "decode_small_number": "decode a number below 128",
    "decode_number": "decode a number of 8 bytes",
    "decode_32_bytes": "decode 32 bytes",
    "decode_1000_bytes": "decode 1,000 bytes",
    "decode_text_of_32": "decode text of 32 bytes",
    "decode_text_of_1000": "decode text of 1,000 bytes",
    "decode_list": "decode_list of 1,000 numbers",
    "as_list": "as_list of 1,000 numbers",
    "decode_transaction": "decode a transaction of nine fields, typed",
    "decode_transaction_strictly": "decode a transaction of nine fields, typed and strictly",
    "decode_header": "decode a header of 21 fields, typed",
    "decode_header_strictly": "decode a header of 21 fields, typed and strictly",
    "transaction_by_iter": "nine fields by iter",
    "transaction_by_at": "nine fields by at(0) to at(8)",
    "transaction_by_fields": "nine fields by Fields",
    "branch_by_iter": "seventeen fields by iter",
    "branch_by_at": "seventeen fields by at(0) to at(16)",
    "branch_by_fields": "seventeen fields by Fields",
    "branch_by_val_at": "seventeen byte strings by val_at",
    "hashes_by_at": "200 items by at(0) to at(199)",
    "hashes_by_at_shuffled": "200 items by at, in a shuffled order",
    "item_count_of_1000": "the number of items of a list of 1,000",
    "item_count_of_9": "the number of items of a transaction",
    "iterate_10000": "10,000 items by iter",
    "iterate_10000_numbers": "10,000 numbers by iter",
    "iterate_100_transactions": "100 transactions by iter",
    "payload_info": "the header of a string of 1,000 bytes",
    "kinds": "is_list, is_data, is_int, is_empty, is_null",
    "data_and_size": "data and size of a string of 1,000 bytes",
    "keccak256_of_1000": "the Keccak-256 hash of 1,000 bytes",
}


def summed(program, operation, times):
    """Runs an operation, and returns the sum of its results, or `None` if the program doesn't have it."""
    out = subprocess.run([program, operation, str(times)], capture_output=True, text=True, check=True).stdout.strip()
    return int(out) if out.isdigit() else None


def seconds(program, operation, times):
    """The processor time of one run."""
    return machine.seconds([program, operation, str(times)])


def enough(program, operation):
    """A number of times that takes long enough to be measured."""
    times = 16
    while seconds(program, operation, times) < SECONDS / 4:
        times *= 4
    return max(1, int(times * SECONDS / max(seconds(program, operation, times), 1e-6)))


def nanoseconds(programs, operation, times):
    """One run of each program, by turns."""
    return [(seconds(program, operation, count) - seconds(program, operation, 0)) * 1e9 / count for program, count in zip(programs, times)]


def counted(program, operation, times):
    """The instructions of one run, counted by callgrind."""
    command = ["valgrind", "--tool=callgrind", "--callgrind-out-file=/dev/null", program, operation, str(times)]
    told = subprocess.run(command, capture_output=True, text=True, check=True).stderr
    return int(re.search(r"Collected : (\d+)", told)[1])


def instructions(programs, operation):
    """The instructions of one operation, for each program."""
    return [(counted(program, operation, 300) - counted(program, operation, 100)) / 200 for program in programs]


def write(file, rows, called):
    """Writes the smallest times, the instructions and their ratios, with the version, the day and the machine."""
    heads = ["operation"]
    for unit, ratio in (("ns", "ratio"), ("instructions", "ratio of instructions"))[: 2 if rows and rows[0][2] else 1]:
        heads += [unit, *(f"{unit}, {name}" for name in called), *(f"{ratio}, {name}" for name in called)]
    lines = []
    for name, *numbers in rows:
        cells = [name]
        for own, *others in filter(None, numbers):
            missing = [""] * (len(called) - len(others))
            cells += [f"{number:.1f}" for number in (own, *others)] + missing + [f"{own / number:.2f}" for number in others] + missing
        lines.append(cells)
    machine.write(file, heads, lines, runs=f"least of {RUNS} runs")


def words():
    given = machine.parser("program")
    given.add_argument("--against", metavar="PROGRAM", action="append", default=[])
    given.add_argument("--called", metavar="NAME", action="append", default=[])
    given.add_argument("--instructions", action="store_true")
    return given.parse_intermixed_args()


def main():
    given, plan, rows, unequal = words(), [], [], []
    if given.write and not given.against:
        raise SystemExit("--write needs another program")
    programs, called = [given.program, *given.against], (given.called + [OTHER] * len(given.against))[: len(given.against)]
    other = "; then those of each other program, and this one's smallest by theirs" if given.against else ""
    print(f"nanoseconds of processor time: the median and the smallest of {RUNS} runs{other}", flush=True)
    for operation, what in OPERATIONS.items():
        if not machine.is_wanted(operation, given.words):
            continue
        # Other programs have fewer operations: all of them, or none, run this one.
        sums = {program: summed(program, operation, TURNS) for program in programs}
        some = [program for program in programs if sums[program] is not None]
        if len({sums[program] for program in some}) > 1:
            unequal.append(what)
            print(f"{what:50} refused: the sums of the results are {' and '.join(str(sums[program]) for program in some)}", flush=True)
            continue
        plan.append((operation, what, some, [enough(program, operation) for program in some], []))
    for _ in range(RUNS):
        for operation, _, some, times, taken in plan:
            taken.append(nanoseconds(some, operation, times))
    for operation, what, some, _, taken in plan:
        least = [min(each) for each in zip(*taken)]
        counts = instructions(some, operation) if given.instructions else []
        ratio = "".join(f"{least[0] / low:8.2f}" for low in least[1:])
        told = "; instructions" + "".join(f" {count:,.1f}" for count in counts) if counts else ""
        print(f"{what:50}" + "".join(f"{statistics.median(each):13.1f} {min(each):13.1f}" for each in zip(*taken)) + ratio + told, flush=True)
        rows.append((what, least, counts))
    if unequal:
        raise SystemExit(f"the sums of the results differ: {', '.join(unequal)}; nothing was written")
    if given.write:
        write(given.write, rows, called)


if __name__ == "__main__":
    main()
