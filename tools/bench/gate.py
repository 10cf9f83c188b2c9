"""Runs `rt ci --anew` in a clean clone of the tree, and writes what each of its parts took.

usage: gate.py ROOT FILE

It looks at the run's processes of the prover every half a second, and adds up their processor time by crate. What a process takes
after the last look isn't counted. What `rt ci` prints is in `out/bench/gate.log`. Without RT_JOBS one check runs for each processor.
FILE also has the minutes that the run takes by its schedule, with what each part took. A run that fails writes no FILE.
`tools/pages/calling` makes a table of FILE, which is `gate.tsv` here.
"""

import os
import re
import subprocess
import sys
import tempfile
import time
from collections import defaultdict

sys.path.append(os.path.dirname(os.path.dirname(os.path.abspath(__file__))))

from machine import file_of_times
from schedule import foretold
from tree import crates

PLACES = int(os.environ.get("RT_JOBS", os.cpu_count() or 1))
EVERY = 0.5
TICKS = os.sysconf("SC_CLK_TCK")
NAME = re.compile(rb"--crate-name\0([^\0]+)")
HEADS = ["crate", "part", "begins, s", "ends, s", "processor time, s", "memory, MB"]


def status_of(number):
    """The fields of a process behind its name: its state, its parent, and so on."""
    with open(f"/proc/{number}/stat", encoding="utf-8") as file:
        return file.read().rpartition(")")[2].split()


def is_below(number, run):
    """Whether a run started a process, itself or by others."""
    while int(number) > 1 and int(number) != run:
        number = status_of(number)[1]
    return int(number) == run


def processes(run):
    """The run's processes of the prover: the number, what it checks, its processor time in seconds and its greatest memory in MB."""
    for number in filter(str.isdigit, os.listdir("/proc")):
        try:
            with open(f"/proc/{number}/cmdline", "rb") as file:
                command = file.read()
            name = NAME.search(command)
            if not name or b"/rattle\0" not in command or not is_below(number, run):
                continue
            fields = status_of(number)
            with open(f"/proc/{number}/status", encoding="utf-8") as file:
                most = re.search(r"VmHWM:\s+(\d+)", file.read())
            where = os.readlink(f"/proc/{number}/cwd")
        except OSError:
            continue
        part = "mistakes" if "/rt-edit" in where else "tests" if b"\0--test\0" in command else "proof"
        yield number, (name[1].decode(), part), (int(fields[11]) + int(fields[12])) / TICKS, int(most[1]) / 1024 if most else 0


def watched(run):
    """What each part took until a run ended."""
    begin, parts, taken = time.time(), defaultdict(lambda: [None, 0, 0]), defaultdict(dict)
    while run.poll() is None:
        now = time.time() - begin
        for number, part, seconds, memory in processes(run.pid):
            one = parts[part]
            one[0] = now if one[0] is None else one[0]
            one[1], one[2] = now, max(one[2], memory)
            taken[part][number] = seconds
        time.sleep(EVERY)
    return {part: (*times[:2], sum(taken[part].values()), times[2]) for part, times in parts.items()}, time.time() - begin


def main():
    root, to = sys.argv[1:]
    printed = os.path.join(root, "out", "bench", "gate.log")
    os.makedirs(os.path.dirname(printed), exist_ok=True)
    with tempfile.TemporaryDirectory(prefix="gate-") as folder:
        clone = os.path.join(folder, "rlp")
        subprocess.run(["git", "clone", "--quiet", root, clone], check=True)
        with open(printed, "w", encoding="utf-8") as log:
            run = subprocess.Popen(["rt", "ci", "--anew"], cwd=clone, stdin=subprocess.DEVNULL, stdout=log, stderr=subprocess.STDOUT, env={**os.environ, "RT_JOBS": str(PLACES)})
            parts, whole = watched(run)
    with open(printed, encoding="utf-8", errors="replace") as log:
        last = log.read().splitlines()[-1]
    rows = [[*part, *(f"{number:.0f}" for number in numbers)] for part, numbers in sorted(parts.items(), key=lambda it: it[1][0])]
    schedule = f"{foretold(parts, crates(), PLACES):.1f} minutes"
    text = file_of_times(HEADS, rows, result=f"{last}, in {whole / 60:.1f} minutes", schedule=schedule, checks=str(PLACES))
    print(text, end="")
    if run.returncode:
        sys.exit(f"{to} is as it was, since the run failed")
    with open(to, "w", encoding="utf-8") as file:
        file.write(text)


if __name__ == "__main__":
    main()
