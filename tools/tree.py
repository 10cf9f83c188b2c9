"""The crates of this repository: what they use, whether they are built, and what it takes to prove them."""

import os
import pathlib

ROOT = pathlib.Path(__file__).resolve().parent.parent
# The memory that each job of a check may take, in kB. A check with one job takes up to 5.3 GB: the check of `rlp_show`.
JOB = 4_000_000


def lines_of(file):
    """The lines of a `crates.txt`, by the names of the crates."""
    lines = file.read_text(encoding="utf-8").splitlines() if file.exists() else []
    return {line.split(":")[0].split()[0]: line for line in lines if ":" in line and not line.startswith("#")}


def uses_of(lines):
    """The crates that each crate uses, without those of the kit."""
    return {name: [other for other in line.split(":")[1].split() if other in lines] for name, line in lines.items()}


def crates():
    """The crates of this repository, each with those that it uses, in the order of `crates.txt`."""
    return uses_of(lines_of(ROOT / "crates.txt"))


def needed(names, uses):
    """These crates and all that they use, in the order of the lines."""
    found, left = set(), list(names)
    while left:
        name = left.pop()
        if name not in found:
            found.add(name)
            left += uses[name]
    return [name for name in uses if name in found]


def lowest_first(names, uses):
    """These crates and all that they use, each behind those that it uses."""
    return sorted(needed(names, uses), key=lambda name: len(needed([name], uses)))


def below(crate, uses):
    """All that a crate uses."""
    return [name for name in needed([crate], uses) if name != crate]


def product_of(crate):
    """The program or the static library that a crate is built to, or `None` for another library."""
    out = ROOT / "crates" / crate / "out"
    if (ROOT / "crates" / crate / "src" / "main.rt").exists():
        return out / crate
    is_static = "staticlib" in lines_of(ROOT / "crates.txt")[crate].split(":")[0].split()
    return out / f"lib{crate}.a" if is_static else None


def is_built(crate, product=None):
    """Whether the product of a crate is there, or another file of it, and no source of a crate that it stands on is newer."""
    product = product or product_of(crate)
    if not product or not product.exists():
        return False
    folders = [ROOT / "crates" / name / part for name in needed([crate], crates()) for part in ("src", "specs")]
    return not any(is_newer(folder, product.stat().st_mtime) for folder in folders)


def is_newer(folder, time):
    """Whether a folder, or a file or folder in it, was changed after a time."""
    for place, _, files in os.walk(folder):
        if any(os.stat(os.path.join(place, name)).st_mtime > time for name in ("", *files)):
            return True
    return False


def measured(name):
    """What `tools/bench/run` wrote to a file: what is told of the run, the heads of the columns, and the rows. A file that isn't there has no rows."""
    file = ROOT / "tools" / "bench" / f"{name}.tsv"
    lines = file.read_text(encoding="utf-8").splitlines() if file.exists() else []
    about = dict(line[2:].split("\t") for line in lines if line.startswith("# "))
    heads, *rows = [line.split("\t") for line in lines if not line.startswith("# ")] or [[]]
    return about, heads, rows


def costs(names):
    """The processor seconds and the MB of memory of each crate's first proof, as `tools/bench/run gate` measured them. A crate that it hasn't measured counts as the mean."""
    found = {crate: (int(seconds), int(memory)) for crate, part, _, _, seconds, memory in measured("gate")[2] if part == "proof"}
    mean = tuple(sum(one) // len(found) for one in zip(*found.values())) or (0, 0)
    return {name: found.get(name, mean) for name in names}


def measured_on():
    """The machine on which that was measured."""
    return measured("gate")[0].get("machine", "a machine that isn't named")


def places():
    """How many jobs may work at a time: one for each processor, as far as there is memory for them."""
    with open("/proc/meminfo", encoding="utf-8") as told:
        free = next(int(line.split()[1]) for line in told if line.startswith("MemAvailable"))
    return max(1, min(len(os.sched_getaffinity(0)), free // JOB))


def minutes(seconds, jobs):
    """How long proofs take, one after another, that need these processor seconds with one job. Several jobs share about a third of the work."""
    return seconds * (2 + 1 / jobs) / 3 / 60


def minutes_to_build(crate):
    """How long it takes to prove and build a crate and all that it uses, from nothing on this machine."""
    return minutes(sum(seconds for seconds, _ in costs(needed([crate], crates())).values()), places())
