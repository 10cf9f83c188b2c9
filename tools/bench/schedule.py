"""What a run of `rt ci` takes by its schedule: each part on one processor, once the parts that it waits for have ended."""

from tree import ROOT, below, lowest_first

FILLS = ("seed", "edit")


def lines_in(crate):
    """The lines of a crate's sources. Parts with the longest chain of lines behind them begin first."""
    return sum(len(file.read_text(encoding="utf-8").splitlines()) for file in (ROOT / "crates" / crate / "src").rglob("*.rt"))


def edits_in(crate):
    """The number of known mistakes of a crate."""
    return len(list((ROOT / "crates" / crate / "must-fail").glob("*.edit")))


def tasks_of(seconds, uses, lines, edits):
    """What each task waits for, its lines, and its processor seconds. `seconds` has the three parts of each crate by their names.

    The known mistakes of a crate begin with a proof of their own (`seed`), which takes as long as the crate's.
    """
    tasks = {}
    for crate in lowest_first(uses, uses):
        proof, tests, mistakes = (seconds.get((crate, part), 0) for part in ("proof", "tests", "mistakes"))
        waits, count = [(lower, "proof", 0) for lower in below(crate, uses)], edits[crate] if mistakes else 0
        tasks[crate, "proof", 0] = waits, lines[crate], proof
        tasks[crate, "tests", 0] = waits, lines[crate] if tests else 0, tests
        if count:
            tasks[crate, "seed", 0] = waits, 0, min(proof, mistakes)
        for number in range(count):
            own = [(crate, part, 0) for part in ("proof", "tests", "seed")]
            tasks[crate, "edit", number] = own, lines[crate], max(0, mistakes - proof) / count
    return tasks


def in_order(tasks):
    """The tasks in the order in which they begin: proofs and tests first, those with the most lines on the longest chain behind them."""
    behind = {key: 0 for key in tasks}
    for key in reversed(tasks):
        waits, lines, _ = tasks[key]
        behind[key] += lines
        for lower in waits:
            behind[lower] = max(behind[lower], behind[key])
    return sorted(tasks, key=lambda key: (key[1] in FILLS, -behind[key]))


def wall(tasks, places, speed):
    """The seconds that tasks take with so many places, if a place does `speed` processor seconds in a second."""
    left, ended, running, now = in_order(tasks), set(), {}, 0
    while left or running:
        ready = [key for key in left if ended.issuperset(tasks[key][0])]
        for key in ready[: places - len(running)]:
            left.remove(key)
            running[key] = now + tasks[key][2] / speed
        now = min(running.values())
        ended.update(key for key, end in running.items() if end == now)
        running = {key: end for key, end in running.items() if end > now}
    return now


def speed_of(parts):
    """The processor seconds that a proof gets in a second. `parts` has the begin, the end and the processor seconds of each part."""
    proofs = [one for (_, part), one in parts.items() if part == "proof" and one[1] - one[0] > 30]
    return sum(one[2] for one in proofs) / sum(one[1] - one[0] for one in proofs) if proofs else 1


def foretold(parts, uses, places):
    """The minutes of a run by its schedule, from what its parts took."""
    lines, edits = {crate: lines_in(crate) for crate in uses}, {crate: edits_in(crate) for crate in uses}
    tasks = tasks_of({key: one[2] for key, one in parts.items()}, uses, lines, edits)
    return wall(tasks, places, speed_of(parts)) / 60
