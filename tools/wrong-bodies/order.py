"""The order of crates where the time for their wrong bodies is bounded."""

import subprocess
import time

from tree import ROOT

# A change is the commits since the last pause of two hours between two commits, in seconds.
PAUSE = 2 * 3600
# The other crates begin with another of so many parts every six hours. At the same hour of each day each part begins once in five days.
PARTS, TURN = 5, 6 * 3600


def git(*words):
    """What a command of git prints, or nothing where there is no repository."""
    ran = subprocess.run(["git", *words], cwd=ROOT, stdin=subprocess.DEVNULL, capture_output=True, text=True, check=False)
    return ran.stdout if ran.returncode == 0 else ""


def changed_by(log):
    """The crates that the last commits changed, back to a pause. The log has `@` and a time for each commit, the newest first, and then its files."""
    names, before = set(), None
    for line in log.splitlines():
        if line.startswith("@"):
            at = int(line[1:])
            if before is not None and before - at > PAUSE:
                break
            before = at
        elif line.startswith("crates/") and line.count("/") > 1:
            names.add(line.split("/")[1])
    return names


def in_turn(names, first, now):
    """The crates of `first`, and then the other crates from one of their parts on. Both begin with another crate every six hours."""
    order, turn = [], int(now // TURN) % PARTS
    for part in (sorted(set(names) & first), sorted(set(names) - first)):
        at = len(part) * turn // PARTS
        order += part[at:] + part[:at]
    return order


def bounded(names):
    """The order of crates of which only some may be tried: those that were changed, and then the other crates in turn."""
    log = git("log", "--no-merges", "--max-count=1000", "--format=@%ct", "--name-only")
    return in_turn(names, changed_by(log), time.time())
