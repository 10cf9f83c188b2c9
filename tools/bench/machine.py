"""What the measurements share: the words of a call, processor time, and files of times."""

import argparse
import datetime
import os
import pathlib
import platform
import re
import resource
import subprocess


def parser(*places, words=True):
    """What reads the words of a call: these places, `--write FILE`, and the WORDs that choose what is measured."""
    given = argparse.ArgumentParser()
    for place in places:
        given.add_argument(place)
    given.add_argument("--write", metavar="FILE")
    if words:
        given.add_argument("words", nargs="*")
    return given


def is_wanted(name, words):
    """Whether a name holds one of the words, if there are any."""
    return not words or any(word in name for word in words)


def seconds(words, path=os.devnull):
    """The processor time of one run over an input."""
    before = resource.getrusage(resource.RUSAGE_CHILDREN)
    with open(path, "rb") as given:
        subprocess.run(words, stdin=given, stdout=subprocess.DEVNULL, check=True)
    after = resource.getrusage(resource.RUSAGE_CHILDREN)
    return after.ru_utime + after.ru_stime - before.ru_utime - before.ru_stime


def file_of_times(heads, rows, **told):
    """The text of a file that `page.py` makes a table of: the version, the day, the machine and what else is told of a run, the heads, and the rows, which are texts."""
    here = pathlib.Path(__file__).parent
    version = subprocess.run(["git", "rev-parse", "--short", "HEAD"], capture_output=True, text=True, cwd=here).stdout.strip()
    model = re.search(r"model name\s*: (.*)", pathlib.Path("/proc/cpuinfo").read_text(encoding="utf-8"))
    day = datetime.date.today()
    machine = f"{model[1] if model else platform.machine()}, {os.cpu_count()} cores"
    about = {"version": version, "date": f"{day.day} {day:%B %Y}", "machine": machine, **told}
    return "".join([*(f"# {name}\t{value}\n" for name, value in about.items()), *("\t".join(row) + "\n" for row in (heads, *rows))])


def write(file, *table, **told):
    """Writes a file of times."""
    pathlib.Path(file).write_text(file_of_times(*table, **told), encoding="utf-8")
