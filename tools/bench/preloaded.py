"""What a program asks of memory, counted by the library of `refusals/refuse.c`, which is preloaded and here refuses nothing."""

import os
import re
import subprocess
import tempfile

SOURCE = os.path.join(os.path.dirname(os.path.abspath(__file__)), "..", "refusals", "refuse.c")


def library(folder):
    """The library, built."""
    built = os.path.join(folder, "refuse.so")
    subprocess.run(["cc", "-O2", "-shared", "-fPIC", "-o", built, SOURCE], check=True)
    return built


def asked(preload, words, path=os.devnull):
    """The allocations that a run makes over an input, and the most memory that it has, in MB."""
    with tempfile.TemporaryFile() as told, open(path, "rb") as given:
        how = {"LD_PRELOAD": preload, "REFUSE": "0", "TELL": str(told.fileno())}
        subprocess.run(words, stdin=given, stdout=subprocess.DEVNULL, env={**os.environ, **how}, pass_fds=(told.fileno(),), check=True)
        told.seek(0)
        text = told.read().decode()
    requests, most = re.search(r"^requests: (\d+)", text), re.search(r"^VmHWM:\s+(\d+) kB", text, re.MULTILINE)
    return int(requests[1]), int(most[1]) * 1024 / 1e6
