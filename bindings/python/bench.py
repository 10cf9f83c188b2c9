"""bench.py FILE: nanoseconds of processor time for one call over the bytes of a file, by the library and by plain Python."""

import pathlib
import sys
import time

sys.path.insert(1, str(pathlib.Path(__file__).resolve().parent / "tests"))

import plain
import rlp_proved

RUNS = 15
SECONDS = 0.01


def run(call, value, rounds):
    """The processor time of some rounds."""
    start = time.process_time_ns()
    for _ in range(rounds):
        call(value)
    return time.process_time_ns() - start


def measure(name, call, value):
    """Prints the shortest time of some runs, each of enough rounds to be measured."""
    rounds = 1
    while run(call, value, rounds) < SECONDS * 5e8:
        rounds *= 2
    print(name, round(min(run(call, value, rounds) for _ in range(RUNS)) / rounds, 1))


def main():
    data = pathlib.Path(sys.argv[1]).read_bytes()
    value = rlp_proved.decode(data)
    measure("decode", rlp_proved.decode, data)
    measure("is_canonical", rlp_proved.is_canonical, data)
    measure("encode", rlp_proved.encode, value)
    measure("plain_decode", plain.decode, data)
    measure("plain_encode", plain.encode, value)


main()
