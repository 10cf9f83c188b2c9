"""The inputs that are measured: for each kind a function that gives its lines from a source of random numbers."""

import pathlib
import sys

sys.path.append(str(pathlib.Path(__file__).resolve().parents[1] / "fuzz"))

from answers import encoded_list as list_of
from answers import encoded_string as string


def number(source, most):
    """The digits of a number of at most `most` bytes."""
    return source.randbytes(source.randint(0, most)).lstrip(b"\0")


def fields(source):
    """The nine fields of a legacy transaction."""
    return [
        number(source, 4), number(source, 5), number(source, 4), source.randbytes(20), number(source, 10),
        source.randbytes(source.randint(0, 170)), bytes([source.choice((27, 28, 37, 38))]), source.randbytes(32),
        source.randbytes(32),
    ]


def transaction(source):
    return list_of([string(field) for field in fields(source)])


def tree(source, depth):
    """Lists of eight items, and strings of up to 40 bytes at the ends."""
    if depth == 0:
        return string(source.randbytes(source.randint(0, 40)))
    return list_of([tree(source, depth - source.choice((1, 1, depth))) for _ in range(8)])


def nested(source, levels):
    item = string(source.randbytes(4))
    for _ in range(levels):
        item = list_of([string(source.randbytes(source.randint(0, 8))), item])
    return item


def piece(value):
    return "d:" + value.hex()


def lines_of(calls):
    """A line of calls, as text."""
    return "+" + " ".join(calls)


VIEWS = {
    "small transactions": transaction,
    "blocks of 100 transactions": lambda source: list_of([transaction(source) for _ in range(100)]),
    "strings of 60,000 bytes": lambda source: string(source.randbytes(60_000)),
    "lists of 60,000 one-byte items": lambda source: list_of([bytes([source.randrange(0x80)]) for _ in range(60_000)]),
    "nesting to 200": lambda source: nested(source, 199),
    "a wide tree": lambda source: tree(source, 4),
}

SCRIPTS = {
    "script: transactions": lambda source: ["l:9"] + [piece(field) for field in fields(source)],
    "script: 20,000 flat pieces": lambda source: ["l:20000"] + [piece(source.randbytes(1)) for _ in range(20_000)],
    "script: 200 nested lists": lambda source: ["u", piece(source.randbytes(4))] * 200 + ["e"] * 200,
    "script: 5,000 lists closed by one call": lambda source: ["l:1"] * 5_000 + [piece(source.randbytes(4))],
    "script: 5,000 lists closed one by one": lambda source: ["u"] * 5_000 + [piece(source.randbytes(4))] + ["e"] * 5_000,
    "script: raw pieces": lambda source: ["u"] + ["r:1:" + transaction(source).hex() for _ in range(100)] + ["e"],
    "script: strings of 60,000 bytes": lambda source: [piece(source.randbytes(60_000))],
}


def kinds():
    """The names of the kinds, each with the function that gives a line."""
    found = {name: (lambda source, make=make: make(source).hex()) for name, make in VIEWS.items()}
    found.update({name: (lambda source, make=make: lines_of(make(source))) for name, make in SCRIPTS.items()})
    return found
