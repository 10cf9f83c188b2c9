"""The public functions that have no wrong body, and none like them has one."""

import re

from bodies import Unfit
from functions import function_of, functions_of

# Methods whose meaning is in their trait's ghost members, or that only forward.
LEFT_OUT = ("clone", "eq", "cmp", "drop", "view", "model")


def print_missing(root, bodies):
    """Prints the public functions without a wrong body, by crate."""
    covered, others = set(), {}
    for crate, of_crate in bodies.items():
        methods, others[crate] = looked_at(root / "crates" / crate, of_crate)
        covered |= methods
    # A method of a trait needs none if another implementation's has one.
    missing = {crate: [name for method, name in of_crate if method not in covered] for crate, of_crate in others.items()}
    for crate, names in missing.items():
        print(f"{crate}: {len(names)}", *names, sep="\n    ")
    print(f"{sum(map(len, missing.values()))} public functions have none")
    return 0


def looked_at(folder, bodies):
    """The methods of traits that a body or an edit of a crate changes, and the public functions that none changes, and none of the same form: each with the method that it is, if it is one."""
    edits = [page.stem.partition("__")[0] for page in (folder / "must-fail").glob("*.edit")]
    covered, others = set(), []
    for source in sorted((folder / "src").rglob("*.rt")):
        path, text = source.relative_to(folder), source.read_text(encoding="utf-8")
        here = [body for body in bodies if body.source == path]
        changed, like = functions_with_one(here, text), [name for body in here for name in body.like]
        for function in functions_of(text):
            method = function.of_trait and (function.of_trait, function.name)
            if function.begin in changed or has_edit(path, function, edits):
                covered.add(method)
            elif not any(function.is_called(name) for name in like) and is_told(path, function):
                others.append((method, f"{path.relative_to('src').with_suffix('')} {function.heading}"))
    return covered - {""}, others


def functions_with_one(bodies, text):
    """Where the functions begin that bodies change."""
    found = set()
    for body in bodies:
        try:
            found.add(function_of(body, text)[0].begin)
        except Unfit:
            continue
    return found


def has_edit(path, function, edits):
    """Whether a file of must-fail/ changes a function: its name begins with the names of the module and of the function."""
    stem = "_".join(path.with_suffix("").parts[1:])
    return any(edit.startswith(stem) and re.search(rf"(?:^|_){re.escape(function.name)}$", edit) for edit in edits)


def is_told(path, function):
    """Whether a function without a body is printed: a public one that isn't a law, nor forwards for a chain of calls."""
    parts = path.with_suffix("").parts[1:]
    return function.is_public and function.name not in LEFT_OUT and "laws" not in parts and parts[-1] != "chain"
