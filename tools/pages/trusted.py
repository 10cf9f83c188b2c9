"""The files of definitions that a reader must believe, by crate."""

import re

from tree import ROOT, crates, needed

# A definition, which clauses may cite. Files without one hold lemmas.
DEFINITION = re.compile(r"^ *(?:(?:abbrev|unfoldable) )*(?:pub (?:data|record)|(?:abbrev|unfoldable) pub|(?:abbrev|unfoldable) mutual)\b", re.MULTILINE)
# The crates whose definitions are the format itself, and those that stand on them for its calls.
OWN = "rlp"
# How the names of files end that hold mostly proofs, which nobody has to believe.
PROVED = "Laws"


def files_of(names, without=()):
    """The files of definitions of these crates and of those below them, by crate. Those of `rlp` and below are left out, unless it is named."""
    left_out, found = needed([*([] if OWN in names else [OWN]), *without], crates()), {}
    for name in needed(names, crates()):
        files = sorted((ROOT / "crates" / name / "specs").rglob("*.antt"))
        files = [file for file in files if file.stem != "Lib" and DEFINITION.search(file.read_text(encoding="utf-8"))]
        if files and name not in left_out:
            found[name] = files
    return found


def links_to(files):
    return ", ".join(f"[`{file.stem}`](../{file.relative_to(ROOT)})" for file in files)


def table_of_files(order):
    """A row for each crate. The order names crates, and after a `-` those whose files stand elsewhere."""
    names = order.split()[1:]
    tops = [name for name in names if not name.startswith("-")]
    without = [name[1:] for name in names if name.startswith("-")]
    text = "| Crate | Files | Definitions |\n|---|---|---|\n"
    for crate, files in files_of(tops, without).items():
        proved = [file for file in files if file.stem.endswith(PROVED) and file.stem != PROVED]
        links = links_to(file for file in files if file not in proved)
        if proved:
            links += f"; with definitions in front of proofs, of which only the definitions need be right: {links_to(proved)}"
        text += f"| [`{crate}`](../crates/{crate}) | {len(files)} | {links} |\n"
    return text
