"""Wrong bodies, as they stand in text files, and their places in the source files."""

import re
from pathlib import Path

MARGIN = "    "
# A comma between names, and not between the parts of a tuple.
COMMA = re.compile(r", (?![^(]*\))")


class Unfit(Exception):
    """A body that can't be read, or that doesn't fit its source file."""


class Body:
    """A wrong body: the function that it changes, what is wrong, the functions of the same form, and the texts that it replaces."""

    def __init__(self, crate, page, line, heading):
        self.crate, self.page, self.line = crate, page, line
        self.function, _, self.what = heading.partition(": ")
        self.like, self.pairs = [], []
        # What the check calls the function.
        self.verdict = None
        # The written answers that don't fit the body, by file; whether one names what the body took away; how often some were found.
        self.cuts, self.lost, self.rounds = set(), False, 0

    @property
    def source(self):
        """The source file of the body, from the folder of its crate."""
        return Path("src") / self.page.relative_to(folder_of(self.page)).with_suffix(".rt")

    def __str__(self):
        name = self.page.relative_to(folder_of(self.page)).with_suffix("")
        return f"{self.crate} {name} {self.function}: {self.what}"

    def apply(self, text):
        """The text of the source file with the wrong body."""
        for old, new in self.pairs:
            places = list(places_of(text, old))
            if len(places) != 1:
                raise Unfit(f"`{old[0]}` stands {len(places)} times in {self.source}, and not once")
            at, found, pad = places[0]
            text = text[:at] + laid_out(new, pad) + text[at + len(found) :]
        return text


def folder_of(page):
    """The folder `wrong-bodies` that a text file stands in."""
    return next(folder for folder in page.parents if folder.name in ("wrong-bodies", "self-test"))


def laid_out(lines, pad):
    """Lines as one text. All but the first are indented by `pad`."""
    return "\n".join(line if at == 0 or not line else pad + line for at, line in enumerate(lines))


def places_of(text, lines):
    """Each place where lines stand in a text, the text there, and the indentation of the line that it begins in."""
    at = text.find(lines[0])
    while at >= 0:
        begin = text.rfind("\n", 0, at) + 1
        pad = re.match(" *", text[begin:])[0]
        found = laid_out(lines, pad)
        if text.startswith(found, at):
            yield at, found, pad
        at = text.find(lines[0], at + 1)


def read(page, crate):
    """The bodies of a text file."""
    bodies, block = [], None
    for number, line in enumerate(page.read_text(encoding="utf-8").splitlines(), 1):
        if line.startswith("# "):
            bodies.append(Body(crate, page, number, line[2:]))
            block = None
        elif line.startswith("like ") and bodies and not bodies[-1].pairs:
            bodies[-1].like += COMMA.split(line[5:])
        elif line == "replace" and bodies:
            bodies[-1].pairs.append(([], []))
            block = bodies[-1].pairs[-1][0]
        elif line == "by" and bodies and bodies[-1].pairs:
            block = bodies[-1].pairs[-1][1]
        elif line.startswith(MARGIN) and block is not None:
            block.append(line[len(MARGIN) :])
        elif line.strip() or (line and block is None):
            raise Unfit(f"{page}:{number}: neither a heading, `like`, `replace`, `by`, nor a text with {len(MARGIN)} spaces in front")
        elif block is not None:
            block.append("")
    for body in bodies:
        finish(body)
    return bodies


def finish(body):
    """Drops the empty lines at the end of each text, and refuses a body that says too little."""
    for pair in body.pairs:
        for block in pair:
            while block and not block[-1]:
                block.pop()
    if not body.what or not body.pairs or not all(old for old, _ in body.pairs):
        raise Unfit(f"{body.page}:{body.line}: a body is `# FUNCTION: what is wrong`, and then `replace` and `by`")


def pages_of(crate_folder):
    """The text files of a crate."""
    return sorted((crate_folder / "wrong-bodies").rglob("*.txt"))
