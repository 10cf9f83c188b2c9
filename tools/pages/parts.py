"""The parts of a page that a script makes: each stands between a line `<!-- made: KIND.. -->` and a line `<!-- end -->`."""

import re

from tree import ROOT

PART = re.compile(r"^<!-- made: (?P<order>[^\n]*) -->\n(?P<text>.*?)^<!-- end -->$", re.MULTILINE | re.DOTALL)


def pages():
    """The pages of the repository."""
    return sorted(page for folder in ("", "docs", "tools", "crates/*") for page in ROOT.glob(f"{folder}/*.md".lstrip("/")))


def orders_of(page):
    """What a page asks for, in order."""
    return [part["order"] for part in PART.finditer(page)]


def filled(page, made):
    """A page with these texts as its parts."""
    texts = iter(made)
    return PART.sub(lambda part: f"<!-- made: {part['order']} -->\n{next(texts)}<!-- end -->", page)
