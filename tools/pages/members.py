"""The ghost members that types have for a trait, as a table."""

import re

from functions import IMPL, block_of
from sources import Crate, one_line

MEMBER = re.compile(r"^ *ghost (?!use\b)(\w+) = \{(.*?)\};", re.MULTILINE | re.DOTALL)


def hidden_in(root, crate):
    """The types of a crate that it doesn't export."""
    own = Crate(root, crate)
    exported = {name for name, _ in own.exports()}
    texts = (source.read_text(encoding="utf-8") for source in own.sources)
    return {name for text in texts for name in re.findall(r"^(?:pub(?:\([a-z]+\))? )?(?:struct|enum) (\w+)", text, re.MULTILINE)} - exported


def members_of(root, crate, traits):
    """The types of a crate that have one of the traits: for each the members."""
    hidden = hidden_in(root, crate)
    for source in sorted((root / "crates" / crate / "src").rglob("*.rt")):
        text = source.read_text(encoding="utf-8")
        for block in IMPL.finditer(text):
            trait = block_of(block["head"])[1]
            kind = re.sub(r"'\w+ ", "", block["head"].partition(" for ")[2].strip())
            if block["sort"] == "impl" and trait in traits and re.sub("<.*", "", kind) not in hidden:
                yield kind, {name: one_line(value) for name, value in MEMBER.findall(block["inside"])}


def table_of_members(root, order):
    """A row for each type, with a column for each member; `order` names the members, the traits and the crates."""
    _, names, traits, crates = (part.split() for part in re.split(r"members | of | in ", order))
    rows = {}
    for crate in crates:
        for kind, members in members_of(root, crate, traits):
            rows.setdefault(kind, {}).update(members)
    text = "| Type | " + " | ".join(f"`{name}`" for name in names) + " |\n" + "|---" * (len(names) + 1) + "|\n"
    for kind, members in rows.items():
        if all(name in members for name in names):
            cells = [f"`{kind}`", *(f"`{members[name]}`" for name in names)]
            text += "| " + " | ".join(cell.replace("|", "\\|") for cell in cells) + " |\n"
    return text
