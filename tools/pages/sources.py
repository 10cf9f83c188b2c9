"""The public items of a crate, read from its sources: functions, methods, traits and types, with their documentation and clauses."""

import functools
import re
from dataclasses import dataclass, field

from functions import IMPL, block_of

FUNCTION = re.compile(r"^ *(?P<public>pub )?(?:final )?(?:const )?(?:extern \S+ )?fn (?P<name>\w+)", re.MULTILINE)
CLAUSE = re.compile(r"(?:\s*//.*)*\s*\b(?P<sort>requires|ensures\*?)\s*(?P<name>\w*)\s*\{")
GHOST = re.compile(r"^    ghost (?P<name>\w+): \{(?P<type>.*?)\}(?: = \{(?P<default>.*?)\})?;", re.MULTILINE | re.DOTALL)
TYPE = re.compile(r"^pub (?P<sort>struct|enum|trait|const|type) (?P<name>\w+)", re.MULTILINE)
EXPORT = re.compile(r"^pub use ([\w:]+?)(?:::(\w+)|::\{([^}]*)\});", re.MULTILINE)
END = re.compile(r"(?:\s*//.*)*\s+(?=requires\b|ensures\b)|\s*\{\s*$|;\s*$", re.MULTILINE)


@dataclass
class Item:
    """A public item: its name with its type or module, its documentation, its first line and its clauses."""

    heading: str
    sort: str
    documentation: str
    signature: str
    source: object
    clauses: list = field(default_factory=list)


def one_line(text):
    """A text with each stretch of white space as one space."""
    text = re.sub(r"\s+", " ", text).strip()
    return re.sub(r",? \)", ")", re.sub(r"\( ", "(", text)) if "(" in text else text


def closing_of(text, begin):
    """The place of the brace that closes the one before a place."""
    depth = 1
    for at in range(begin, len(text)):
        depth += (text[at] == "{") - (text[at] == "}")
        if depth == 0:
            return at
    return len(text)


def documentation_of(text, begin):
    """The documentation that stands before an item."""
    lines = []
    for line in reversed(text[:begin].splitlines()):
        line = line.strip()
        if line.startswith("///"):
            lines.append(line[3:].removeprefix(" ").rstrip())
        elif not line.startswith(("#[", ")]")):
            break
    return "\n".join(reversed(lines))


def without_links(text):
    """A text whose links to items are the names alone."""
    return re.sub(r"\[(`[^`]*`)\](\([^)]*\))?|\[([^\]`]*)\]\([\w:]+\)", lambda link: link[1] or link[3], text)


def first_sentence(text):
    """The first sentence of a text."""
    paragraph = re.sub(r"\s+", " ", text.split("\n\n")[0]).strip()
    found = re.match(r".*?\.(?=\s+[A-Z`\[(]|$)", paragraph)
    return without_links(found[0] if found else paragraph)


def clauses_at(text, at):
    """The clauses that follow a signature: the sort, the name and the text of each."""
    found = []
    while clause := CLAUSE.match(text, at):
        end = closing_of(text, clause.end())
        found.append((clause["sort"], clause["name"], one_line(text[clause.end() : end])))
        at = end + 1
    return found


def function_at(text, head, kind, source):
    """A function: `kind` is the type or the trait around it."""
    end = END.search(text, head.end())
    begin = text.index("fn ", head.start())
    signature = one_line(text[begin : end.start()])
    heading = f"{kind}::{head['name']}" if kind else head["name"]
    return Item(heading, "fn", documentation_of(text, head.start()), signature, source, clauses_at(text, end.start()))


def fields_of(text, begin):
    """The text of a type, without comments and attributes."""
    opening = re.compile(r"\{|;$", re.MULTILINE).search(text, begin)
    if opening[0] == ";":
        return one_line(text[begin : opening.start()])
    inside = text[opening.end() : closing_of(text, opening.end())]
    lines = [line for line in inside.splitlines() if line.strip() and not line.strip().startswith(("//", "#["))]
    return text[begin : opening.start()].strip() + (" {\n" + "\n".join(lines) + "\n}" if lines else "")


def trait_at(text, head, source):
    """A trait, with its ghost members as clauses."""
    opening = text.index("{", head.end())
    end = closing_of(text, opening + 1)
    members = [
        ("ghost", m["name"], one_line(m["type"]) + (f", by default {one_line(m['default'])}" if m["default"] else ""))
        for m in GHOST.finditer(text, opening, end)
    ]
    return Item(head["name"], "trait", documentation_of(text, head.start()), one_line(text[head.start() + 4 : opening]), source, members)


def type_at(text, head, source):
    """A struct, an enum, a constant or an alias; private fields are left out, and two dots stand for them behind public fields."""
    shape = fields_of(text, head.start() + 4)
    if head["sort"] == "struct":
        lines = shape.splitlines()
        shown = [line.replace("pub ", "") for line in lines[1:-1] if line.startswith("    pub ")]
        dots = ["    ..,"] if any(re.match(r"    (?!pub )\w", line) for line in lines[1:-1]) else []
        shape = "\n".join([lines[0], *shown, *dots, "}"]) if shown else lines[0].removesuffix(" {")
    return Item(head["name"], head["sort"], documentation_of(text, head.start()), shape, source)


@functools.cache
def items_of(source, module=""):
    """The public items of a source file, and the members of its public traits."""
    text = source.read_text(encoding="utf-8")
    blocks = [(m.start(), m.end(), m["sort"], m["head"]) for m in IMPL.finditer(text)]
    found = []
    for head in TYPE.finditer(text):
        found.append((head.start(), trait_at(text, head, source) if head["sort"] == "trait" else type_at(text, head, source)))
    for head in FUNCTION.finditer(text):
        around = next((block for block in blocks if block[0] <= head.start() < block[1]), None)
        kind, trait = module, ""
        if around:
            kind, trait, _ = block_of(around[3])
            kind = re.sub(r"<.*", "", kind)
        if head["public"] and not trait or around and around[2] == "pub trait":
            found.append((head.start(), function_at(text, head, kind, source)))
    return [item for _, item in sorted(found, key=lambda pair: pair[0])]


class Crate:
    """A crate of the tree: the items that its callers can name."""

    def __init__(self, root, name):
        self.root, self.name = root, name
        self.sources = sorted((root / "crates" / name / "src").rglob("*.rt"))

    def exports(self):
        """The names that `lib.rt` re-exports, each with the crate that it comes from."""
        library = self.root / "crates" / self.name / "src" / "lib.rt"
        for path, name, names in EXPORT.findall(library.read_text(encoding="utf-8")):
            first = path.split("::")[0]
            crate = first if (self.root / "crates" / first).is_dir() else self.name
            for word in [name] if name else names.split(","):
                if word.strip():
                    yield word.strip(), crate

    def items(self):
        """The public items, in the order of the exports; those of `lib.rt` come first, and laws last."""
        folder = self.root / "crates" / self.name / "src"
        found = items_of(folder / "lib.rt")
        for name, crate in self.exports():
            found += Crate(self.root, crate).named(name)
        return found + self.laws()

    def laws(self):
        """The laws, and those that the module re-exports from other crates."""
        folder = self.root / "crates" / self.name / "src"
        found = []
        for source in [folder / "laws.rt", *sorted(folder.glob("laws/*.rt"))]:
            found += items_of(source, "laws") if source.exists() else []
        if (folder / "laws.rt").exists():
            text = (folder / "laws.rt").read_text(encoding="utf-8")
            for crate in re.findall(r"^pub use (\w+)::laws::", text, re.MULTILINE):
                found += Crate(self.root, crate).laws()
        return found

    def named(self, name):
        """The items of a name, in this crate or in one that it re-exports it from."""
        own = [item for source in self.sources for item in items_of(source) if item.heading == name or item.heading.startswith(f"{name}::")]
        if own:
            return sorted(own, key=lambda item: item.heading != name)
        return next((Crate(self.root, crate).named(name) for word, crate in self.exports() if word == name and crate != self.name), [])
