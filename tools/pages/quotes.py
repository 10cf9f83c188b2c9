"""Contracts, lists of calls and code, as they stand in the sources."""

import os
import re
import textwrap
from fnmatch import fnmatchcase

from sources import Crate, first_sentence, without_links


class Unmade(Exception):
    """A part that can't be made."""


def shape_of(item):
    """The signature of a function with its type, or the shape of a type."""
    if item.sort == "fn":
        return item.signature.replace("fn " + item.heading.split("::")[-1], f"fn {item.heading}", 1)
    line = re.sub(r",? \}$", " }", " ".join(item.signature.split()))
    # A line ends behind a whole field.
    lines = textwrap.wrap(line.replace(": ", ":\u00a0"), 140, subsequent_indent="    ", break_long_words=False, break_on_hyphens=False)
    return "\n".join(lines).replace("\u00a0", " ")


def shared(item, earlier):
    """The clauses that an item shares with the earlier one that shares the most, if there are two: that item, and the clauses."""
    pairs = [(other, [clause for clause in item.clauses if clause in other.clauses and clause[1]]) for other in earlier]
    other, clauses = max(pairs, key=lambda pair: len(pair[1]), default=(None, []))
    return (other, clauses) if len(clauses) > 1 else (None, [])


def told(item):
    """The documentation of an item, line by line as it stands in the source."""
    return [f"/// {line}".rstrip() for line in without_links(item.documentation).splitlines()]


def contract(item, earlier):
    """A public item: what is told of it, its signature and its clauses. Clauses that an earlier item has too are only named."""
    lines = told(item) + shape_of(item).splitlines()
    other, same = shared(item, earlier)
    for clause in item.clauses:
        sort, name, text = clause
        if clause not in same:
            lines.append(f"  {sort} {name}: {text}" if name else f"  {sort}: {text}")
    if other:
        lines.append(f"  {', '.join(name for _, name, _ in same)}: as for {other.heading}")
    return "\n".join(lines) + "\n"


def sources_of(items, page_folder):
    """A line with a link to each source of some items, and the items in it: a type stands for its methods in the file that defines it, or has most of them."""
    files, of_kind = {}, {}
    for item in items:
        kind = item.heading.split("::")[0]
        files.setdefault(item.source, []).append((kind, item.heading))
        of_kind.setdefault(kind, []).append(item.source)
    most = {kind: max(found, key=found.count) for kind, found in of_kind.items() if kind != "laws"}
    most.update({item.heading: item.source for item in items if item.sort != "fn"})
    links = []
    for file, own in files.items():
        names = dict.fromkeys(f"`{kind if most.get(kind) == file else heading}`" for kind, heading in own)
        links.append(f"[`{file.stem}`]({os.path.relpath(file, page_folder)})" + (f": {', '.join(names)}" if len(files) > 1 else ""))
    return f"Source{'s' if len(links) > 1 else ''}: {'; '.join(links)}.\n"


def contracts(items, page_folder):
    """The contracts of items, with an empty line before each item that has a comment of several lines, and before each type."""
    text, before, was_long = "", None, False
    for place, item in enumerate(items):
        kind, is_long = item.heading.split("::")[0], len(told(item)) > 1
        text += ("\n" if before and (kind != before or is_long or was_long) else "") + contract(item, items[:place])
        before, was_long = kind, is_long
    return f"```text\n{text}```\n\n{sources_of(items, page_folder)}"


def summary(items, page_folder):
    """A table of items with their first sentences. The methods of a type stand in its row."""
    rows = {}
    for item in items:
        kind, _, name = item.heading.partition("::")
        if name and kind in rows:
            rows[kind][0].append(f"`{name}`")
        else:
            rows[item.heading] = ([f"`{item.heading}`"], first_sentence(item.documentation), item.source)
    text = "| Name | What it is | File |\n|---|---|---|\n"
    for names, sentence, source in rows.values():
        first, *others = names
        link = f"[`{source.stem}`]({os.path.relpath(source, page_folder)})"
        text += f"| {first}{': ' if others else ''}{', '.join(others)} | {sentence} | {link} |\n".replace("\\|", "|")
    return text


def is_asked(item, patterns):
    """Whether a pattern names an item, or the type or the trait that it is a part of."""
    return any(fnmatchcase(item.heading, pattern) or item.heading.startswith(f"{pattern}::") for pattern in patterns)


def rank(item, patterns):
    """The place of the first pattern that names an item."""
    return next((place for place, pattern in enumerate(patterns) if is_asked(item, [pattern])), len(patterns))


class Quotes:
    """The parts of a page that quote crates. Each item stands in the first part that asks for it; `*` asks for those that no other part does."""

    def __init__(self, root, page, orders):
        self.root, self.page, self.items, self.place = root, page, {}, 0
        asked = [order.split() for order in orders if order.split()[0] in ("contracts", "summary")]
        self.named = [(words[1].rstrip(":"), [word for word in words[2:] if word != "*" and word[0] != "-"]) for words in asked]
        for crate in {crate for crate, _ in self.named}:
            self.items[crate] = Crate(root, crate).items()
        self.taken, before = [], set()
        for (crate, patterns), words in zip(self.named, asked):
            without = [word[1:] for word in words if word[0] == "-"]
            self.taken.append({id(item) for item in self.items[crate] if is_asked(item, patterns) and not is_asked(item, without)} - before)
            before |= self.taken[-1]

    def faults(self):
        """Names that name no item. A name with a `*` may have none."""
        for crate, patterns in self.named:
            for pattern in patterns:
                if "*" not in pattern and not any(is_asked(item, [pattern]) for item in self.items[crate]):
                    yield f"`{pattern}` names nothing that {crate} exports"

    def part(self, order):
        """A part: contracts or a summary of the items that it asks for, in the order of its names."""
        kind, _, *words = order.split()
        crate, patterns = self.named[self.place]
        wanted = set(self.taken[self.place])
        if "*" in words:
            without = [word[1:] for word in words if word[0] == "-"]
            wanted |= {id(item) for item in self.items[crate] if not is_asked(item, without)} - set().union(*self.taken)
        self.place += 1
        items = sorted((item for item in self.items[crate] if id(item) in wanted), key=lambda item: rank(item, patterns))
        if not items:
            raise Unmade(f"{order}: nothing is left for this part")
        return contracts(items, self.page.parent) if kind == "contracts" else summary(items, self.page.parent)


def block_from(text, name):
    """The lines of an item of a file: from its documentation to the line of its last brace."""
    head = re.search(rf"^( *)(?:pub )?(?:fn|struct|enum|impl|trait) (?:[\w<>: ]* )?{re.escape(name)}\b.*$", text, re.MULTILINE)
    if not head:
        return None
    lines = text[: head.start()].splitlines(keepends=True)
    begin = head.start()
    while lines and lines[-1].strip().startswith(("///", "#[")):
        begin -= len(lines.pop())
    opening = re.compile(r"\{$|\{\}$|;$", re.MULTILINE).search(text, head.start())
    end = re.compile(rf"^{head[1]}\}}$", re.MULTILINE).search(text, head.start()) if opening[0] == "{" else opening
    return text[begin : end.end()] + "\n"


def code(root, order):
    """Code of a file: the items of these names, or the whole file."""
    _, path, *names = order.split()
    text = (root / "crates" / path).read_text(encoding="utf-8")
    language = "antt" if path.endswith(".antt") else "rust"
    parts = [(name, block_from(text, name)) for name in names] if names else [("", text)]
    for name, part in parts:
        if part is None:
            raise Unmade(f"{path} has no `{name}`")
    return "\n".join(f"```{language} {path}\n{part}```\n" for _, part in parts)
