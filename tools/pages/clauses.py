"""The words of the repository's own definitions that public clauses use."""

import re

from functions import IMPL, block_of, functions_of
from sources import closing_of
from words import defines, text_of

IMPORT = re.compile(r"ghost use Rattle\.(\w+)\.specs\.([^;{]*\{[^;]+\});")
CLAUSE = re.compile(r"\b(?:requires|ensures\*?)\s*\w*\s*\{")
PUBLIC = re.compile(r" *pub (?:const )?(?:extern \S+ )?fn ")
MEMBER = re.compile(r"^ *ghost (?!use)\w+[^{]*\{", re.MULTILINE)
TRAIT = re.compile(r"^pub trait (\w+)", re.MULTILINE)
# Declarations that the check makes from the sources.
DECLARED = ("declared", "TheVariants")


def block_at(text, begin):
    """The text in the braces that open before a place."""
    return text[begin : closing_of(text, begin)]


def parts_of(group):
    """The parts of a list with braces in it, cut at the commas outside the braces."""
    depth, part = 0, ""
    for character in group + ",":
        depth += (character == "{") - (character == "}")
        if character == "," and depth == 0:
            yield part.strip()
            part = ""
        else:
            part += character


def words_in(path, rest):
    """The words of an import, each with its module: `A.b`, `A.{b, c as d}` or `{A.{b, c}, B.d}`."""
    module, brace, group = rest.partition("{")
    if brace:
        for part in parts_of(group[: group.rindex("}")]):
            yield from words_in(path + module, part)
    else:
        module, _, word = (path + rest).rpartition(".")
        yield module, word


def imports_of(text, own):
    """The words that a source file imports from a crate's own definitions, each with its module."""
    for crate, rest in IMPORT.findall(text):
        for module, word in words_in("", " ".join(rest.split())):
            if crate in own and not any(part in DECLARED for part in module.split(".")):
                name, _, alias = word.partition(" as ")
                yield alias or name, name, crate, module


def traits_of(source):
    """The public traits of the crate of a source file."""
    folder = next(parent for parent in source.parents if parent.name == "src")
    return {name for file in folder.rglob("*.rt") for name in TRAIT.findall(text_of(file))}


def members_in(text, blocks):
    """The ghost members of the traits and of the types of some blocks."""
    return [block_at(text, member.end()) for begin, end in blocks for member in MEMBER.finditer(text, begin, end)]


def public_clauses(text):
    """The clauses of public functions, and of the members of public traits."""
    traits = [(m.start(), m.end()) for m in IMPL.finditer(text) if m["sort"] == "pub trait"]
    functions = [(f.begin, f.end) for f in functions_of(text) if PUBLIC.match(text, f.begin)]
    clauses = [block_at(text, clause.end()) for begin, end in functions + traits for clause in CLAUSE.finditer(text, begin, end)]
    return "\n".join(clauses + members_in(text, traits))


def members_of_types(text, own_traits):
    """The members that types have for traits of their crate. Some of them are proofs."""
    return "\n".join(members_in(text, [(m.start(), m.end()) for m in IMPL.finditer(text) if block_of(m["head"])[1] in own_traits]))


def file_of(root, crate, module, name, own):
    """The file that defines a word: in the crate that it is imported from, or in one that this crate re-exports it from."""
    path = f"specs/{module.replace('.', '/')}.antt"
    files = [root / "crates" / each / path for each in [crate, *own]]
    return next((file for file in files if file.exists() and defines(file, name)), files[0])


def words_of(root, sources, own):
    """The words that public clauses and members of types use: each with the file that defines it, and a file that uses it."""
    found = {}
    for source in sources:
        text = text_of(source)
        clauses, members = public_clauses(text), members_of_types(text, traits_of(source))
        for alias, name, crate, module in imports_of(text, own):
            word = re.compile(rf"(?<![\w-]){re.escape(alias)}(?![\w-])")
            if word.search(clauses) or "Lemmas" not in module and word.search(members):
                found.setdefault((name, file_of(root, crate, module, name, own)), source)
    return found
