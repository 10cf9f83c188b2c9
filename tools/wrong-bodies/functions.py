"""The functions of a source file, and what the check calls them."""

import re
from os.path import commonprefix

from bodies import Unfit

FUNCTION = re.compile(r"^( *)(?P<public>pub )?(?:pub\([a-z ]+\) )?(?:final )?(?:const )?(?:unsafe )?(?:extern \S+ )?fn (?P<name>\w+)", re.M)
IMPL = re.compile(r"^(?P<sort>impl|(?:pub )?trait)\b(?P<head>[^{]*?)\s*\{\n(?P<inside>.*?)^\}", re.M | re.S)


class Function:
    """A function: its name, the type, the trait and the parameters of the block around it, and where it stands in the text."""

    def __init__(self, name, block, in_trait, is_public, begin, end):
        self.name = name
        self.kind, self.trait, self.parameters = block
        # The trait that it is a method of, also if it stands in the trait itself.
        self.of_trait = self.kind if in_trait else self.trait
        self.is_public, self.begin, self.end = is_public, begin, end

    @property
    def heading(self):
        """The name with its type."""
        return f"{self.kind}::{self.name}" if self.kind else self.name

    def is_called(self, heading):
        return heading in (self.name, self.heading, re.sub("<.*?>", "", self.heading))


def without_brackets(text):
    """Takes the `<..>` away that a text begins with."""
    depth = 0
    for at, sign in enumerate(text):
        depth += (sign == "<") - (sign == ">" and text[at - 1] != "-")
        if depth == 0:
            return text[at + 1 :] if text.startswith("<") else text
    return text


def block_of(head):
    """The type, the trait and the parameters that the head of an `impl` or a `trait` names."""
    rest = without_brackets(head.strip())
    parameters = re.findall(r"(\w+)(?=[:,>])", head.strip()[: len(head.strip()) - len(rest)])
    text = re.split(r"\bwhere\b", rest)[0].strip()
    trait, has_trait, kind = text.partition(" for ")
    if not has_trait:
        trait, kind = "", re.split(r":(?!:)", text)[0]
    kind = re.sub(r"'\w+,? ?", "", kind.strip())
    trait = re.sub(r"<.*", "", trait).strip().split("::")[-1]
    return kind.replace("<>", ""), trait, parameters


def functions_of(text):
    """The functions of a source file, in order."""
    blocks = [(m.start(), m.end(), block_of(m["head"]), m["sort"]) for m in IMPL.finditer(text)]
    heads = list(FUNCTION.finditer(text))
    found = []
    for m, later in zip(heads, [*heads[1:], None]):
        block, sort = next((block[2:] for block in blocks if block[0] <= m.start() < block[1]), (("", "", []), ""))
        # A law's body is `{}`, which has nothing to change.
        last = re.compile(rf"^{m[1]}(?:\{{)?\}}$", re.M).search(text, m.end(), later.start() if later else len(text))
        end = last.end() if last else text.find("\n", m.end())
        has_body = text[:end].endswith("}") and not (last and last[0].endswith("{}"))
        is_public = has_body and bool(m["public"] or block[1] or sort == "pub trait")
        found.append(Function(m["name"], block, "trait" in sort, is_public, m.start(), end))
    return found


def changed(before, after):
    """Where the changed part of a text begins and ends."""
    begin = len(commonprefix((before, after)))
    return begin, len(before) - len(commonprefix((before[begin:][::-1], after[begin:][::-1])))


def function_of(body, text):
    """The function that a body names, and whether the body changes nothing else."""
    functions = functions_of(text)
    for name in (body.function, *body.like):
        if not any(f.is_called(name) for f in functions):
            raise Unfit(f"{body.source} has no function `{name}`")
    named = [f for f in functions if f.is_called(body.function)]
    begin, end = changed(text, body.apply(text))
    around = [f for f in named if f.begin <= begin and end <= f.end]
    near = around or [f for f in named if f.begin <= end and begin <= f.end] or named
    if len({(f.kind, f.trait) for f in near}) > 1:
        raise Unfit(f"`{body.function}` is the name of {len(near)} functions of {body.source}")
    return near[0], bool(around)


def camel(kind, parameters):
    """How the check writes a type in front of a trait: its words but the parameters, with their first letters in upper case."""
    if kind == "()":
        return "Unit"
    if kind.startswith("("):
        inside = re.sub("<.*?>", "", kind[1:-1])
        return f"Tuple{len([part for part in inside.split(',') if part.strip()])}"
    signs = re.sub(r"\[(\w+);", r" Array \1 ", kind.replace("&", " Ref ")).replace("[", " Slice ")
    words = [word for word in re.findall(r"\w+", re.sub(r"\w+::", "", signs)) if word not in parameters]
    return "".join(word[0].upper() + word[1:] for word in words)


def verdict_of(function, crate, source, verdicts):
    """The name of a function's verdict, of those that a check printed."""
    parts = [part for part in source.with_suffix("").parts[1:] if part not in ("lib", "mod")]
    module = "::".join([crate, *parts])
    if not function.kind:
        found = [name for name in verdicts if name == f"{module}::{function.name}"]
    else:
        found = methods_of(function, crate, verdicts)
        # A method stands in the module of its type, also if its `impl` stands in another.
        found = [name for name in found if name.startswith(f"{module}::")] or found
    if len(found) != 1:
        raise Unfit(f"the check has {len(found)} verdicts on `{function.heading}`")
    return found[0]


def methods_of(function, crate, verdicts):
    """The verdicts that may be on a method."""
    ends = [name for name in verdicts if name.startswith(f"{crate}::") and name.split("::")[-1] == function.name and "::fn::" not in name]
    blocks = [(name, name.split("::")[-2]) for name in ends]
    whole = camel(function.kind, function.parameters)
    first = camel(re.sub("<.*", "", function.kind), function.parameters)
    return (
        [name for name, block in blocks if block == whole + function.trait]
        # A type with chosen parameters, as `Signed<T, bool>`, is written `Signed+T+bool`.
        or [name for name, block in blocks if not function.trait and block == "+".join(re.findall(r"\w+", function.kind))]
        or [name for name, block in blocks if block == first + function.trait]
        or [name for name, block in blocks if function.trait and block.startswith(first) and block.endswith(function.trait)]
        # A trait with parameters, as `From<u64>`, has them behind its name.
        or [name for name, block in blocks if function.trait and block.startswith((whole + function.trait, first + function.trait))]
    )
