"""Paragraphs, blocks of code, rows of tables and quoted signatures that stand in the pages twice."""

import re

from parts import PART

# A shorter piece may stand twice.
FEWEST_WORDS = 8


def pieces_of(text):
    """The paragraphs, the blocks of code and the rows of tables of a page, each with its line. Heads of tables are left out."""
    blank = PART.sub(lambda part: re.sub(r"[^\n]", "", part[0]), text)
    for block in re.finditer(r"^```[\s\S]*?^```$|^\|.*$(?!\n\|[|\s:-]*$)|(?:^(?![|#`]).+\n?)+", blank, re.MULTILINE):
        piece = re.sub(r"\s+", " ", block[0]).strip()
        if len(re.findall(r"[\w`]+", piece)) >= FEWEST_WORDS:
            yield text.count("\n", 0, block.start()) + 1, piece


def signatures_of(text):
    """The signatures that a page quotes with their contracts, each with its line."""
    for block in re.finditer(r"^<!-- made: contracts [\s\S]*?^<!-- end -->$", text, re.MULTILINE):
        for head in re.finditer(r"^(?:fn|struct|enum|trait|type|const) .*$", block[0], re.MULTILINE):
            yield text.count("\n", 0, block.start() + head.start()) + 1, head[0]


def standing_twice(texts):
    """Pieces and signatures that stand in the pages twice; `texts` are the texts of the pages by their names."""
    first = {}
    for name, text in texts.items():
        for line, piece in [*pieces_of(text), *signatures_of(text)]:
            if piece in first:
                yield f"{name}:{line}: {piece[:60]}.. stands also in {first[piece]}"
            else:
                first[piece] = f"{name}:{line}"
