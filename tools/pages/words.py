"""The words of the repository's own definitions: where they are defined, and the comment that says what they are."""

import functools
import re

DEFINED = r"^(?P<indent> *)(?:(?:abbrev|unfoldable|pub|record|data) )*{}(?![\w-])"
SECTION = re.compile(r"-- -+")
HEAD = re.compile(r"^(?P<indent> *)(?:(?:abbrev|unfoldable|pub|record|data) )*(?P<word>[A-Za-z]\S*) (?:: |\(|where$|\{)", re.MULTILINE)
# A comment that leans on the one before it.
RELATIVE = re.compile(r"(?:the |and the )?same\b|only ", re.IGNORECASE)


@functools.cache
def text_of(file):
    """The text of a file, which is read once."""
    return file.read_text(encoding="utf-8")


def defines(file, word):
    """Where a file defines a word."""
    return re.search(DEFINED.format(re.escape(word)), text_of(file), re.MULTILINE)


def comment_before(lines, number):
    """The comment that stands before a line, as one text."""
    found = []
    for line in reversed(lines[:number]):
        if not line.strip().startswith("--") or SECTION.match(line.strip()):
            break
        found.append(line.strip()[2:].strip())
    return " ".join(reversed(found))


def words_in(file):
    """The words that a file defines, in order, and whether each is a part of another, as a constructor is."""
    return list({found["word"]: bool(found["indent"]) for found in reversed(list(HEAD.finditer(text_of(file))))}.items())[::-1]


def sentence_of(text):
    """The first sentence of a comment, which begins with a capital letter unless a variable or code comes first."""
    found = re.match(r".*?[^.]\.(?=\s+[A-Z`]|$)", text)
    first = (found[0] if found else text).rstrip(" .:;").replace("|", "\\|")
    return first[0].upper() + first[1:] if re.match("[a-z]{2}|a ", first) else first


def comment_of(file, word):
    """What the comments of a file say of a word: of itself, or of the type that has it as a constructor or a field."""
    found = defines(file, word)
    if not found:
        return ""
    text = text_of(file)
    lines = text.splitlines()
    number = text.count("\n", 0, found.start())
    while number > 0 and not (comment := comment_before(lines, number)):
        number -= 1
    return sentence_of(comment) if number else ""
