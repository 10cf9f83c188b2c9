"""The index of the words that public clauses use."""

from clauses import words_of
from tree import crates
from words import RELATIVE, comment_of, words_in

# The crates whose definitions are examples, and have no rows.
WITHOUT_ROWS = ("rlp_examples",)


def crates_with_words(root):
    """The crates whose definitions have rows, in the order of `crates.txt`."""
    return [name for name in crates() if name not in WITHOUT_ROWS and (root / "crates" / name / "specs").is_dir()]


def cited(root):
    """The words that public clauses use, by the files that define them."""
    crates = crates_with_words(root)
    sources = [source for crate in crates for source in sorted((root / "crates" / crate / "src").rglob("*.rt"))]
    return words_of(root, sources, crates)


def needed(file, names):
    """The words of a file that have a row: these, and the one before each that is said to be the same but for something."""
    order, found = words_in(file), set(names)
    whole = [word for word, is_part in order if not is_part]
    for before, word in zip(whole, whole[1:]):
        if word in found and RELATIVE.match(comment_of(file, word)):
            found.add(before)
    return [word for word, _ in order if word in found]


def rows_of(file, names):
    """The rows of a file: words with their sentence, in the order of the file. Words with one sentence share a row."""
    rows = []
    for word in needed(file, names):
        sentence = comment_of(file, word)
        if rows and rows[-1][1] == sentence:
            rows[-1][0].append(word)
        else:
            rows.append(([word], sentence))
    return rows


def index(root):
    """A table for each crate, with a line for each word."""
    by_file = {}
    for (word, file), _ in cited(root).items():
        by_file.setdefault(file, set()).add(word)
    text = ""
    for crate in crates_with_words(root):
        specs = root / "crates" / crate / "specs"
        files = sorted(file for file in by_file if file.is_relative_to(specs))
        if files:
            text += f"\n### `{crate}`\n\n| Word | What it is | File |\n|---|---|---|\n"
        for file in files:
            for words, sentence in rows_of(file, by_file[file]):
                names = ", ".join(f"`{word}`" for word in words)
                text += f"| {names} | {sentence} | [`{file.stem}`](../{file.relative_to(root)}) |\n"
    return text + "\n"
