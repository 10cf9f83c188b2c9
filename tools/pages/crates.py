"""The crates of the tree, as a table and as a picture."""

from drawing import framed
from sources import first_sentence
from tree import ROOT, below, crates, measured

WIDTH, HEIGHT, STEP, GAP, MARGIN = 150, 34, 64, 14, 12
# Where the picture has a crate from left to right, in boxes: no line crosses a box. Another crate stands at the left.
COLUMNS = {
    "rlp_keccak": 0, "rlp_format": 1.5, "rlp_stream": 3, "rlp_write": 1, "rlp_reading": 2, "rlp_lines": 5.6, "rlp": 1.5, "rlp_records": 0.9, "rlp_tool": 3.4,
    "rlp_node_record": 0, "rlp_transactions": 1, "rlp_headers": 2, "rlp_p2p": 3, "rlp_trie": 4, "rlp_blocks": 0.4, "rlp_pooled": 1.48, "rlp_c": 2.6, "rlp_state": 3.7,
    "rlp_messages": 1.5, "rlp_show": 3.6,
}
# Crates that the picture leaves out: tests, examples, measurements, and `main` functions.
LEFT_OUT = ("_rows", "_vectors", "_tests", "_examples", "_hand_written", "_bench", "_main")


def documentation_of(crate):
    """What the first lines of a crate say of it."""
    folder = ROOT / "crates" / crate / "src"
    sources = [file for file in (folder / "lib.rt", folder / "main.rt") if file.exists()]
    lines = [line for source in sources[:1] for line in source.read_text(encoding="utf-8").splitlines()]
    return "\n".join(line[3:].strip() for line in lines if line.startswith("//!"))


def table_of_crates():
    """A row for each crate."""
    text = "| Crate | What it is | It uses |\n|---|---|---|\n"
    for crate in crates():
        what = first_sentence(documentation_of(crate)).replace("|", "\\|")
        text += f"| [`{crate}`](../crates/{crate}) | {what} | {', '.join(f'`{name}`' for name in direct(crate, crates()))} |\n"
    return text


def table_of_gate():
    """A row for each crate: the processor seconds of its parts in one run of `rt ci`, and when its last part ended."""
    about, _, rows = measured("gate")
    if not rows:
        return ""
    parts = {}
    for crate, part, *numbers in rows:
        parts.setdefault(crate, {})[part] = [int(number) for number in numbers]
    text = f"\n{about['result']}, of {about['version']}, {about['date']}, {about['machine']}."
    if "schedule" in about:
        text += f" By its schedule, with these processor seconds and {about['checks']} checks side by side, the run takes {about['schedule']}."
    text += "\n\n"
    text += "| Crate | Proof, s | Tests, s | Known mistakes, s | Most memory, MB | Ends, min |\n|---|---:|---:|---:|---:|---:|\n"
    for crate in (name for name in crates() if name in parts):
        found = parts[crate]
        seconds = [f"{found[part][2]}" if part in found else "" for part in ("proof", "tests", "mistakes")]
        text += f"| `{crate}` | {' | '.join(seconds)} | {max(one[3] for one in found.values()):,} | {max(one[1] for one in found.values()) / 60:.1f} |\n"
    return text + "\n"


def direct(crate, uses):
    """The crates that a crate uses, without those that these use already."""
    return [name for name in uses[crate] if not any(name in below(other, uses) for other in uses[crate] if other != name)]


def rows_of(uses):
    """The crates by rows: each stands below all that use it, as near to what it uses as it can."""
    def rank(name):
        return 1 + max((rank(other) for other in uses[name]), default=-1)

    rows = {}
    for name in uses:
        rows.setdefault(rank(name), []).append(name)
    return [rows[number] for number in sorted(rows, reverse=True)]


def places_of(rows):
    """Where each crate stands: the left upper corner."""
    return {name: (MARGIN + round(COLUMNS.get(name, 0) * (WIDTH + GAP)), MARGIN + turn * STEP) for turn, row in enumerate(rows) for name in row}


def picture():
    """A picture of the crates: a box for each, and a line to those that it uses directly."""
    uses = {name: used for name, used in crates().items() if not name.endswith(LEFT_OUT)}
    places = places_of(rows_of(uses))
    width, height = (max(place[way] for place in places.values()) + size + MARGIN for way, size in ((0, WIDTH), (1, HEIGHT)))
    lines = ['  <g stroke="#7f97bd" stroke-width="1.5">']
    for name in uses:
        for other in direct(name, uses):
            (x, y), (u, v) = places[name], places[other]
            lines.append(f'    <line x1="{x + WIDTH // 2}" y1="{y + HEIGHT}" x2="{u + WIDTH // 2}" y2="{v}"/>')
    lines += ["  </g>", '  <g fill="#e8eef7" stroke="#5b7aa6" stroke-width="1.5">']
    lines += [f'    <rect x="{x}" y="{y}" width="{WIDTH}" height="{HEIGHT}" rx="6"/>' for x, y in places.values()]
    lines += ["  </g>", '  <g text-anchor="middle">']
    lines += [f'    <text x="{x + WIDTH // 2}" y="{y + 22}">{name}</text>' for name, (x, y) in places.items()]
    return framed(width, height, "What each crate uses", [*lines, "  </g>"], 13)
