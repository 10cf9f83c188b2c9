"""Pictures of bytes: a stream's buffer after each of some calls, and a transaction with its fields."""

import re

from drawing import framed
from tree import ROOT

MONO = 'font-family="monospace"'
# The colours of bytes: those before the encodings, a byte that keeps a header's place, headers, and payloads.
FILLS = {"front": "#dfe3e8", "place": "#f6d8c3", "header": "#f1b48a", "payload": "#cfdff3"}
CHAR, HIGH = 7.3, 20
# Calls of a stream, and its buffer after each: the kinds of its bytes and the bytes.
CALLS = (
    ("new_with_buffer(front)", "front:front"),
    ("begin_list(2)", "front:front place:00"),
    ('append("cat")', "front:front place:00 header:83 payload:636174"),
    ("begin_list(2)", "front:front place:00 header:83 payload:636174 place:00"),
    ("append(1)", "front:front place:00 header:83 payload:636174 place:00 payload:01"),
    ("append(2)", "front:front header:c7 header:83 payload:636174 header:c2 payload:01 payload:02"),
)
# What is told of the buffer after each call.
TOLD = (
    "no list is open",
    "the list awaits 2 items",
    "the list awaits 1",
    "the inner list awaits 2, the outer 1",
    "the inner awaits 1, the outer 1",
    "the inner list closes, and then the outer",
)
# The rows of `rlp_show --bytes` that are drawn, and what they are of.
ROWS, KIND = ROOT / "crates" / "rlp_tool_vectors" / "data" / "show_bytes.txt", "transaction <EIP_155>"


def spaced(digits):
    """Hexadecimal digits with a space between two bytes."""
    return " ".join(re.findall("..", digits)) if re.fullmatch("([0-9a-f]{2})+", digits) else digits


def cell(x, y, kind, digits):
    """A box with bytes, and the place where it ends."""
    text = spaced(digits)
    width = round(len(text) * CHAR + 8, 1)
    box = f'  <rect x="{x}" y="{y}" width="{width}" height="{HIGH}" fill="{FILLS[kind]}" stroke="#ffffff"/>'
    return [box, f'  <text x="{round(x + 4, 1)}" y="{y + 14}" {MONO}>{text}</text>'], round(x + width, 1)


def legend(y, kinds):
    """What the colours mean."""
    lines, x = [], 14
    for kind, text in kinds:
        lines.append(f'  <rect x="{x}" y="{y}" width="14" height="14" fill="{FILLS[kind]}"/>')
        lines.append(f'  <text x="{x + 20}" y="{y + 12}">{text}</text>')
        x += 36 + 7 * len(text)
    return lines


def buffer():
    """A picture of a stream's buffer: a row for each call."""
    lines = []
    for turn, ((call, cells), told) in enumerate(zip(CALLS, TOLD)):
        x, y = 180.0, 12 + turn * 28
        lines.append(f'  <text x="14" y="{y + 14}" {MONO}>{call.replace(chr(34), "&quot;")}</text>')
        for kind, _, digits in (part.partition(":") for part in cells.split()):
            drawn, x = cell(x, y, kind, digits)
            lines += drawn
        lines.append(f'  <text x="486" y="{y + 14}">{told}</text>')
    kinds = [("front", "front"), ("place", "place of an open list's header"), ("header", "header"), ("payload", "payload")]
    height = 12 + len(CALLS) * 28 + 32
    return framed(740, height, "The bytes of a stream's buffer after each call", [*lines, *legend(height - 26, kinds)])


def rows_of_transaction():
    """The rows of the record: its place, its header, its payload and its line. Rows without a place are left out."""
    text = ROWS.read_text(encoding="utf-8").replace("\\\n    ", "")
    text = re.sub(r"<(\w\w)\*(\d+)>", lambda part: part[1] * int(part[2]), text)
    for row in text.split(f"\n{KIND}\n")[1].split("\n\n")[0].splitlines():
        place, header, payload, line = row.split(" ", 3)
        if place != "-":
            yield place, header, payload, line


def halves(payload):
    """A payload as lines of at most 16 bytes."""
    return [payload[at : at + 32] for at in range(0, len(payload), 32)]


def transaction():
    """A picture of a transaction: a row for each of its fields."""
    lines, y = [], 34
    for x, head in ((14, "byte"), (58, "header"), (122, "payload"), (484, "field")):
        lines.append(f'  <text x="{x}" y="22" font-weight="bold">{head}</text>')
    for place, header, payload, line in rows_of_transaction():
        lines.append(f'  <text x="46" y="{y + 14}" text-anchor="end" {MONO}>{place}</text>')
        if header != "-":
            lines += cell(58.0, y, "header", header)[0]
        pieces = halves(payload) if payload != "-" else []
        for turn, piece in enumerate(pieces):
            lines += cell(122.0, y + turn * HIGH, "payload", piece)[0]
        name, _, value = line.partition(": ")
        told = "the list, of 108 bytes" if line == "list" else name + (f" = {value}" if value and not value.startswith("0x") else "")
        lines.append(f'  <text x="484" y="{y + 14}">{told}</text>')
        y += max(1, len(pieces)) * HIGH + 6
    return framed(720, y + 6, "The bytes of a transaction and its fields", lines)
