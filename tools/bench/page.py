"""The measured times as tables and as charts, from the files of this folder."""

import math

from drawing import INK, framed
from tree import measured

ROW, LEFT, WIDTH, TOP = 18, 330, 420, 34
# The ratios at the ends of the chart.
LEAST, MOST = 0.01, 60
# The column of the chart: times divided by the times of the Rust crate, built as one unit with its caller, as the library here is.
RATIO = "ratio, Rust crate with link-time optimisation"
# The chart of sizes: its left upper corner, its width and height, the bytes and the ratios at its ends, and the colours of its lines.
X, Y, ACROSS, HIGH = 60, 20, 420, 300
BYTES, RATIOS = (10, 2**30), (0.02, 300)
COLOURS = ("#1b4f8a", "#c4713b", "#3f8f5b", "#8a4fa3", "#a33b3b", "#2f8f94", "#8a7a1b", "#5b7aa6", "#1c2733")


def number(cell):
    """A number as text, with commas; other text as it is."""
    return f"{float(cell):,.0f}" if cell.replace(".", "", 1).isdigit() and float(cell) >= 1000 else cell


def table(name):
    """The table of a file, after what is told of its run; nothing if there is no such file."""
    about, heads, rows = measured(name)
    if not rows:
        return ""
    text = f"\nVersion {about['version']}, {about['date']}, {about['machine']}; {about['runs']}.\n\n"
    text += "| " + " | ".join(head[0].upper() + head[1:] if head == heads[0] else head for head in heads) + " |\n|---" + "|---:" * (len(heads) - 1) + "|\n"
    return text + "".join(f"| {first} | {' | '.join(number(cell) for cell in others)} |\n" for first, *others in rows)


def tables(*names):
    """The tables of these files, as far as they were measured."""
    return "".join(table(name) for name in names) + "\n"


def share(value, ends):
    """Where a value stands between two ends, on a logarithmic scale."""
    return math.log(max(ends[0], min(ends[1], value)) / ends[0]) / math.log(ends[1] / ends[0])


def place(value):
    """Where a ratio stands in the chart."""
    return round(LEFT + share(value, (LEAST, MOST)) * WIDTH, 1)


def bars(rows):
    """A bar for each operation, from 1 to its ratio."""
    for turn, (name, ratio) in enumerate(rows):
        top, end, one = TOP + turn * ROW, place(ratio), place(1)
        colour = "#5b7aa6" if ratio <= 1 else "#c4713b"
        label = name.replace("`", "").replace("&", "&amp;")
        yield f'  <text x="{LEFT - 8}" y="{top + 13}" text-anchor="end">{label}</text>'
        yield f'  <rect x="{min(one, end)}" y="{top + 3}" width="{round(abs(end - one), 1)}" height="{ROW - 6}" fill="{colour}"/>'


def chart():
    """A picture: the time of each operation, divided by the time of the Rust crate, on a logarithmic scale."""
    _, heads, cells = measured("times")
    column = heads.index(RATIO) if RATIO in heads else 0
    rows = [(row[0], float(row[column])) for row in cells if column and row[column]]
    height, lines = TOP + len(rows) * ROW + 10, [f'  <text x="{LEFT - 24}" y="{TOP - 12}" text-anchor="end">time / time of the Rust crate; below 1 is faster</text>']
    for value in (0.01, 0.1, 0.5, 1, 2, 10, 50):
        x = place(value)
        lines.append(f'  <line x1="{x}" y1="{TOP - 6}" x2="{x}" y2="{height - 8}" stroke="{INK if value == 1 else "#d4dbe6"}"/>')
        lines.append(f'  <text x="{x}" y="{TOP - 12}" text-anchor="middle">{value}</text>')
    return framed(LEFT + WIDTH + 20, height, "Time of each operation, divided by the time of the Rust crate", [*lines, *bars(rows)])


def grid():
    """The axes of the chart of sizes, with a heavy line at 1 and a broken one at 1.3."""
    for value in (0.02, 0.1, 1, 1.3, 10, 100):
        y = round(Y + HIGH - share(value, RATIOS) * HIGH, 1)
        how = 'stroke="#1c2733" stroke-dasharray="4 3"' if value == 1.3 else f'stroke="{"#1c2733" if value == 1 else "#d4dbe6"}"'
        yield f'  <line x1="{X}" y1="{y}" x2="{X + ACROSS}" y2="{y}" {how}/>'
        yield f'  <text x="{X - 8}" y="{round(y + (9 if value == 1 else 3), 1)}" text-anchor="end">{value}</text>'
    for value, name in ((10, "10 bytes"), (2**10, "1 KiB"), (2**20, "1 MiB"), (2**30, "1 GiB")):
        x = round(X + share(value, BYTES) * ACROSS, 1)
        yield f'  <line x1="{x}" y1="{Y}" x2="{x}" y2="{Y + HIGH}" stroke="#d4dbe6"/>'
        yield f'  <text x="{x}" y="{Y + HIGH + 18}" text-anchor="middle">{name}</text>'


def chart_of_sizes():
    """A picture: for each kind a line, of the time per byte, divided by the time per byte at the smallest size."""
    kinds = {}
    for kind, _, count, _, ratio, _ in measured("size")[2]:
        if ratio:
            point = round(X + share(int(count), BYTES) * ACROSS, 1), round(Y + HIGH - share(float(ratio), RATIOS) * HIGH, 1)
            kinds.setdefault(kind.replace("`", ""), []).append(point)
    lines = [f'  <text x="{X}" y="{Y - 7}">time per byte / time per byte at the smallest size</text>', *grid()]
    for turn, (kind, points) in enumerate(kinds.items()):
        colour, y = COLOURS[turn % len(COLOURS)], Y + 12 + turn * 20
        lines.append(f'  <polyline points="{" ".join(f"{x},{y}" for x, y in points)}" fill="none" stroke="{colour}" stroke-width="2"/>')
        lines += [f'  <circle cx="{x}" cy="{high}" r="3" fill="{colour}"/>' for x, high in points]
        lines.append(f'  <line x1="{X + ACROSS + 14}" y1="{y - 4}" x2="{X + ACROSS + 34}" y2="{y - 4}" stroke="{colour}" stroke-width="2"/>')
        lines.append(f'  <text x="{X + ACROSS + 40}" y="{y}">{kind}</text>')
    return framed(X + ACROSS + 250, Y + HIGH + 30, "Time per byte, divided by the time per byte at the smallest size", lines)
