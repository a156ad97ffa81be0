#!/usr/bin/env python3
"""architecture.py [FILE]: draws docs/architecture.svg, or FILE, from crates.txt: a box for each crate of the product,
in its folder's frame, each above those of its frame that it stands on. Lines lead down to these, without those that
others lead to."""
import html
import os
import sys

ROOT = os.path.dirname(os.path.dirname(os.path.dirname(os.path.realpath(__file__))))
# The frames from the top, side by side where they stand on one height, with what they know.
FRAMES = ((("program", "the program vp"),), (("printing", "one engine for every language, images joined"),),
          (("receipts", "ESC/POS"), ("labels", "ZPL II")), (("drawing", "dots, glyphs, bars, QR symbols"),))
WIDE, HIGH, GAP, UP, EDGE, HEAD, MARGIN = 132, 30, 14, 34, 16, 30, 12
INK, LINE, FRAME, PAPER = "#1c2024", "#8a94a0", "#d6dae0", "#f7f8fa"


def listed():
    """Returns the crates of crates.txt by folder, each with those of its folder that it stands on."""
    found = {}
    with open(f"{ROOT}/crates.txt", encoding="utf-8") as it:
        for line in it:
            place, colon, deps = line.partition("#")[0].partition(":")
            if colon:
                folder, name = place.split()[0].split("/")
                below = [it.split("/")[1] for it in deps.split() if it.startswith(f"{folder}/")]
                found.setdefault(folder, {})[name] = below
    return found


def height(crates, name):
    return 1 + max((height(crates, it) for it in crates[name]), default=-1)


def all_below(crates, name):
    return {it for dep in crates[name] for it in {dep, *all_below(crates, dep)}}


def lines_of(crates, name):
    """Returns those that a crate stands on, without those that another of them stands on."""
    return [it for it in crates[name] if not any(it in all_below(crates, other) for other in crates[name])]


def rows_of(crates):
    """Returns the rows of a frame from the top: crates of one height, each near those that it stands on."""
    rows, place = [], {}
    for level in range(1 + max(height(crates, it) for it in crates)):
        row = [it for it in crates if height(crates, it) == level]
        row.sort(key=lambda it: sum(place[dep] for dep in lines_of(crates, it)) / max(1, len(lines_of(crates, it))))
        place.update({it: n - len(row) / 2 for n, it in enumerate(row)})
        rows.insert(0, row)
    return rows


def text(x, y, words, size, weight=400, anchor="middle"):
    return (f'<text x="{x:g}" y="{y:g}" font-size="{size}" font-weight="{weight}" text-anchor="{anchor}" '
            f'fill="{INK}">{html.escape(words)}</text>')


def frame(crates, folder, knows, left, top, wide, high):
    """Returns what draws a folder in its frame."""
    rows, place, drawn = rows_of(crates), {}, []
    drawn.append(f'<rect x="{left}" y="{top}" width="{wide}" height="{high}" rx="8" fill="{PAPER}" stroke="{FRAME}"/>')
    drawn.append(text(left + EDGE, top + 20, f"crates/{folder}: {knows}", 13, 600, "start"))
    for n, row in enumerate(rows):
        start = left + (wide - len(row) * WIDE - (len(row) - 1) * GAP) / 2
        for k, name in enumerate(row):
            place[name] = start + k * (WIDE + GAP), top + HEAD + n * (HIGH + UP)
    for name, (x, y) in place.items():
        for dep in lines_of(crates, name):
            to, under = place[dep]
            drawn.append(f'<path d="M{x + WIDE / 2:g} {y + HIGH:g} L{to + WIDE / 2:g} {under:g}" stroke="{LINE}"/>')
    for name, (x, y) in place.items():
        drawn.append(f'<rect x="{x:g}" y="{y:g}" width="{WIDE}" height="{HIGH}" rx="4" fill="#fff" stroke="{INK}"/>')
        drawn.append(text(x + WIDE / 2, y + 20, name, 12))
    return drawn


def size(crates):
    rows = rows_of(crates)
    most = max(map(len, rows))
    return most * (WIDE + GAP) - GAP + 2 * EDGE, HEAD + len(rows) * (HIGH + UP) - UP + EDGE


def picture():
    crates = listed()
    sizes = {folder: size(crates[folder]) for row in FRAMES for folder, _ in row}
    wide = max(sum(sizes[folder][0] for folder, _ in row) + MARGIN * (len(row) - 1) for row in FRAMES)
    top, drawn = MARGIN, []
    for row in FRAMES:
        high, left = max(sizes[folder][1] for folder, _ in row), MARGIN
        spare = (wide - sum(sizes[folder][0] for folder, _ in row) - MARGIN * (len(row) - 1)) // len(row)
        for folder, knows in row:
            own = sizes[folder][0] + spare
            drawn += frame(crates[folder], folder, knows, left, top, own, high)
            left += own + MARGIN
        top += high + MARGIN
    head = (f'<svg xmlns="http://www.w3.org/2000/svg" viewBox="0 0 {wide + 2 * MARGIN} {top}" '
            f'width="{wide + 2 * MARGIN}" height="{top}" font-family="system-ui, sans-serif" fill="none">')
    return "\n".join([head, '<rect width="100%" height="100%" fill="#fff"/>', *drawn, "</svg>", ""])


def main():
    file = sys.argv[1] if sys.argv[1:] else f"{ROOT}/docs/architecture.svg"
    with open(file, "w", encoding="utf-8") as it:
        it.write(picture())
    return 0


if __name__ == "__main__":
    sys.exit(main())
