#!/usr/bin/env python3
"""Draws docs/beside-debians.svg, the picture of README.md, of two tables of docs/MEASUREMENTS.md.

The table below `<!-- figure: calls -->` has how many times Debian's calls there are, that below `<!-- figure: memory -->`
what is resident, in kB, of this daemon and of Debian's. With --check nothing is written; if the picture is not that of
the tables, a line says so, and the status is 1.
"""
import re
import sys
from html import escape
from pathlib import Path

ROOT = Path(__file__).resolve().parent.parent
TABLES = ROOT / "docs" / "MEASUREMENTS.md"
PICTURE = ROOT / "docs" / "beside-debians.svg"
OURS, THEIRS = "#2b6cb0", "#b7b7b7"
ROW, LABEL, BAR = 22, 210, 210  # of a bar: its height with the gap, the width of what it is called, and the longest one


def rows_of(name):
    """The cells of the table below a mark, without its heading."""
    text = TABLES.read_text()
    found = re.search(rf"<!-- figure: {name} -->\n\n((?:\|.*\n)+)", text)
    if not found:
        sys.exit(f"docs/MEASUREMENTS.md: there is no table for the figure '{name}'")
    return [[cell.strip() for cell in line.strip("|").split("|")] for line in found[1].splitlines()[2:]]


def number(cell):
    return float(cell.replace(",", ""))


def text(x, y, words, anchor="start", weight="normal"):
    return f'<text x="{x}" y="{y}" text-anchor="{anchor}" font-weight="{weight}">{escape(words)}</text>'


def panel(left, heading, bars):
    """Bars below a heading: each with what it is called, its length of 1, its colour and its figure."""
    yield text(left, 20, heading, weight="bold")
    for place, (name, part, colour, figure) in enumerate(bars):
        top = 34 + place * ROW
        width = max(1, round(part * BAR))
        yield text(left + LABEL - 6, top + 13, name, anchor="end")
        yield f'<rect x="{left + LABEL}" y="{top}" width="{width}" height="{ROW - 6}" fill="{colour}"/>'
        yield text(left + LABEL + width + 5, top + 13, figure)


def draw():
    calls = [(name, number(times)) for name, times in rows_of("calls")]
    most = max(times for _, times in calls)
    speed = [(name, times / most, OURS, f"{times:g}") for name, times in calls] + [("Debian's", 1 / most, THEIRS, "1")]
    sizes = [(f"{who}, {name}", number(cell), colour) for name, *cells in rows_of("memory")
             for who, cell, colour in (("ours", cells[0], OURS), ("Debian's", cells[1], THEIRS))]
    most = max(size for _, size, _ in sizes)
    memory = [(name, size / most, colour, f"{size / 1000:.1f}") for name, size, colour in sizes]
    half = LABEL + BAR + 60
    height = 44 + ROW * max(len(speed), len(memory))
    lines = [f'<svg xmlns="http://www.w3.org/2000/svg" width="{2 * half}" height="{height}" font-family="sans-serif" font-size="12">',
             f'<rect width="{2 * half}" height="{height}" fill="#ffffff"/>',
             *panel(10, "Calls a second, times Debian's", speed),
             *panel(10 + half, "Resident memory, MB", memory),
             "</svg>"]
    return "\n".join(lines) + "\n"


def main():
    drawn = draw()
    if sys.argv[1:] != ["--check"]:
        PICTURE.write_text(drawn)
    elif not PICTURE.exists() or PICTURE.read_text() != drawn:
        sys.exit("docs/beside-debians.svg is not the picture of docs/MEASUREMENTS.md; tests/draw-figures.py draws it")


main()
