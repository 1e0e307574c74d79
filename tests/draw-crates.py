#!/usr/bin/env python3
"""Draws the crates of crates.txt in their rooms, between two marks of docs/ARCHITECTURE.md.

Of what a crate stands on only those are drawn that it does not reach through another one, first those of its own room.
With --check nothing is written. If the picture is not that of crates.txt, or crates.txt is no plan (a crate stands before
one that it stands on, or in no room), a line says so, and the status is 1.
"""
import re
import sys
from pathlib import Path

ROOT = Path(__file__).resolve().parent.parent
DOCUMENT = ROOT / "docs" / "ARCHITECTURE.md"
PICTURE = re.compile(r"(?<=<!-- crates -->\n```text\n).*?(?=```\n<!-- end of crates -->)", re.DOTALL)
WIDTH = 100
NAMES = 16  # columns of a crate's name


def read_plan(text):
    """The rooms with their crates, and of each crate those of ours that it stands on."""
    rooms, uses = [], {}
    for line in text.splitlines():
        if line.startswith("# ---- "):
            rooms.append((line.removeprefix("# ---- "), []))
        line = line.partition("#")[0]
        name, colon, below = line.partition(":")
        if colon:
            if not rooms:
                sys.exit(f"crates.txt: there is no room of {name}")
            rooms[-1][1].append(name.strip())
            uses[name.strip()] = below.split()
    ours = {name: [it for it in below if it in uses] for name, below in uses.items()}
    for at, (name, below) in enumerate(ours.items()):
        for it in below:
            if it not in list(ours)[:at]:
                sys.exit(f"crates.txt: there is no {it} before {name}, which stands on it")
    return rooms, ours


def reduce(uses):
    """Of each crate those that it reaches through no other one."""
    reached, direct = {}, {}
    for name, below in uses.items():
        reached[name] = set(below).union(*(reached[it] for it in below))
        direct[name] = [it for it in below if not any(it in reached[other] for other in below)]
    return direct


def draw(rooms, direct):
    lines, corners = [], "┌┐"
    for title, names in rooms:
        lines.append(f"{corners[0]}─ {title} ".ljust(WIDTH - 1, "─") + corners[1])
        corners = "├┤"
        for name in names:
            below = sorted(direct[name], key=lambda it: (it not in names, list(direct).index(it)))
            line = f"│ {name:{NAMES}}" + (f"─▶ {'  '.join(below)}" if below else "")
            lines.append(line.ljust(WIDTH - 1) + "│")
    lines.append("└".ljust(WIDTH - 1, "─") + "┘")
    return "\n".join(lines) + "\n"


def main():
    rooms, uses = read_plan((ROOT / "crates.txt").read_text())
    picture, document = draw(rooms, reduce(uses)), DOCUMENT.read_text()
    drawn = PICTURE.sub(lambda _: picture, document)
    if not PICTURE.search(document):
        sys.exit("docs/ARCHITECTURE.md: there is no place for the picture of the crates")
    if "--check" not in sys.argv:
        DOCUMENT.write_text(drawn)
    elif drawn != document:
        sys.exit("docs/ARCHITECTURE.md: there is no picture of crates.txt as it is; tests/draw-crates.py draws it")


main()
