#!/usr/bin/env python3
"""Writes a copy of this repository in which the search uses its reach filters from the first gate on, so that small jobs test them.

usage: forced.py FOLDER [RADIUS]

Numbers of crates/solver/src/prospects.rt are changed, none of which a contract holds: how many gates are looked at with no filter (none), the radius
of a filter (RADIUS, 2 where it is not given, and one less where at most three gates may come), and after how many gates the wider one takes its
place (three; so it is also filled for costs that buy more). So the copy is proved like the program itself, by `rt run` in FOLDER/crates/main and
in FOLDER/crates/gazbolk. Then

    bench/compare.py FOLDER/crates/main/out/main --count 5000
    bench/compare.py FOLDER/crates/gazbolk/out/gazbolk --libraries
"""
import os
import shutil
import sys

ROOT = os.path.dirname(os.path.dirname(os.path.abspath(__file__)))
CHANGES = [
    ("    if limit < 6 { limit } else { 6 }\n", "    if limit < 6 { 0 } else { 0 }\n"),
    ("        if most <= 10 { 4 } else { 5 }\n", "        if most <= 3 { LESS } else { RADIUS }\n"),
    ("        if most <= 8 { 3 } else { 4 }\n", "        if most <= 3 { LESS } else { RADIUS }\n"),
    ("    if count <= 32 {\n        return 10;\n    }\n    if from <= 8 { 8 } else { from }\n", "    if from <= 3 { 3 } else { from }\n"),
]


def main():
    if len(sys.argv) not in (2, 3):
        sys.exit(__doc__)
    folder, radius = sys.argv[1], int((sys.argv + ["2"])[2])
    os.makedirs(folder)
    shutil.copy(os.path.join(ROOT, "crates.txt"), folder)
    shutil.copytree(os.path.join(ROOT, "crates"), os.path.join(folder, "crates"), ignore=shutil.ignore_patterns("out"))
    path = os.path.join(folder, "crates", "solver", "src", "prospects.rt")
    with open(path, encoding="utf-8") as file:
        text = file.read()
    for old, new in CHANGES:
        if text.count(old) != 1:
            sys.exit(f"forced.py: {old.strip()!r} is there {text.count(old)} times")
        text = text.replace(old, new.replace("LESS", str(radius - 1)).replace("RADIUS", str(radius)))
    with open(path, "w", encoding="utf-8") as file:
        file.write(text)


main()
