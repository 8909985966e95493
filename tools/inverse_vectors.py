#!/usr/bin/env python3
"""Writes searches in pairs, a full permutation and its inverse, at the end of the search's calls, and the lines that they must print.

usage: inverse_vectors.py DATA_FILE NEXT_FILE STDOUT_FILE [--bench FOLDER]

DATA_FILE holds the calls of search_vectors.py, NEXT_FILE the calls that the test program runs after them, STDOUT_FILE all
lines. The lines of an earlier run of this script are replaced. Calls are written and answered as in search_vectors.py (`search`)
and library_vectors.py (`among`): expected values come from bench/brute.rs, for S-boxes at limits beyond it from bench/plain.rs, and with
a library from reference.py. Every pair is held to what is proved of it: both found with equal gates, cost and
depth, or both 14, or both 30 for the library.
"""
import argparse
import os
import random
import subprocess
import tempfile

import library_vectors
import reference as ref
import search_vectors
from jobs import SBOXES, after, job, sbox

HERE = os.path.dirname(os.path.abspath(__file__))
FIRST = "# a table and its inverse: 002's S-boxes within four gates"
# Within 12 gates the program finds these, and plain.rs too, in well under a second.
FAST = ("LBLOCK", "UBLOCK", "M")


def inverse(values):
    """The table whose row y has the row of the value y."""
    assert sorted(values) == list(range(len(values)))
    return [values.index(value) for value in range(len(values))]


class Pairs:
    def __init__(self, brute, plain):
        self.own, self.bought = search_vectors.Vectors(brute, plain), library_vectors.Vectors(brute)
        self.calls, self.lines, self.found = [], [], 0

    def heading(self, line):
        self.calls.append(line)
        self.lines.append(line)

    def take(self, vectors):
        """The call that was added last, and what its line says of the circuit."""
        self.calls.append(vectors.calls[-1])
        self.lines.append(vectors.lines[-1])
        words = vectors.lines[-1].split()
        return words[:2] if words[0] == "refused" else words[:5]

    def both(self, values, limit, source="brute", **fields):
        told = []
        for table in (values, inverse(values)):
            self.own.search(job(table, limit, **fields), source=source)
            told.append(self.take(self.own))
        self.agree(told)

    def among(self, values, limit, lib, **fields):
        told = []
        for table in (values, inverse(values)):
            self.bought.among(job(table, limit, **fields), lib)
            told.append(self.take(self.bought))
        self.agree(told)

    def agree(self, told):
        assert told[0] == told[1] and told[0][:2] in (["refused", "14"], ["refused", "30"], ["found", told[0][1]]), self.calls[-2:]
        self.found += told[0][0] == "found"


def sboxes(p):
    p.heading(FIRST)
    for name in SBOXES:
        p.both(sbox(name), 4)
    p.heading("# LBLOCK, UBLOCK and 002's linear map within twelve: found; prices 1,1,1 and 1,1,5; GIFT at 1,1,5")
    for name in FAST:
        for prices in ((1, 1, 1), (1, 1, 5)):
            p.both(sbox(name), 12, source="max", prices=prices)
    p.both(sbox("GIFT"), 12, source="max")
    p.heading("# UBLOCK at its own limits, and one below in gates, cost and depth")
    for limit, cost, depth in ((8, 24, 31), (7, 24, 31), (8, 23, 31), (8, 24, 30)):
        p.both(sbox("UBLOCK"), limit, source="max", cost=cost, depth=depth)


def drawn(p):
    draw = random.Random(7)
    p.heading("# 3-bit permutations at random, within four gates, some with limits on cost and depth")
    for turn in range(24):
        gates = [draw.choice(ref.gate_table(3, 2)) for _ in range(draw.randint(1, 5))]
        values = after(gates, 3) if turn % 4 else draw.sample(range(8), 8)
        p.both(values, 4, cost=draw.choice((0xFFFF, 0xFFFF, draw.randint(1, 16))), depth=draw.choice((0xFFFF, 0xFFFF, draw.randint(2, 12))),
               prices=[draw.choice((0, 1, 1, 2, 5, 255)) for _ in range(3)], durations=[draw.choice((1, 1, 2, 7, 255)) for _ in range(3)])
    p.heading("# longer jobs: permutations of three and four bits, gates of three controls among them")
    for turn in range(16):
        n = 3 + turn % 2
        gates = [draw.choice(ref.gate_table(n, 3)) for _ in range(2)] + [0x67] * (n == 4) + [draw.choice(ref.gate_table(n, 3))]
        p.both(after(gates, n), 3 if n == 4 else 4, prices=[draw.choice((0, 1, 2, 5, 9)) for _ in range(4)],
               durations=[draw.choice((1, 2, 7, 11)) for _ in range(4)])


def libraries(p):
    draw = random.Random(77)
    p.heading("# the same library for both: gates left out, a price and a duration for each gate; one that is refused")
    for turn in range(16):
        n, kinds = 3 + turn % 2, 3 + turn // 2 % 2
        table = ref.gate_table(n, kinds - 1)
        chosen = sorted(draw.sample(table, 6))
        lib = library_vectors.library((gate, draw.choice((0, 1, 2, 5, 255)), draw.choice((1, 2, 3, 255))) for gate in chosen)
        gates = [draw.choice(chosen if turn % 4 else table) for _ in range(draw.randint(2, 4))]
        p.among(after(gates, n), 4, lib, prices=[1] * kinds, durations=[1] * kinds)
    p.among(after([0x43, 0x25], 3), 3, library_vectors.library([(0x67, 1, 1)]))


def main():
    parser = argparse.ArgumentParser()
    parser.add_argument("data")
    parser.add_argument("next")
    parser.add_argument("stdout")
    parser.add_argument("--bench", default=os.path.join(os.path.dirname(HERE), "bench"))
    args = parser.parse_args()
    with tempfile.TemporaryDirectory() as folder:
        programs = [os.path.join(folder, name) for name in ("brute", "plain")]
        for program in programs:
            subprocess.run(["rustc", "-O", "-o", program, os.path.join(args.bench, os.path.basename(program) + ".rs")], check=True)
        p = Pairs(*programs)
        for part in (sboxes, drawn, libraries):
            part(p)
    with open(args.next) as file:
        following = file.readline()
    with open(args.data) as file:
        before = file.read().split(FIRST + "\n")[0]
    with open(args.data, "w", newline="\n") as file:
        file.write(before + "\n".join(p.calls) + "\n")
    with open(args.stdout) as file:
        earlier, later = file.read().split("\n" + following)
    with open(args.stdout, "w", newline="\n") as file:
        file.write(earlier.split("\n" + FIRST + "\n")[0] + "\n" + "\n".join(p.lines) + "\n" + following + later)
    print(len(p.calls), "lines,", p.found, "pairs found,", os.path.getsize(args.data), "bytes")


if __name__ == "__main__":
    main()
