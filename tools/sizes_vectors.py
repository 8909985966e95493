#!/usr/bin/env python3
"""Writes what the program `tally` must print, and the searches at and below a permutation's least gate count with the lines that they must print.

usage: sizes_vectors.py TALLY_STDOUT DATA_FILE NEXT_FILE STDOUT_FILE

TALLY_STDOUT is the tally's `stdout`. DATA_FILE holds the calls of search_vectors.py, NEXT_FILE the calls that the test program runs after
them, STDOUT_FILE all lines; the lines of an earlier run of this script are replaced. The least counts come from a breadth-first search of
its own, below, over tuples of eight values; the permutations in dictionary order are those of itertools. What a search finds at the limit is the
first, by depth and then bytes, of all lists of so many gates. The counts are held to the figures of Shende, Prasad, Markov and Hayes. Run it after
inverse_vectors.py.
"""
import argparse
import itertools
import random

import reference as ref
from jobs import job

FIRST = "# permutations of three wires at their least gate count, found, and one below, none"
PUBLISHED = [1, 12, 102, 625, 2780, 8921, 17049, 10253, 577]
PLACES = [0, 1, 2, 23, 24, 719, 5039, 5040, 5167, 10000, 20160, 27182, 31415, 35279, 40318, 40319]


def gates():
    """Target and mask of each gate of three wires, at most two controls."""
    for target in range(3):
        for mask in range(8):
            if not mask >> target & 1:
                yield target, mask


def least_counts():
    """The least number of gates for each permutation: a step puts a gate behind the list."""
    start = tuple(range(8))
    counts, edge = {start: 0}, [start]
    while edge:
        following = []
        for values in edge:
            for target, mask in gates():
                other = tuple(v ^ 1 << target if v & mask == mask else v for v in values)
                if other not in counts:
                    counts[other] = counts[values] + 1
                    following.append(other)
        edge = following
    return counts


def tally(cells):
    lines = ["40319 refused 25", "40321 refused 25", "untouched 40321", "40320 filled", "untouched 1"]
    lines += [f"gates {k}: {cells.count(k)}, published {n}" for k, n in enumerate(PUBLISHED)]
    lines += [f"more: {sum(c >= len(PUBLISHED) for c in cells)}"]
    return lines + [f"cell {place}: {cells[place]}" for place in PLACES]


def shortest_lists(counts, values):
    """Every list of as many gates as the least count says, by its last gate."""
    if counts[values] == 0:
        return [[]]
    found = []
    for target, mask in gates():
        other = tuple(v ^ 1 << target if v & mask == mask else v for v in values)
        if counts[other] == counts[values] - 1:
            found += [gates_before + [target << 5 | mask] for gates_before in shortest_lists(counts, other)]
    return found


class Searches:
    def __init__(self, counts):
        self.counts, self.calls, self.lines = counts, [], []

    def heading(self, line):
        self.calls.append(line)
        self.lines.append(line)

    def add(self, values, limit, prices, durations):
        """At prices 1 the least cost is the least count; then the depth decides, then the bytes."""
        record, buffer = job(values, limit, prices=prices, durations=durations), bytes(0xA0 + i for i in range(15))
        words = ["refused", "14"]
        if self.counts[values] <= limit:
            durations_of = ref.split_job(record)[1]
            best = min(shortest_lists(self.counts, values), key=lambda l: (max(ref.ready_times(l, durations_of)), l))
            circuit = bytes([0x60 | (len(prices) == 4), 0x18, len(best)] + best)
            buffer = circuit + buffer[len(circuit):]
            depth = max(ref.ready_times(best, durations_of))
            words = ["found", len(circuit), len(best), len(best), depth, ref.ready_words(best, durations_of)]
        self.calls.append(f"search {record.hex().upper()} 0F")
        self.lines.append(" ".join(map(str, words + [buffer.hex().upper()])))

    def pair(self, values, prices=(1, 1, 1), durations=(1, 1, 7)):
        """At the cell's own limit, and one below where there is one."""
        for limit in range(max(self.counts[values] - 1, 0), self.counts[values] + 1)[::-1]:
            self.add(values, limit, prices, durations)


def searches(counts, order):
    s, draw = Searches(counts), random.Random(4)
    s.heading(FIRST)
    for count in range(9):
        s.pair(draw.choice([values for values in order if counts[values] == count]))
    for place in (1, 5040, 40319):
        s.pair(order[place], durations=(1, 2, 3))
    s.heading("# the same with four prices: 22 bytes")
    for count in (0, 3, 6, 8):
        s.pair(draw.choice([values for values in order if counts[values] == count]), (1, 1, 1, 1), (1, 1, 7, 11))
    return s


def main():
    parser = argparse.ArgumentParser()
    for name in ("tally", "data", "next", "stdout"):
        parser.add_argument(name)
    args = parser.parse_args()
    counts, order = least_counts(), list(itertools.permutations(range(8)))
    cells = [counts[values] for values in order]
    assert [cells.count(k) for k in range(9)] == PUBLISHED and len(cells) == sum(PUBLISHED) == 40320
    with open(args.tally, "w", newline="\n") as file:
        file.write("\n".join(tally(cells)) + "\n")
    s = searches(counts, order)
    with open(args.next) as file:
        following = file.readline()
    with open(args.data) as file:
        before = file.read().split(FIRST + "\n")[0]
    with open(args.data, "w", newline="\n") as file:
        file.write(before + "\n".join(s.calls) + "\n")
    with open(args.stdout) as file:
        earlier, later = file.read().split("\n" + following)
    with open(args.stdout, "w", newline="\n") as file:
        file.write(earlier.split("\n" + FIRST + "\n")[0] + "\n" + "\n".join(s.lines) + "\n" + following + later)
    print(len(s.calls), "lines of searches,", len(before) + len("\n".join(s.calls)) + 1, "bytes")


if __name__ == "__main__":
    main()
