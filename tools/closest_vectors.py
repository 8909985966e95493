#!/usr/bin/env python3
"""Writes the searches for the closest circuit, and adds the lines that they must print to those of the test program.

usage: closest_vectors.py DATA_FILE STDOUT_FILE [--bench FOLDER]

    nearest JOB RR      the closest circuit, with an answer buffer of RR bytes, byte i of which is (0xA0 + i) mod 256

A line is `refused CODE BUFFER` or `found L G C D ready T0 T1 T2 T3 T4 misses K BUFFER`. Expected values come from `brute` below: every
list of lawful gates up to the gate limit, each with every allowed layout, row by row, nothing skipped; the first by misses, and then by
cost, gates, depth, layout and bytes. The job's checks and the measures are those of reference.py. Where nothing is missed the record is
held to what bench/brute.rs finds, and where something is, that has to find nothing. STDOUT_FILE holds the lines of the calls before; lines
from the first heading of this file on are replaced.
"""
import argparse
import os
import random
import subprocess
import tempfile

import reference as ref
from jobs import LONG, NO_LIMIT, after, job, sbox

HERE = os.path.dirname(os.path.abspath(__file__))
FIRST = "# the closest circuit: one that realizes the table, and fewer and fewer gates"
SAMPLE = [0, 2, 1, 3, 4, 6, 5, 7]
EXCHANGE_3_7 = [0, 1, 2, 7, 4, 5, 6, 3]
ODD = list(range(7)) + [15] + list(range(8, 15)) + [7]


def word(data):
    return bytes(data).hex().upper() or "-"


def missed(values, rows):
    """For each output and each wire: how many rows want another bit than the wire ends with."""
    return [[sum(ref.bit(care, j) and ref.bit(values[x], w) != ref.bit(value, j) for x, (care, value) in enumerate(rows))
             for w in range(4)] for j in range(4)]


def brute(record):
    """The key of the closest circuit: misses, cost, gates, depth, layout, bytes."""
    asked = ref.read_job(record)
    table = ref.gate_table(asked.n + asked.m, 3 if asked.longer else 2)
    layouts = ref.layouts(asked.n) if asked.free else [ref.PLAIN_LAYOUT[asked.n]]
    best = None
    lists = [((), tuple(range(2 ** asked.n)))]
    for count in range(asked.limits.gates + 1):
        for gates, values in lists:
            measured = ref.measures_of(gates, asked.prices, asked.durations) if gates else ref.Measures(0, 0, 0)
            clean = all(ref.bit(value, asked.n) == 0 for value in values)
            if clean and measured.cost <= asked.limits.cost and measured.depth <= asked.limits.depth:
                counts = missed(values, asked.rows)
                for layout in layouts:
                    wires = ref.layout_wires(layout)
                    misses = sum(counts[j][wires[j]] for j in range(asked.n))
                    key = (misses, measured.cost, len(gates), measured.depth, layout, gates)
                    if best is None or key < best:
                        best = key
        if count < asked.limits.gates:
            lists = [(gates + (gate,), tuple(ref.step(gate, value) for value in values)) for gates, values in lists for gate in table]
    return best


class Vectors:
    def __init__(self, exact):
        self.exact, self.calls, self.lines, self.seen, self.misses = exact, [], [], {}, {}

    def heading(self, text):
        line = text if text.startswith("#") else "# " + text
        self.calls.append(line)
        self.lines.append(line)

    def found(self, record):
        if record not in self.seen:
            self.seen[record] = self.solve(record)
        return self.seen[record]

    def solve(self, record):
        asked = ref.read_job(record)
        misses, cost, count, depth, layout, gates = brute(record)
        circuit = bytes([asked.n << 5 | asked.m << 3 | asked.longer, layout, count, *gates])
        assert ref.check_circuit(circuit) == 0
        assert ref.verify_call(record, circuit)[0] == (16 if misses else 0)
        line = subprocess.run([self.exact], input=record, capture_output=True, check=True).stdout.decode().split()
        assert line == (["refused", "14"] if misses else ["found", str(count), str(cost), str(depth), word(circuit)]), (word(record), line)
        told = "found %d %d %d %d %s misses %d" % (len(circuit), count, cost, depth, ref.ready_words(gates, asked.durations), misses)
        return told, circuit, misses

    def add(self, record, room=15, want=None):
        buffer = bytes((0xA0 + i) % 256 for i in range(room))
        code = ref.check_job(record) or (13 if room < 15 else 0)
        if code:
            answer, misses = "refused %d" % code, None
        else:
            answer, circuit, misses = self.found(record)
            buffer = circuit + buffer[len(circuit):]
            self.misses[misses] = self.misses.get(misses, 0) + 1
        assert want is None or want == misses, (word(record), misses)
        self.calls.append("nearest %s %02X" % (word(record), room))
        self.lines.append("%s %s" % (answer, word(buffer)))
        return misses


def fewer_gates(v):
    v.heading(FIRST)
    for values in (SAMPLE, EXCHANGE_3_7, [7, 6, 5, 4, 3, 2, 1, 0], [5, 1, 4, 2, 6, 7, 3, 0]):
        for more in ({}, dict(free=1), dict(m=1), LONG, dict(m=1, free=1, **LONG)):
            for limit in (3, 2, 1, 0) if not more.get("m") else (2, 1, 0):
                v.add(job(values, limit, **more))
    v.heading("four bits: an odd table, GIFT and PRESENT within two gates")
    for values in (ODD, sbox("GIFT"), sbox("PRESENT")):
        for more in ({}, dict(free=1), LONG, dict(free=1, **LONG)):
            for limit in (2, 1, 0):
                v.add(job(values, limit, **more))
        for more in (dict(m=1), dict(m=1, free=1), dict(m=1, **LONG)):
            for limit in (1, 0):
                v.add(job(values, limit, **more))


def shapes(draw, size, n):
    """Care masks of all shapes: every bit, no bit, single bits, rows, outputs, and at random."""
    full = (1 << n) - 1
    yield [full] * size
    yield [0] * size
    for j in range(n):
        yield [1 << j] * size
        yield [full ^ 1 << j] * size
    for x in (0, size // 2, size - 1):
        yield [full if row == x else 0 for row in range(size)]
        yield [1 << (n - 1) if row == x else 0 for row in range(size)]
        yield [0 if row == x else full for row in range(size)]
    yield [full if row % 2 else 0 for row in range(size)]
    for _ in range(3):
        yield [draw.randrange(full + 1) for _ in range(size)]


def masks(v):
    draw = random.Random(10)
    for n in (3, 4):
        size = 1 << n
        v.heading("masks of all shapes, %d bits, limits 0 to 2" % n)
        for i, mask in enumerate(shapes(draw, size, n)):
            values = [draw.randrange(size) for _ in range(size)]
            for k, more in enumerate(({}, dict(free=1), LONG, dict(m=1), dict(m=1, free=1, **LONG))):
                limit = (i + k) % 3 if n == 3 or not more.get("m") else (i + k) % 2
                v.add(job(values, limit, masks=mask, **more))


def limits(v):
    v.heading("tight limits on cost and depth: each limit is itself allowed")
    for values, gates in ((SAMPLE, 3), (EXCHANGE_3_7, 2), (sbox("GIFT"), 2)):
        for more in (dict(prices=(1, 2, 5), durations=(1, 2, 7)), dict(prices=(0, 0, 0), durations=(1, 1, 1)),
                     dict(prices=(3, 1, 2, 4), durations=(2, 3, 1, 5))):
            for cost in (0, 1, 2, 3, 4, 5, 6, 10):
                v.add(job(values, gates, cost=cost, **more))
            for depth in (0, 1, 2, 3, 7, 8, 14):
                v.add(job(values, gates, depth=depth, free=1, **more))
            v.add(job(values, gates, cost=4, depth=6, **more))


def conditions(v):
    v.heading("a dirty ancilla would miss fewer bits")
    for gates in ([0x63, 0x0C], [0x66, 0x08], [0x65, 0x2C]):
        values = after(gates, 3, 1)
        for limit in (0, 1, 2):
            for free in (0, 1):
                v.add(job(values, limit, m=1, free=free))
                v.add(job([value ^ 1 for value in values], limit, m=1, free=free, masks=[1] * 8))
    v.heading("ties: equal misses at other costs, gates, depths, layouts and bytes")
    for prices in ((1, 1, 5), (5, 1, 1), (0, 0, 0), (7, 2, 3), (9, 3, 1)):
        for durations in ((1, 1, 7), (9, 1, 1)):
            for values in ([0, 0, 0, 0, 7, 7, 7, 7], [3, 3, 3, 3, 3, 3, 3, 3], [1, 0, 1, 0, 0, 1, 0, 1]):
                for free in (0, 1):
                    v.add(job(values, 2, prices=prices, durations=durations, free=free))
    v.heading("a layout that is not the first")
    for values in ([0, 4, 2, 6, 1, 5, 3, 7], [0, 2, 4, 6, 1, 3, 5, 7], [0, 4, 1, 5, 2, 6, 3, 6]):
        for limit in (0, 1):
            for free in (0, 1):
                v.add(job(values, limit, free=free))


def refusals(v):
    v.heading("the job's checks, then 13; never 14")
    sound = job(SAMPLE, 2)
    broken = [b"", sound[:-1], sound + b"\x00", bytes([0x80]) + sound[1:], bytes([0x61]) + sound[1:], bytes([0x70]) + sound[1:],
              sound[:1] + b"\x0d" + sound[2:], sound[:9] + b"\x00" + sound[10:], sound[:19] + b"\x78"]
    for record in broken:
        for room in (15, 14, 0):
            v.add(record, room)
    for record in (sound, job(SAMPLE, 3), job(ODD, 1, **LONG)):
        for room in (0, 1, 14, 15, 16, 40):
            v.add(record, room)


def drawn(v):
    v.heading("drawn at random")
    draw = random.Random(21)
    for turn in range(160):
        n = draw.choice((3, 3, 4))
        size, m, long = 1 << n, draw.choice((0, 0, 1)), draw.random() < 0.4
        kinds = 4 if long else 3
        limit = draw.randint(0, 3 if n == 3 and m == 0 else 2 if n == 3 or m == 0 else 1)
        masks = draw.choice((None, [draw.randrange(size) for _ in range(size)]))
        values = draw.sample(range(size), size) if draw.random() < 0.6 else [draw.randrange(size) for _ in range(size)]
        v.add(job(values, limit, m=m, free=draw.choice((0, 1)), cost=draw.choice((NO_LIMIT, draw.randrange(12))),
                  depth=draw.choice((NO_LIMIT, draw.randrange(12))), prices=[draw.randrange(6) for _ in range(kinds)],
                  durations=[draw.randint(1, 5) for _ in range(kinds)], masks=masks))


def main():
    parser = argparse.ArgumentParser()
    parser.add_argument("data")
    parser.add_argument("stdout")
    parser.add_argument("--bench", default=os.path.join(os.path.dirname(HERE), "bench"))
    args = parser.parse_args()
    with tempfile.TemporaryDirectory() as folder:
        exact = os.path.join(folder, "brute")
        subprocess.run(["rustc", "-O", "-o", exact, os.path.join(args.bench, "brute.rs")], check=True)
        v = Vectors(exact)
        for part in (fewer_gates, masks, limits, conditions, refusals, drawn):
            part(v)
    with open(args.data, "w", newline="\n") as file:
        file.write("\n".join(v.calls) + "\n")
    with open(args.stdout) as file:
        before = file.read().split(FIRST + "\n")[0]
    with open(args.stdout, "w", newline="\n") as file:
        file.write(before + "\n".join(v.lines) + "\n")
    print(len(v.calls), "lines", os.path.getsize(args.data), "bytes; misses:", sorted(v.misses.items()))


if __name__ == "__main__":
    main()
