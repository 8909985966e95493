#!/usr/bin/env python3
"""Writes the comparisons of two jobs, and adds the lines that they must print to those of the test program.

usage: price_vectors.py DATA_FILE STDOUT_FILE [--bench FOLDER]

    difference OLD NEW      the new least cost less the old: by N, by -N, or refused CODE
    gap OLD NEW             the difference of two costs of two bytes each

The job's checks are those of reference.py, the rules of 38 are written out below from document 02, and bench/brute.rs finds the
circuits. Each difference is held to the bounds that the request names. STDOUT_FILE holds the lines of the calls before; lines from the
first heading of this file on are replaced.
"""
import argparse
import os
import random
import subprocess
import tempfile

import reference as ref
from jobs import LONG, after, job

HERE = os.path.dirname(os.path.abspath(__file__))
FIRST = "# two jobs compared: equal jobs"
SAMPLE = [0, 2, 1, 3, 4, 6, 5, 7]
EXCHANGE_3_7 = [0, 1, 2, 7, 4, 5, 6, 3]
FOUR = after([0x06, 0x2C], 4)


def word(data):
    return bytes(data).hex().upper() or "-"


def changed(record, place, byte):
    return record[:place] + bytes([byte]) + record[place + 1:]


def price_places(record):
    return range(6, 10 if len(record) in ref.LONGER else 9)


def comparable(old, new):
    if len(old) != len(new):
        return False
    apart = [i for i in range(len(old)) if old[i] != new[i]]
    limits = all(record[2:4] == b"\xff\xff" for record in (old, new))
    return limits and len(apart) <= 1 and all(i in price_places(old) for i in apart)


class Vectors:
    def __init__(self, brute):
        self.brute, self.calls, self.lines, self.seen = brute, [], [], {}

    def heading(self, text):
        line = text if text.startswith("#") else "# " + text
        self.calls.append(line)
        self.lines.append(line)

    def searched(self, record):
        """The cost and the gates of the first circuit, or None."""
        if record not in self.seen:
            line = subprocess.run([self.brute], input=record, capture_output=True, check=True).stdout.decode().split()
            self.seen[record] = (int(line[2]), bytes.fromhex(line[-1])[3:]) if line[0] == "found" else None
        return self.seen[record]

    def answer(self, old, new):
        code = ref.check_job(old) or ref.check_job(new)
        if code or not comparable(old, new):
            return "refused %d" % (code or 38)
        before, now = self.searched(old), self.searched(new)
        assert (before is None) == (now is None)
        if before is None:
            return "refused 14"
        difference = now[0] - before[0]
        most = sum(max(new[6 + ref.kind_of(gate)] - old[6 + ref.kind_of(gate)], 0) for gate in before[1])
        least = -sum(max(old[6 + ref.kind_of(gate)] - new[6 + ref.kind_of(gate)], 0) for gate in now[1])
        assert least <= difference <= most
        return "by %d" % difference

    def add(self, old, new, want=None):
        answer = self.answer(old, new)
        assert want is None or answer == want, (word(old), word(new), answer)
        self.calls.append("difference %s %s" % (word(old), word(new)))
        self.lines.append(answer)
        return answer


def equal(v):
    v.heading(FIRST)
    for record in (job(SAMPLE, 3), job(SAMPLE, 3, **LONG), job(FOUR, 2), job(FOUR, 2, m=1, **LONG)):
        v.add(record, record, "by 0")
    v.add(job(SAMPLE, 2), job(SAMPLE, 2), "refused 14")


def places(v):
    for record in (job(SAMPLE, 3), job(SAMPLE, 3, **LONG), job(FOUR, 2), job(FOUR, 2, **LONG)):
        v.heading("every byte changed alone, %d bytes" % len(record))
        for place in range(len(record)):
            for byte in (record[place] ^ 1, record[place] ^ 0x80):
                v.add(record, changed(record, place, byte))


def prices(v):
    v.heading("two prices at once, and one back again")
    for old in (job(SAMPLE, 3), job(SAMPLE, 3, **LONG)):
        for i in price_places(old):
            for j in price_places(old):
                if i < j:
                    v.add(old, changed(changed(old, i, 77), j, 77), "refused 38")
    v.heading("prices 0 and 255, each from the other")
    for values, limit in ((SAMPLE, 3), (EXCHANGE_3_7, 2), (after([0x21], 3), 4)):
        for long in ({}, LONG):
            for place in price_places(job(values, limit, **long)):
                low, high = (changed(job(values, limit, **long), place, byte) for byte in (0, 255))
                v.add(low, high)
                v.add(high, low)
    v.heading("the circuit changes under the new price: a CNOT, or two NOT and two Toffoli")
    gate = after([0x21], 3)
    for byte in range(10):
        v.add(job(gate, 4, prices=(0, 5, 1)), job(gate, 4, prices=(0, byte, 1)))
        v.add(job(gate, 4, prices=(0, byte, 1)), job(gate, 4, prices=(0, 5, 1)))


def orders(v):
    v.heading("both 14, 38 before 14, and one job refused before the other")
    none = job(SAMPLE, 2)
    v.add(none, changed(none, 7, 200), "refused 14")
    v.add(none, changed(none, 9, 2), "refused 38")
    v.add(none, job(SAMPLE, 3), "refused 38")
    sound = job(SAMPLE, 3)
    broken = {1: sound[:-1], 2: changed(sound, 0, 0x80), 3: changed(sound, 0, 0x61), 4: changed(sound, 1, 13),
              5: changed(sound, 9, 0), 6: changed(sound, 19, 0x78)}
    for code, record in broken.items():
        v.add(record, sound, "refused %d" % code)
        v.add(sound, record, "refused %d" % code)
        for other, second in broken.items():
            v.add(record, second, "refused %d" % code)
    v.heading("lengths differ, and cost limits of 65,534")
    v.add(sound, job(SAMPLE, 3, **LONG), "refused 38")
    v.add(sound, job(FOUR, 3), "refused 38")
    for old, new in ((65534, 65535), (65535, 65534), (65534, 65534), (3, 3)):
        v.add(job(SAMPLE, 3, cost=old), job(SAMPLE, 3, cost=new), "refused 38")


def ends(v):
    v.heading("the difference of any two costs: zero and both ends")
    for old, new in ((0, 0), (0, 65535), (65535, 0), (65535, 65535), (0, 1), (1, 0), (32768, 32767), (255, 256)):
        v.calls.append("gap %04X %04X" % (old, new))
        v.lines.append("by %d" % (new - old))


def drawn(v):
    v.heading("drawn at random")
    draw = random.Random(14)
    for turn in range(120):
        long = draw.random() < 0.5
        kinds = 4 if long else 3
        gates = [draw.choice(ref.gate_table(3, 3 if long else 2)) for _ in range(draw.randint(1, 3))]
        record = job(after(gates, 3), 3, free=draw.choice((0, 0, 1)), prices=[draw.randrange(12) for _ in range(kinds)],
                     durations=[draw.randint(1, 9) for _ in range(kinds)])
        v.add(record, changed(record, draw.choice(price_places(record)), draw.choice((0, 1, draw.randrange(256), 255))))


def main():
    parser = argparse.ArgumentParser()
    parser.add_argument("data")
    parser.add_argument("stdout")
    parser.add_argument("--bench", default=os.path.join(os.path.dirname(HERE), "bench"))
    args = parser.parse_args()
    with tempfile.TemporaryDirectory() as folder:
        brute = os.path.join(folder, "brute")
        subprocess.run(["rustc", "-O", "-o", brute, os.path.join(args.bench, "brute.rs")], check=True)
        v = Vectors(brute)
        for part in (equal, places, prices, orders, ends, drawn):
            part(v)
    with open(args.data, "w", newline="\n") as file:
        file.write("\n".join(v.calls) + "\n")
    with open(args.stdout) as file:
        before = file.read().split(FIRST + "\n")[0]
    with open(args.stdout, "w", newline="\n") as file:
        file.write(before + "\n".join(v.lines) + "\n")
    print(len(v.calls), "lines", os.path.getsize(args.data), "bytes")


if __name__ == "__main__":
    main()
