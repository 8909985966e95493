#!/usr/bin/env python3
"""The closest circuit: `gazbolk closest` beside closest.rs, which has the same rules in plain Rust.

usage: closest.py PROGRAM [--count N] [--limits 3,4,5] [--seed S]

PROGRAM is crates/gazbolk/out/gazbolk. Draws random four-bit permutations, fixed and free layout in turn, that have no circuit within
the gate limit, at prices 1,1,5 and durations 1,1,7, and prints for each the misses, both processor times and their ratio. The answers are
compared. Needs rustc.
"""
import argparse
import os
import random
import resource
import subprocess
import sys
import tempfile

HERE = os.path.dirname(os.path.abspath(__file__))
sys.path.insert(0, os.path.join(os.path.dirname(HERE), "tools"))
from jobs import job  # noqa: E402


def timed(words, data=None):
    """What a program prints, and its processor seconds."""
    before = resource.getrusage(resource.RUSAGE_CHILDREN)
    out = subprocess.run(words, input=data, capture_output=True, check=True).stdout.decode()
    after = resource.getrusage(resource.RUSAGE_CHILDREN)
    return out, after.ru_utime + after.ru_stime - before.ru_utime - before.ru_stime


def drawn(program, name, draw, limit, free):
    """A job of a table that has no circuit within the limit."""
    while True:
        record = job(draw.sample(range(16), 16), limit, free=free)
        with open(name, "wb") as file:
            file.write(record)
        if timed([program, "search", name])[0].startswith("refused 14"):
            return record


def main():
    parser = argparse.ArgumentParser()
    parser.add_argument("program")
    parser.add_argument("--count", type=int, default=6)
    parser.add_argument("--limits", default="3,4,5")
    parser.add_argument("--seed", type=int, default=10)
    args = parser.parse_args()
    draw = random.Random(args.seed)
    with tempfile.TemporaryDirectory() as folder:
        plain, name = os.path.join(folder, "closest"), os.path.join(folder, "job")
        subprocess.run(["rustc", "-O", "-o", plain, os.path.join(HERE, "closest.rs")], check=True)
        for limit in map(int, args.limits.split(",")):
            total = [0.0, 0.0]
            for turn in range(args.count):
                record = drawn(args.program, name, draw, limit, turn % 2)
                said, ours = timed([args.program, "closest", name])
                other, theirs = timed([plain], record)
                assert said == other, (record.hex(), said, other)
                total = [total[0] + ours, total[1] + theirs]
                print("%d gates, %s: %s %7.3f s, plain %7.3f s, ratio %.2f" % (
                    limit, ("fixed", "free ")[turn % 2], said.splitlines()[0], ours, theirs, ours / max(theirs, 1e-3)))
            print("%d gates, all: %.2f s, plain %.2f s, ratio %.2f" % (limit, *total, total[0] / max(total[1], 1e-3)))


if __name__ == "__main__":
    main()
