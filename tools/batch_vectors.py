#!/usr/bin/env python3
"""Writes batches of jobs, and adds the lines that they must print to those of the test program.

usage: batch_vectors.py DATA_FILE STDOUT_FILE

    together JOBS AAAA SS       a batch with AAAA bytes of answers and SS of statuses; byte i of each buffer is 0xA0 + i at first.
                                Prints `jobs COUNT` or `refused CODE`, and both buffers, whole

The answer of each job is that of the library's vectors: reference.py's search over all gates lawful for the job, which tries every list.
STDOUT_FILE holds the lines of the calls before; lines from the first heading of this file on are replaced.
"""
import argparse
import os

import reference as ref
from jobs import LONG, job
from library_vectors import EXCHANGE_3_7, SAMPLE, full, word

FIRST = "# batches: no job, one, two; mixed sizes"
IDENTITY = list(range(8))


def filled(size):
    return bytearray((0xA0 + i) % 256 for i in range(size))


def cut(jobs):
    """The records, or None."""
    records = []
    while jobs and len(records) < 64:
        size = {3: 20, 4: 28}.get(jobs[0] >> 5, 0)
        if not 0 < size <= len(jobs):
            return None
        records.append(jobs[:size])
        jobs = jobs[size:]
    return None if jobs else records


class Alone:
    """What the single call answers, once for each record."""

    def __init__(self):
        self.known = {}

    def __call__(self, record):
        if record not in self.known:
            code = ref.check_job(record)
            self.known[record] = (code, None) if code else ref.search_with_call(record, full(record), 15)
        return self.known[record]


class Vectors:
    def __init__(self):
        self.alone, self.calls, self.lines = Alone(), [], []

    def heading(self, text):
        line = text if text.startswith("#") else "# " + text
        self.calls.append(line)
        self.lines.append(line)

    def batch(self, jobs, answers=None, statuses=None, want=None):
        records = cut(jobs)
        count = 0 if records is None else len(records)
        answers = 15 * count if answers is None else answers
        statuses = count if statuses is None else statuses
        cells, bytes_ = filled(answers), filled(statuses)
        code = 26 if records is None else 27 if answers < 15 * count or statuses < count else 0
        assert want is None or want == code, (word(jobs), code)
        if not code:
            for i, record in enumerate(records):
                status, found = self.alone(record)
                bytes_[i] = status
                if not status:
                    cells[15 * i:15 * i + len(found)] = found
        self.calls.append("together %s %04X %02X" % (word(jobs), answers, statuses))
        self.lines.append("%s %s %s" % ("refused %d" % code if code else "jobs %d" % count, word(cells), word(bytes_)))


def write(v):
    found, none = job(SAMPLE, 3), job(SAMPLE, 2)
    one, four = job(EXCHANGE_3_7, 1), job(list(range(16)), 1)
    identity = job(IDENTITY, 0)
    v.heading(FIRST)
    v.batch(b"")
    v.batch(b"", 3, 2)
    for record in (found, none, one, four, identity):
        v.batch(record)
    v.batch(found + none)
    v.batch(four + found + four + identity)
    v.heading("a refused job between two found ones: 14, and each number that a record can get")
    bad = [none, bytes([found[0] | 1]) + found[1:], bytes([found[0] | 0x10]) + found[1:], found[:1] + b"\x0d" + found[2:],
           found[:9] + b"\0" + found[10:], found[:12] + b"\x0f" + found[13:]]
    for record in bad:
        v.batch(one + record + identity)
        v.batch(record)
    v.batch(b"".join(bad))
    v.heading("64 records, and 65")
    v.batch(identity * 64, want=0)
    v.batch(identity * 65, 15 * 65, 65, want=26)
    v.batch(identity * 63 + four, want=0)
    mixed = [found, four, none, one, *bad, identity]
    v.batch(b"".join((mixed * 6)[:64]), 15 * 64 + 3, 66, want=0)
    v.batch(b"".join((mixed * 6)[:65]), 15 * 66, 66, want=26)
    v.batch(identity * 64 + b"\0", 15 * 65, 65, want=26)
    v.heading("a short last record, and one byte too many")
    for record in (found, four):
        for length in (1, 2, len(record) - 1, len(record) + 1):
            v.batch((record + identity)[:length], 60, 4, want=26)
            v.batch(found + (record + identity)[:length], 60, 4, want=26)
    v.heading("first bits 0, 1, 2, 5, 6, 7; 3 in 28 bytes, 4 in 20; a longer job is cut as its first bits say")
    for bits in (0, 1, 2, 5, 6, 7):
        for record in (found, four):
            other = bytes([bits << 5 | record[0] & 31]) + record[1:]
            v.batch(other, 60, 4, want=26)
            v.batch(found + other, 60, 4, want=26)
    v.batch(bytes([0x60]) + four[1:], 60, 4, want=26)
    v.batch(bytes([0x80]) + found[1:], 60, 4, want=26)
    for record in (job(SAMPLE, 3, **LONG), job(list(range(16)), 1, **LONG)):
        v.batch(record, 60, 4, want=26)
        v.batch(record + found, 60, 4)
    v.heading("a longer job and bytes that make another record of its last two")
    v.batch(job(SAMPLE, 3, **LONG) + found[2:], 60, 4, want=0)
    v.batch(job(list(range(16)), 1, masks=[15] * 14 + [8, 8], **LONG) + four[2:], 60, 4, want=0)
    v.heading("buffers too short by one, and longer; 26 before 27")
    for jobs, count in ((found, 1), (found + one, 2), (four + none + found, 3)):
        v.batch(jobs, 15 * count - 1, count, want=27)
        v.batch(jobs, 15 * count, count - 1, want=27)
        v.batch(jobs, 15 * count - 1, count - 1, want=27)
        v.batch(jobs, 15 * count + 1, count, want=0)
        v.batch(jobs, 15 * count, count + 1, want=0)
        v.batch(jobs, 15 * count + 20, count + 7, want=0)
        v.batch(jobs + b"\0", 15 * count - 1, count, want=26)
        v.batch(jobs[:-1], 0, 0, want=26)


def main():
    parser = argparse.ArgumentParser()
    parser.add_argument("data")
    parser.add_argument("stdout")
    given = parser.parse_args()
    v = Vectors()
    write(v)
    with open(given.data, "w", newline="\n") as file:
        file.write("\n".join(v.calls) + "\n")
    with open(given.stdout) as file:
        before = file.read().split(FIRST + "\n")[0]
    with open(given.stdout, "w", newline="\n") as file:
        file.write(before + "\n".join(v.lines) + "\n")
    print(len(v.calls), "lines", os.path.getsize(given.data), "bytes")


if __name__ == "__main__":
    main()
