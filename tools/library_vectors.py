#!/usr/bin/env python3
"""Writes the calls with a library, and adds the lines that they must print to those of the test program.

usage: library_vectors.py DATA_FILE STDOUT_FILE [--bench FOLDER]

    among JOB LIBRARY RR        a search with an answer buffer of RR bytes, filled and printed as in search_vectors.py
    with JOB LIBRARY CIRCUIT    verifying: within GATES COST DEPTH ready T0 T1 T2 T3 T4, or refused CODE

Expected values come from reference.py, whose search tries every list of the library's gates. Where the library lists all
gates at the job's own prices and durations, bench/brute.rs has to find the same. STDOUT_FILE holds the lines of the calls before;
lines from the first heading of this file on are replaced.
"""
import argparse
import os
import random
import subprocess
import tempfile

import reference as ref
from jobs import LONG, after, job

HERE = os.path.dirname(os.path.abspath(__file__))
FIRST = "# with a library: document 01's samples, all gates at the job's own prices and durations"
SAMPLE = [0, 2, 1, 3, 4, 6, 5, 7]
EXCHANGE_3_7 = [0, 1, 2, 7, 4, 5, 6, 3]
ODD_TABLE = list(range(7)) + [15] + list(range(8, 15)) + [7]


def word(data):
    return bytes(data).hex().upper() or "-"


def table_of(record):
    """The gates lawful for a job."""
    asked = ref.read_job(record)
    return ref.gate_table(asked.n + asked.m, 3 if asked.longer else 2)


def full(record):
    """All gates lawful for a job, at its own prices and durations."""
    asked = ref.read_job(record)
    return library((gate, asked.prices[ref.kind_of(gate)], asked.durations[ref.kind_of(gate)]) for gate in table_of(record))


def library(entries):
    return bytes(byte for entry in entries for byte in entry)


def touches(gate, wires):
    return set(wires) <= {ref.target_of(gate), *ref.controls_of(gate)}


class Vectors:
    def __init__(self, brute):
        self.brute, self.calls, self.lines = brute, [], []

    def heading(self, text):
        line = text if text.startswith("#") else "# " + text
        self.calls.append(line)
        self.lines.append(line)

    def add(self, call, answer):
        self.calls.append(call)
        self.lines.append(answer)

    def measures(self, gates, lib):
        price = {gate: price for gate, price, _ in ref.entries_of(lib)}
        duration = {gate: duration for gate, _, duration in ref.entries_of(lib)}
        ready = " ".join(map(str, ref.ready_by(gates, duration)))
        return "%d %d %d ready %s" % (*ref.measures_by(gates, price, duration), ready)

    def among(self, record, lib, room=15, want=None):
        code, found = ref.search_with_call(record, lib, room)
        assert want is None or want == code, (word(record), word(lib), code)
        buffer = bytearray((0xA0 + i) % 256 for i in range(room))
        if code:
            answer = "refused %d" % code
        else:
            buffer[:len(found)] = found
            answer = "found %d %s" % (len(found), self.measures(list(found[3:]), lib))
        self.add("among %s %s %02X" % (word(record), word(lib), room), answer + " " + word(buffer))
        return found

    def whole(self, record, room=15):
        """A search among all gates, which brute.rs has to answer alike."""
        found = self.among(record, full(record), room)
        line = subprocess.run([self.brute], input=record, capture_output=True, check=True).stdout.decode().split()
        assert line[-1] == (word(found) if found else "14"), word(record)

    def given(self, record, lib, circuit, want=None):
        code, measured = ref.verify_with_call(record, lib, circuit)
        assert want is None or want == code, (word(record), word(lib), word(circuit), code)
        answer = "refused %d" % code if code else "within " + self.measures(list(circuit[3:]), lib)
        self.add("with %s %s %s" % (word(record), word(lib), word(circuit)), answer)


def samples(v):
    v.heading(FIRST)
    for values, limit in ((SAMPLE, 3), (SAMPLE, 2), (EXCHANGE_3_7, 1)):
        v.whole(job(values, limit))
        v.whole(job(values, limit, **LONG))
    v.whole(job(SAMPLE, 3, free=1))
    v.whole(job(after([0x67], 4), 1, **LONG))
    v.whole(job(after([0x67], 4), 2, m=1, **LONG))
    v.whole(job(after([0x06, 0x2C], 4), 2, m=1))
    v.heading("an odd table on four data wires, gates of two controls: none, also at limit 12")
    odd = job(ODD_TABLE, 12)
    v.among(odd[:1] + b"\x02" + odd[2:], full(odd), want=14)
    v.add("among %s %s 0F" % (word(odd), word(full(odd))), "refused 14 " + word((0xA0 + i) % 256 for i in range(15)))


def sizes(v):
    v.heading("29: lengths 0 to 6, 225 to 228; an empty library is one")
    three, five = job(list(range(8)), 1), job(list(range(16)), 1, m=1, **LONG)
    for length in range(7):
        v.among(three, full(three)[:length], want=29 if length % 3 else 0)
    whole = full(five)
    assert len(whole) == 225
    for lib in (whole, whole[:224], whole + b"\0", whole + whole[:3]):
        v.among(five, lib, want=0 if lib == whole else 29)
        v.given(five, lib, bytes([0x89, 0x1B, 0]), want=0 if lib == whole else 29)


def faults(v):
    """Each fault of 30 at the first entry, a middle one and the last."""
    v.heading("30: a gate unlawful for the job, a duration of 0, a gate byte equal to the last or below it; first, middle and last entry")
    for record in (job(SAMPLE, 1), job(list(range(8)), 1, m=1, **LONG), job(list(range(16)), 0)):
        entries = ref.entries_of(full(record))
        circuit = bytes([record[0] & 0xF8 | (len(record) in ref.LONGER), ref.PLAIN_LAYOUT[record[0] >> 5], 0])
        unlawful = (0x60, 0x01, 0x0E) if record[0] >> 3 == 12 else (0xA0, 0x61 | 0x08, 0x0F)
        for place in (0, len(entries) // 2, len(entries) - 1):
            gate, price, duration = entries[place]
            edits = [(other, price, duration) for other in unlawful] + [(gate, price, 0), (gate, 0, 0)]
            if place:
                edits += [(entries[place - 1][0], price, duration), (entries[0][0], price, duration)]
            for edit in edits:
                lib = library(entries[:place] + [edit] + entries[place + 1:])
                v.among(record, lib, want=30)
                v.given(record, lib, circuit, want=30)
        v.among(record, library(entries[:1] * 2), want=30)
        v.among(record, library(reversed(entries[:2])), want=30)
    v.heading("a gate of three controls in a library: 30 for a shorter job, none for a longer")
    for long in (dict(), LONG):
        v.among(job(list(range(16)), 0, **long), library([(0x67, 1, 1)]), want=0 if long else 30)


def orders(v):
    v.heading("two rules broken: the job's before 29, 29 before 30, 30 before 13 and before the circuit's")
    sound = job(SAMPLE, 3)
    bad29, bad30 = b"\0", library([(0xE0, 1, 1)])
    for broken in (sound[:19], b"", bytes([0x80]) + sound[1:], bytes([0x61]) + sound[1:], sound[:1] + b"\x0d" + sound[2:],
                   sound[:9] + b"\0" + sound[10:], sound[:12] + b"\x01" + sound[13:]):
        for lib in (bad29, bad30, full(sound)):
            v.among(broken, lib)
            v.given(broken, lib, b"")
    v.among(sound, bad30 + b"\0", want=29)
    v.among(sound, bad30 * 76, want=29)
    for lib, code in ((bad29, 29), (bad30, 30), (full(sound), 13), (b"", 13)):
        v.among(sound, lib, 14, want=code)
        v.among(sound, lib, 0, want=code)
    for lib, code in ((bad29, 29), (bad30, 30)):
        for circuit in (b"", b"\0\0\0", bytes.fromhex("60180143"), bytes.fromhex("60190143")):
            v.given(sound, lib, circuit, want=code)
    v.heading("buffers of 15, 16 and 64 bytes")
    for room in (15, 16, 64):
        v.among(sound, full(sound), room, want=0)
        v.among(sound, b"", room, want=14)


def listed(v):
    v.heading("31: a gate absent, first, middle and last of the circuit; after 12 and 28, before 15, 16, 24 and the limits")
    record = job(SAMPLE, 3)
    circuit = bytes.fromhex("601803022102")
    v.given(record, full(record), circuit, want=0)
    for absent in (0x02, 0x21):
        v.given(record, library(entry for entry in ref.entries_of(full(record)) if entry[0] != absent), circuit, want=31)
    less = library(entry for entry in ref.entries_of(full(record)) if entry[0] not in (0x43, 0x24))
    for text in ("601803022143", "601803024302", "601803430221", "602403022143", "60180443022102", "60180143"):
        v.given(record, less, bytes.fromhex(text), want=31)
    v.given(record, less, bytes.fromhex("602403022102"), want=15)
    v.given(record, less, bytes.fromhex("60180102"), want=16)
    v.given(record, less, bytes.fromhex("68180143"), want=12)
    v.given(record, less, bytes.fromhex("61180143"), want=28)
    v.given(record, less, bytes.fromhex("60180122"), want=21)
    v.given(job(SAMPLE, 2), less, circuit, want=17)
    v.given(job(SAMPLE, 2), library([(0x02, 1, 1)]), circuit, want=31)
    spare = job(list(range(8)), 1, m=1)
    v.given(spare, full(spare), bytes.fromhex("68180160"), want=24)
    v.given(spare, library([(0x00, 1, 1)]), bytes.fromhex("68180160"), want=31)
    v.heading("an empty library: the identity is found and passes, all else is 14, 31")
    for n in (3, 4):
        for m in (0, 1):
            for long in (dict(), LONG):
                own = job(list(range(1 << n)), 12, m=m, **long)
                v.among(own, b"", want=0)
                v.given(own, b"", bytes([n << 5 | m << 3 | bool(long), ref.PLAIN_LAYOUT[n], 0]), want=0)
                other = job(after([0x00], n), 12, m=m, **long)
                v.among(other, b"", want=14)
                v.given(other, b"", bytes([n << 5 | m << 3, ref.PLAIN_LAYOUT[n], 1, 0x00]), want=31)


def weights(v):
    v.heading("the library's prices and durations, not the job's: limits met exactly and missed by one")
    lib = library([(0x02, 10, 3), (0x21, 200, 255)])
    for cost, depth in ((220, 261), (219, 261), (220, 260)):
        record = job(SAMPLE, 3, cost=cost, depth=depth)
        v.among(record, lib)
        v.given(record, lib, bytes.fromhex("601803022102"))
    v.heading("a price of 0 for one gate only, and of 255")
    record = job(after([0x21], 3), 4)
    for gate in (0x21, 0x25, 0x40, 0x02):
        for price in (0, 255):
            entries = [(g, price if g == gate else p + 1, d) for g, p, d in ref.entries_of(full(record)) if g in (0x02, 0x06, 0x21, 0x25, 0x40)]
            v.among(record, library(entries))
    for gate in (0x43, 0x67):
        record = job(after([gate], 4), 2, **LONG)
        v.among(record, library((g, 0 if g == gate else p, d) for g, p, d in ref.entries_of(full(record))))
    v.heading("one coupling missing: no gate on wires 0 and 1, or on 1 and 2")
    for values, limit in ((SAMPLE, 3), (EXCHANGE_3_7, 3), (after([0x21], 3), 3)):
        for pair in ((0, 1), (1, 2)):
            for long in (dict(), LONG):
                record = job(values, limit, **long)
                v.among(record, library(entry for entry in ref.entries_of(full(record)) if not touches(entry[0], pair)))


def drawn(v):
    v.heading("random libraries, shorter and longer jobs")
    draw = random.Random(11)
    for turn in range(120):
        n, m, long = draw.choice((3, 4)), draw.choice((0, 1)), draw.choice((False, True))
        kinds = 4 if long else 3
        most = draw.choice((1, 2, 3, 4))
        base = job([0] * (1 << n), most, m=m, prices=[1] * kinds, durations=[1] * kinds)
        chosen = sorted(draw.sample(table_of(base), draw.randint(1, (12, 12, 7, 5)[most - 1])))
        lib = library((gate, draw.choice((0, 1, 1, 2, 5, 255)), draw.choice((1, 1, 2, 3, 7, 255))) for gate in chosen)
        hidden = [draw.choice(chosen) for _ in range(draw.randint(0, most))]
        values = after(hidden, n, m) if draw.random() < 0.8 else [draw.randrange(1 << n) for _ in range(1 << n)]
        masks = None if draw.random() < 0.4 else [draw.choice((0, (1 << n) - 1, draw.randrange(1 << n))) for _ in values]
        cost = draw.choice((0xFFFF, 0xFFFF, draw.randint(0, 12)))
        depth = draw.choice((0xFFFF, 0xFFFF, draw.randint(1, 12)))
        record = job(values, most, m=m, free=draw.choice((0, 0, 1)), cost=cost, depth=depth, masks=masks,
                     prices=[draw.randrange(9) for _ in range(kinds)], durations=[draw.randint(1, 9) for _ in range(kinds)])
        found = v.among(record, lib)
        if turn % 3 == 0:
            circuit = found or bytes([n << 5 | m << 3 | long, ref.PLAIN_LAYOUT[n], len(hidden)] + hidden)
            v.given(record, lib, circuit)


def main():
    parser = argparse.ArgumentParser()
    parser.add_argument("data")
    parser.add_argument("stdout")
    parser.add_argument("--bench", default=os.path.join(os.path.dirname(HERE), "bench"))
    args = parser.parse_args()
    with tempfile.TemporaryDirectory() as folder:
        brute = os.path.join(folder, "brute")
        subprocess.run(["rustc", "-O", "-o", brute, os.path.join(args.bench, "brute.rs")], check=True)
        v = Vectors(brute)
        for part in (samples, sizes, faults, orders, listed, weights, drawn):
            part(v)
    with open(args.data, "w", newline="\n") as file:
        file.write("\n".join(v.calls) + "\n")
    with open(args.stdout) as file:
        before = file.read().split(FIRST + "\n")[0]
    with open(args.stdout, "w", newline="\n") as file:
        file.write(before + "\n".join(v.lines) + "\n")
    print(len(v.calls), "lines", os.path.getsize(args.data), "bytes")


if __name__ == "__main__":
    main()
