"""Writes the test vectors: files of calls, and what the calls have to print.

    vectors.py DATA STDOUT NAME...

writes DATA/NAME for every name, and into STDOUT the expected output of all of
them, one after another in the order named. Names: jobs circuits counts running
measuring verifying parity longer marked. Nothing is written unless `self_check` passes.
The test program goes on with the calls of search_vectors.py, whose lines follow,
and with data/lines, which is written by hand.

A data file has one call a line, its words one space apart. Byte strings are
upper-case hexadecimal, the empty one is `-`. A line that starts with `#` is a
heading and is printed as it is.

    job HEX | circuit HEX               sound
    every HEX                           codes, and the code of the circuit with each count byte, 0 to 255
    forwards HEX VV | backwards HEX VV  value VV
    measure JOB CIRCUIT | verify ..     within GATES COST DEPTH ready T0 T1 T2 T3 T4 (decimal)
    parity JOB                          even | odd | neither
    and any of them                     refused CODE

Answers come from reference.py. Where the author knows the answer beforehand,
the vector states it as `want`, and a difference stops the generator.
"""

import itertools
import os
import sys

import reference as ref

FILE_BELOW = 56 * 1024
LINE_BELOW = 8000
# The rules in the order in which they are asked; the first one broken is told.
ORDER = [1, 2, 3, 4, 5, 6, 7, 8, 9, 10, 21, 12, 28, 15, 16, 24, 17, 18, 19]
SHAPES = [(3, 0), (3, 1), (4, 0), (4, 1)]       # n and m
GATES = {wires: ref.gate_table(wires) for wires in (3, 4, 5)}
MORE_GATES = {wires: ref.gate_table(wires, 3) for wires in (3, 4, 5)}
# What makes a job a longer one: prices and durations of four kinds.
LONG = dict(prices=(1, 1, 5, 9), durations=(1, 1, 7, 11))

# Tables printed in source document 002, with their inversions and parity.
TABLES_002 = [
    ("RECTANGLE", "65CA1E79B03D8F42", 62, "even"),
    ("GIFT", "1A4C6F392DB7508E", 56, "even"),
    ("PRESENT", "C56B90AD3EF84712", 70, "even"),
    ("SKINNY", "C6901A2B385D4E7F", 44, "even"),
    ("MIDORI", "CAD3EBF789150246", 86, "even"),
    ("inverse in the field of 16", "062493D51EC78ABF", 31, "odd"),
    ("ELEPHANT", "EDB0214F7A859C36", 64, "even"),
    ("LBLOCK", "E9F0D4AB128376C5", 72, "even"),
    ("UBLOCK", "749CBAD8FE160325", 74, "even"),
    ("linear map", "093A6F5CD4E7B281", 60, "even"),
]
# Tables of source document 003: appendix B, and the classes G0 to G15 of
# table C1, of which section 5.2 names the even ones.
TABLES_003 = [
    ("PICCOLO", "E4B238091A7F6C5D", "even"),
    ("LAC", "E9F0D4AB128376C5", "even"),
    ("PROST", "048F15E927ACBD63", "even"),
    ("G0", "012D47F68BC93EA5", "even"), ("G1", "012D47F68BE359AC", "even"),
    ("G2", "012D47F68BE3AC59", "even"), ("G3", "012D47F68C53AEB9", "odd"),
    ("G4", "012D47F68C9BAE53", "even"), ("G5", "012D47F68CB9AE35", "even"),
    ("G6", "012D47F68CB9AE53", "odd"), ("G7", "012D47F68CEBA935", "even"),
    ("G8", "012D47F68E95AB3C", "even"), ("G9", "012D47F68EB359AC", "odd"),
    ("G10", "012D47F68EB5A93C", "odd"), ("G11", "012D47F68EBA59C3", "odd"),
    ("G12", "012D47F68EBA93C5", "odd"), ("G13", "012D47F68EC95BA3", "even"),
    ("G14", "012D47F68ECB395A", "odd"), ("G15", "012D47F68ECB93A5", "odd"),
]
GIFT = "1A4C6F392DB7508E"
# The eight gates of 003's example 4, and the layout under which they make GIFT.
GIFT_GATES = bytes.fromhex("250A644220632843")
GIFT_LAYOUT = 0x78


# ---- building blocks ------------------------------------------------------

class Draw:
    """A small generator of numbers, so that each run makes the same files."""

    def __init__(self, seed):
        self.state = seed

    def below(self, bound):
        self.state = (self.state * 6364136223846793005 + 1442695040888963407) % 2 ** 64
        return (self.state >> 33) % bound

    def among(self, items):
        return items[self.below(len(items))]

    def gates(self, wires, count, table=GATES):
        return bytes(self.among(table[wires]) for _ in range(count))

    def shuffled(self, items):
        items = list(items)
        for i in range(len(items) - 1, 0, -1):
            j = self.below(i + 1)
            items[i], items[j] = items[j], items[i]
        return items


def job(n, rows, m=0, free=0, gates=12, cost=0xFFFF, depth=0xFFFF,
        prices=(1, 1, 5), durations=(1, 1, 7)):
    """A job's bytes from its fields; the rows are bytes already."""
    return (bytes([n << 5 | m << 3 | free << 2, gates])
            + cost.to_bytes(2, "big") + depth.to_bytes(2, "big")
            + bytes(prices) + bytes(durations) + bytes(rows))


def full(values):
    """Rows that care about every bit of a table of 8 or 16 values."""
    values = [int(v, 16) if isinstance(v, str) else v for v in values]
    return bytes((len(values) - 1) << 4 | value for value in values)


def own(n):
    """Rows that ask each number to stay as it is."""
    return full(range(2 ** n))


def exchanged(n, a, b):
    values = list(range(2 ** n))
    values[a], values[b] = b, a
    return full(values)


def circuit(n, m, gates, layout=None, mark=0):
    layout = ref.PLAIN_LAYOUT[n] if layout is None else layout
    return bytes([n << 5 | m << 3 | mark, layout, len(gates)]) + bytes(gates)


def outputs(n, gates, layout):
    """What the gates make of each row, read off in the layout's order."""
    wires = ref.layout_wires(layout)[:n]
    return [sum(ref.bit(ref.run(gates, x), wire) << j
                for j, wire in enumerate(wires)) for x in range(2 ** n)]


def put(data, at, byte):
    """The same bytes with one of them replaced."""
    return data[:at] + bytes([byte]) + data[at + 1:]


def word(data):
    return data.hex().upper() or "-"


def answer(line):
    """What has to be printed for one line of a data file."""
    if line.startswith("#"):
        return line
    name, *words = line.split(" ")
    args = [b"" if w == "-" else bytes.fromhex(w) for w in words]
    if name == "job":
        code, text = ref.check_job(args[0]), "sound"
    elif name == "circuit":
        code, text = ref.check_circuit(args[0]), "sound"
    elif name == "every":
        codes = [ref.check_circuit(put(args[0], 2, count)) for count in range(256)]
        return " ".join(["codes"] + [str(code) for code in codes])
    elif name in ("forwards", "backwards"):
        along = ref.run if name == "forwards" else ref.undo
        code, value = ref.run_call(args[0], args[1][0], along)
        text = "refused" if code else "value %02X" % value
    elif name in ("measure", "verify"):
        call = ref.measure_call if name == "measure" else ref.verify_call
        code, measured = call(args[0], args[1])
        text = "refused" if code else "within %d %d %d %s" % (*measured, ready(*args))
    elif name == "parity":
        code, text = ref.parity_call(args[0])
    else:
        raise ValueError(line)
    return "refused %d" % code if code else text


def ready(job, circuit):
    """When each of five wires comes free, as it is printed."""
    return ref.ready_words(ref.read_circuit(circuit).gates, ref.read_job(job).durations)


class Calls:
    """The lines of one data file and their answers, gathered in order."""

    def __init__(self):
        self.lines = []
        self.answers = []

    def heading(self, text):
        self.lines.append("# " + text)
        self.answers.append("# " + text)

    def add(self, want, name, *args):
        """One call. `want` is a code, the whole answer, or None: not known."""
        line = " ".join([name] + [word(arg) for arg in args])
        got = answer(line)
        if isinstance(want, int):
            want = "refused %d" % want
        if want is not None and want != got.split(" ready")[0] and want != got:
            raise AssertionError("%s\n  gives %s, want %s" % (line, got, want))
        self.lines.append(line)
        self.answers.append(got)


def within(measures):
    return "within %d %d %d" % tuple(measures)


# The job of document 01's example, one for four wires, and a circuit each for
# three wires and for five.
J3 = bytes.fromhex("6003FFFFFFFF0101050101077072717374767577")
J4 = job(4, full(GIFT))
C3 = bytes.fromhex("601803022102")
C5 = bytes.fromhex("881B03837483")
# The same for longer jobs and marked circuits.
L3 = job(3, full([0, 2, 1, 3, 4, 6, 5, 7]), gates=3, **LONG)
L4 = job(4, full(GIFT), **LONG)
M4 = bytes.fromhex("811B03670067")
M5 = bytes.fromhex("891B0383748E")


# ---- one rule broken at a time, in several ways ---------------------------

def job_breaks(n, kinds=3):
    """For each code, ways to turn a sound job into one that breaks the rule.
    A longer job has prices and durations of four kinds."""
    first, row = 6 + kinds, 6 + 2 * kinds + 2 ** n // 2
    rows = (0x01, 0x61, 0x80, 0x08) if n == 3 else (0x01, 0x61, 0xB4, 0x08)
    return {
        1: [lambda j: j[:-1], lambda j: j + b"\0"],
        2: [lambda j, v=v: put(j, 0, j[0] & 31 | v << 5) for v in (7 - n, 7)],
        3: [lambda j, v=v: put(j, 0, j[0] & 0xE4 | v) for v in (16, 1, 2, 27)],
        4: [lambda j, v=v: put(j, 1, v) for v in (13, 255)],
        5: [lambda j, at=at: put(j, at, 0) for at in range(first, first + kinds)],
        6: [lambda j, v=v: put(j, row, v) for v in rows],
    }


def circuit_breaks(n, m, mark=0):
    """The same for a circuit of three gates or more. The number 11 is unused."""
    layouts = (0x00, 0x1B, 0x3C, 0x19) if n == 3 else (0x00, 0x18, 0x1A, 0x5B)
    firsts = (0x20 | mark, n << 5 | 16 | mark, n << 5 | 2 | mark, n << 5 | 12 | mark)
    three_controls = 0x67 if n + m > 3 else 0x47
    four_controls = 0x8F if n + m > 4 else 0x6F
    gates = (0x22, (n + m) << 5, four_controls if mark else three_controls, 0xE0)
    return {
        7: [lambda c: c[:2] + bytes([13]) + (c[3:] * 5)[:13],
            lambda c: c + b"\0" * 13],
        8: [lambda c, v=v: put(c, 0, v) for v in firsts],
        9: [lambda c, v=v: put(c, 1, v) for v in layouts],
        10: [lambda c, v=v: put(c, 2, (c[2] + v) % 256) for v in (1, -1, 64, -4)],
        21: [lambda c, v=v: put(c, len(c) - 1, v) for v in gates],
    }


def two_broken(calls, name, sound, breaks):
    """Two rules broken at once, in every pair of ways: the earlier is told."""
    for first, second in itertools.combinations(breaks, 2):
        for early, late in itertools.product(breaks[first], breaks[second]):
            calls.add(first, name, late(early(sound)))


def rest_broken(calls, name, sound, breaks):
    """All rules broken from each one on."""
    codes = list(breaks)
    for at, first in enumerate(codes):
        bad = sound
        for code in codes[at:]:
            bad = breaks[code][0](bad)
        calls.add(first, name, bad)


def one_way(breaks):
    return {code: ways[-1:] for code, ways in breaks.items()}


# ---- jobs -----------------------------------------------------------------

def job_lengths(calls):
    calls.heading("job: lengths 0 to 40, cut from or grown from sound jobs")
    for sound, size in ((J3, 20), (J4, 28)):
        longer = sound + own(4) + own(3)
        for length in range(41):
            want = {size: "sound", size + 2: 6 if size == 20 else "sound",
                    48 - size: 2, 50 - size: 2}.get(length, 1)
            calls.add(want, "job", longer[:length])
    calls.heading("job: lengths that are right but for 256, and 3000 bytes")
    calls.add(1, "job", J3 + b"\x77" * 256)
    calls.add(1, "job", J4 + b"\xFF" * 256)
    calls.add(1, "job", J3 * 150)


def job_byte_0(calls):
    calls.heading("job: byte 0, each n with either length")
    for sound, right in ((J3, 3), (J4, 4)):
        for n in range(8):
            for low in (0, 31):
                want = 2 if n != right else 3 if low == 31 else "sound"
                calls.add(want, "job", put(sound, 0, n << 5 | low))
    calls.heading("job: byte 0, each m, layout bit and pair of last bits")
    for sound, n in ((J3, 3), (J4, 4)):
        for low in range(32):
            want = 3 if low >= 16 or low & 3 else "sound"
            calls.add(want, "job", put(sound, 0, n << 5 | low))


def job_numbers(calls):
    calls.heading("job: gate limit")
    for sound, limits in ((J3, [*range(16), 127, 128, 140, 255]), (J4, [0, 12, 13, 255])):
        for limit in limits:
            calls.add("sound" if limit <= 12 else 4, "job", put(sound, 1, limit))
    calls.heading("job: durations")
    for sound, ends in ((J3, (0, 1, 255)), (J4, (0, 1))):
        for durations in itertools.product(ends, repeat=3):
            calls.add(5 if 0 in durations else "sound", "job",
                      sound[:9] + bytes(durations) + sound[12:])
    calls.heading("job: prices and the other two limits may be anything")
    for at in range(2, 9):
        for value in (0, 255):
            calls.add("sound", "job", put(J3, at, value))


def job_rows(calls):
    calls.heading("job: every byte as a row, n = 3")
    for row in range(256):
        care, value = row >> 4, row & 15
        sound = value | care == care and care < 8
        calls.add("sound" if sound else 6, "job", put(J3, 15, row))
    calls.heading("job: rows, n = 4, for each care mask values within it and beyond it")
    for care in range(16):
        for value in sorted({0, care, care & 5, 15 - care, 8}):
            sound = value | care == care
            calls.add("sound" if sound else 6, "job", put(J4, 20, care << 4 | value))
    calls.heading("job: a bad row at the beginning, in the middle, at the end")
    for x in (0, 4, 7):
        for row in (0x01, 0x02, 0x04, 0x61, 0x52, 0x34, 0x08, 0x78, 0x80, 0xF7, 0x88, 0xFF):
            calls.add(6, "job", put(J3, 12 + x, row))
    for x in (0, 8, 15):
        for row in (0x01, 0x02, 0x04, 0x08, 0xE1, 0xD2, 0xB4, 0x78):
            calls.add(6, "job", put(J4, 12 + x, row))


def job_sound(calls):
    calls.heading("job: sound ones of every shape, free and fixed")
    low = dict(gates=0, cost=0, depth=0, prices=(0,) * 3, durations=(1,) * 3)
    high = dict(cost=255, depth=0xFF00, prices=(255,) * 3, durations=(255,) * 3)
    for n, m in SHAPES:
        for free in (0, 1):
            calls.add("sound", "job", job(n, own(n), m, free))
            calls.add("sound", "job", job(n, bytes(2 ** n), m, free, **low))
            calls.add("sound", "job", job(n, own(n), m, free, **high))


def job_order(calls):
    calls.heading("job: two rules broken, and all from one on")
    two_broken(calls, "job", J3, job_breaks(3))
    two_broken(calls, "job", J4, one_way(job_breaks(4)))
    rest_broken(calls, "job", J3, job_breaks(3))
    rest_broken(calls, "job", J4, job_breaks(4))


# ---- circuits -------------------------------------------------------------

def circuit_lengths(calls):
    calls.heading("circuit: lengths 0 to 20 with the count to match")
    for n, m in ((3, 0), (4, 1)):
        gates = (GATES[n + m] * 2)[:17]
        for length in range(21):
            want = "sound" if 3 <= length <= 15 else 7
            calls.add(want, "circuit", circuit(n, m, gates[:max(length - 3, 0)])[:length])
    calls.heading("circuit: lengths 0 to 20, all zero")
    for length in range(21):
        calls.add(8 if 3 <= length <= 15 else 7, "circuit", bytes(length))
    calls.heading("circuit: lengths that are right but for 256, and 1200 bytes")
    calls.add(7, "circuit", bytes([0x60, 0x18, 0]) + bytes(256))
    calls.add(7, "circuit", bytes([0x60, 0x18, 12]) + bytes(268))
    calls.add(7, "circuit", C3 * 200)
    calls.heading("circuit: more than 12 gates")
    calls.add(7, "circuit", circuit(3, 0, bytes(13)))
    calls.add(10, "circuit", put(circuit(3, 0, bytes(12)), 2, 13))


def circuit_head(calls):
    calls.heading("circuit: every byte 0")
    for byte in range(256):
        plain = 0x18 if byte < 0x80 else 0x1B
        sound = byte & 0xFE in (0x60, 0x68, 0x80, 0x88)      # the lowest bit is the mark
        calls.add("sound" if sound else 8, "circuit", bytes([byte, plain, 0]))
    calls.heading("circuit: every layout; with an ancilla, all that leave out output 3")
    for n, m, each in ((3, 0, 1), (4, 0, 1), (3, 1, 4)):
        sound = {sum(wire << 2 * (3 - j) for j, wire in enumerate(wires))
                 for wires in itertools.permutations(range(n))}
        for layout in range(0, 256, each):
            calls.add("sound" if layout in sound else 9, "circuit",
                      circuit(n, m, b"", layout))
    calls.heading("circuit: the count byte")
    for n, m in ((3, 0), (4, 1)):
        for length in (0, 1, 2, 11, 12):
            record = circuit(n, m, GATES[n + m][:length])
            near = {(length + off) % 256 for off in (-3, -1, 0, 1, 3, 128)}
            for count in sorted(near | {0, 12, 13, 15, 255}):
                calls.add("sound" if count == length else 10, "circuit",
                          put(record, 2, count))


def circuit_counts(calls):
    calls.heading("circuit: every count byte, lengths 3 to 16; the codes are 0, 7 and 10")
    for n, m in ((3, 0), (4, 1)):
        gates = (GATES[n + m] * 2)[:13]
        for length in range(3, 17):
            want = [7 if length > 15 else 0 if count == length - 3 else 10 for count in range(256)]
            record = circuit(n, m, gates[:length - 3])
            calls.add(" ".join(["codes"] + [str(code) for code in want]), "every", record)


def built_gates(wires, most=2):
    """The lawful bytes once more, put together instead of sieved."""
    return {target << 5 | sum(1 << control for control in controls)
            for target in range(wires) for size in range(most + 1)
            for controls in itertools.combinations(set(range(wires)) - {target}, size)}


def circuit_gates(calls):
    for n, m in SHAPES:
        calls.heading("circuit: every byte as the only gate, n = %d, m = %d" % (n, m))
        sound = built_gates(n + m)
        for gate in range(256):
            calls.add("sound" if gate in sound else 21, "circuit", circuit(n, m, [gate]))
    calls.heading("circuit: a bad gate first, in the middle, last, and everywhere")
    for n, m in SHAPES:
        wires = n + m
        gates = bytes(GATES[wires][:12])
        control_out = 1 << wires if wires < 5 else 0xBF
        three_controls = 0x67 if wires > 3 else 0x47
        for gate in (0x22, 0x90, wires << 5, 0xE0, control_out, three_controls):
            for at in (0, 5, 11):
                calls.add(21, "circuit", circuit(n, m, put(gates, at, gate)))
            calls.add(21, "circuit", circuit(n, m, [gate] * 12))
    calls.heading("circuit: one gate twelve times")
    for n, m in SHAPES:
        for gate in (0x00, 0x21, 0x43, (n + m - 1) << 5 | 3):
            calls.add("sound", "circuit", circuit(n, m, [gate] * 12))


def circuit_order(calls):
    calls.heading("circuit: two rules broken, and all from one on")
    two_broken(calls, "circuit", C3, circuit_breaks(3, 0))
    two_broken(calls, "circuit", C5, one_way(circuit_breaks(4, 1)))
    rest_broken(calls, "circuit", C3, circuit_breaks(3, 0))
    rest_broken(calls, "circuit", C5, circuit_breaks(4, 1))
    calls.heading("circuit: too short, and what there is of it bad")
    for record in (b"\0", b"\xFF", b"\x60\0", b"\x60\xFF", b"\0\x18"):
        calls.add(7, "circuit", record)


# ---- running --------------------------------------------------------------

def both_ways(calls, record, values, want=None):
    for value in values:
        calls.add(want, "forwards", record, bytes([value]))
        calls.add(want, "backwards", record, bytes([value]))


def run_few(calls):
    calls.heading("run: samples")
    for value, result in ((3, 7), (7, 3), (5, 5)):
        both_ways(calls, circuit(3, 0, [0x43]), [value], "value %02X" % result)
    calls.add("value 03", "forwards", circuit(3, 0, [0x21]), b"\1")
    calls.heading("run: the order of the gates tells forwards from backwards")
    for gates, there, back in (("0021", 3, 1), ("2100", 1, 3), ("002143", 7, 1),
                               ("432100", 1, 7), ("200043", 7, 3), ("0221", 0, 0)):
        record = circuit(3, 0, bytes.fromhex(gates))
        calls.add("value %02X" % there, "forwards", record, b"\0")
        calls.add("value %02X" % back, "backwards", record, b"\0")
    calls.heading("run: the empty circuit leaves every value alone")
    for n, m in SHAPES:
        for value in range(2 ** (n + m)):
            both_ways(calls, circuit(n, m, b""), [value], "value %02X" % value)


def run_ends(calls):
    draw = Draw(2)
    calls.heading("run: the last value and those beyond it")
    for n, m in SHAPES:
        top = 2 ** (n + m)
        for length in (0, 1, 12):
            record = circuit(n, m, draw.gates(n + m, length))
            both_ways(calls, record, [top - 1])
            both_ways(calls, record, [top, top + 1, 128, 255], 20)
    calls.heading("run: the circuit's rules come before the value's")
    for sound, n, m in ((C3, 3, 0), (C5, 4, 1)):
        for code, ways in circuit_breaks(n, m).items():
            for way in ways:
                calls.add(code, "forwards", way(sound), b"\0")
                both_ways(calls, way(sound), [2 ** (n + m)], code)
    for record in (b"", b"\x60", b"\x60\x18"):
        both_ways(calls, record, [0, 255], 7)


def run_each_gate(calls):
    calls.heading("run: every gate of three wires on every value")
    for gate in GATES[3]:
        for value in range(8):
            calls.add(None, "forwards", circuit(3, 0, [gate]), bytes([value]))
    calls.heading("run: every gate of more wires on 0, on all ones, and less one wire")
    for n, m in ((4, 0), (4, 1)):
        top = 2 ** (n + m)
        for gate in GATES[n + m]:
            touched = [ref.target_of(gate)] + ref.controls_of(gate)
            for value in [0, top - 1] + [top - 1 - (1 << wire) for wire in touched]:
                calls.add(None, "forwards", circuit(n, m, [gate]), bytes([value]))
    calls.heading("run: the ancilla may start at 1, and may be a control or a target")
    for n, m, gates in ((3, 1, [0x28, 0x63]), (4, 1, [0x83, 0x74, 0x10]), (3, 1, [0x60])):
        top = 2 ** (n + m)
        both_ways(calls, circuit(n, m, gates), range(top // 2, top))


def run_lists(calls):
    draw = Draw(3)
    calls.heading("run: all values of some circuits")
    both_ways(calls, C3, range(8))
    both_ways(calls, circuit(3, 0, draw.gates(3, 5)), range(8))
    both_ways(calls, circuit(4, 0, GIFT_GATES, GIFT_LAYOUT), range(16))
    both_ways(calls, C5, range(32))
    calls.heading("run: twelve gates, all values")
    for n, m in SHAPES:
        both_ways(calls, circuit(n, m, draw.gates(n + m, 12)), range(2 ** (n + m)))
    calls.heading("run: forwards, then backwards from there")
    for n, m in SHAPES:
        for length in range(1, 13):
            gates = draw.gates(n + m, length)
            value = draw.below(2 ** (n + m))
            there = ref.run(gates, value)
            calls.add("value %02X" % there, "forwards", circuit(n, m, gates), bytes([value]))
            calls.add("value %02X" % value, "backwards", circuit(n, m, gates), bytes([there]))
    calls.heading("run: the layout makes no difference")
    gates = draw.gates(3, 7)
    for layout in ref.layouts(3):
        both_ways(calls, circuit(3, 0, gates, layout), (1, 6))
    for layout in (0x1B, 0xE4, GIFT_LAYOUT):
        both_ways(calls, circuit(4, 0, GIFT_GATES, layout), (0, 5, 14))


# ---- what measuring and verifying have in common --------------------------

def exact_pair(n, m, gates, layout=None, free=0, mark=0, **fields):
    """A circuit, and the job that it passes with nothing to spare."""
    layout = ref.PLAIN_LAYOUT[n] if layout is None else layout
    sample = ref.read_job(job(n, own(n), **fields))
    got = ref.measures_of(gates, sample.prices, sample.durations)
    asked = job(n, full(outputs(n, gates, layout)), m, free,
                got.gates, got.cost, got.depth, **fields)
    return asked, circuit(n, m, gates, layout, mark)


def limits_of(asked):
    return ref.read_job(asked).limits


def with_limit(asked, which, value):
    """The job with limit 0 (gates), 1 (cost) or 2 (depth) set to a value."""
    if which == 0:
        return put(asked, 1, value)
    at = 2 * which
    return asked[:at] + value.to_bytes(2, "big") + asked[at + 2:]


def pair_breaks(n, m, mark=0):
    """Code by code, how to break a pair made by `exact_pair` with the plain
    layout. Code 15 makes its own table, so that it stands alone; it has to be
    broken before the others. A marked pair has a longer job, to which nothing
    is 28."""
    breaks = {}
    for code, ways in job_breaks(n, 3 + mark).items():
        breaks[code] = lambda j, c, way=ways[0]: (way(j), c)
    for code, ways in circuit_breaks(n, m, mark).items():
        breaks[code] = lambda j, c, way=ways[0]: (j, way(c))
    if m == 0:
        breaks[12] = lambda j, c: (j, put(c, 0, c[0] ^ 8))
    else:
        breaks[12] = lambda j, c: (put(j, 0, j[0] ^ 8), c)
    if mark == 0:
        breaks[28] = lambda j, c: (j, put(c, 0, c[0] | 1))
    other, rows = ref.layouts(n)[1], 12 + 2 * mark
    breaks[15] = lambda j, c: (j[:rows] + full(outputs(n, c[3:], other)), put(c, 1, other))
    breaks[16] = lambda j, c: (put(j, rows + 1, j[rows + 1] ^ 1), c)
    if m == 1:      # another product added to the ancilla last; unlawful gates stay
        breaks[24] = lambda j, c: (j, put(c, len(c) - 1, 0x85) if c[-1] == 0x83 else c)
    for which in range(3):
        breaks[17 + which] = lambda j, c, which=which: (
            with_limit(j, which, limits_of(j)[which] - 1), c)
    return breaks


def broken(pair, breaks, codes):
    """The pair with several rules broken at once."""
    asked, given = pair
    for code in sorted(codes, key=lambda code: (code == 28, code != 15)):
        asked, given = breaks[code](asked, given)
    return asked, given


PAIRS = ((3, 0, "022143", False), (4, 1, "837483", True))
MARKED_PAIRS = ((4, 0, "006743", True), (4, 1, "8E1C8E837483", True))


def pair_order(calls, name, asked, pairs=PAIRS, mark=0):
    """Each rule broken alone, then two at once (all twos, or neighbours only),
    then all from one on. Codes 4 and 17 do not go together: a gate limit above
    12 is never missed by a sound circuit. Code 24 wants an ancilla. A circuit
    breaks 8 or 21 where its mark counts, so the mark comes on last."""
    calls.heading(name + ": one rule broken, two, and all from one on")
    for n, m, gates, neighbours_only in pairs:
        pair = exact_pair(n, m, bytes.fromhex(gates), mark=mark, **(LONG if mark else {}))
        breaks = pair_breaks(n, m, mark)
        calls.add(within(limits_of(pair[0])), name, *pair)
        codes = [code for code in asked if code in breaks]
        ones = [(code,) for code in codes]
        twos = zip(codes, codes[1:]) if neighbours_only else itertools.combinations(codes, 2)
        rests = [codes[at:] for at in range(len(codes) - 2)]
        for some in itertools.chain(ones, twos, rests):
            together = [code for code in some if code != 17 or 4 not in some]
            calls.add(some[0], name, *broken(pair, breaks, together))


def pair_shapes(calls, name):
    calls.heading(name + ": job and circuit of every two shapes")
    for shape, other in itertools.product(SHAPES, repeat=2):
        want = within((1, 5, 7)) if shape == other else 12
        calls.add(want, name, exact_pair(*shape, [0x43])[0], circuit(*other, [0x43]))
    calls.heading(name + ": gates are lawful by the circuit's own wires, not the job's")
    calls.add(12, name, job(4, own(4)), C5)
    calls.add(21, name, job(4, own(4), 1), put(C5, 0, 0x80))
    calls.add(12, name, job(3, own(3)), circuit(3, 1, [0x60]))
    calls.add(21, name, job(3, own(3), 1), circuit(3, 0, [0x60]))


def pair_lengths(calls, name):
    calls.heading(name + ": empty and long byte strings")
    for asked, given, want in ((b"", b"", 1), (b"", C3, 1), (J3, b"", 7), (J3, C3[:2], 7),
                               (J3 + C3, C3, 1), (J3, C3 + bytes(10), 7), (C3, J3, 1),
                               (J3 * 30, C3 * 30, 1), (J3, C3 * 30, 7)):
        calls.add(want, name, asked, given)


# ---- measuring ------------------------------------------------------------

def measure_few(calls):
    nothing = job(3, bytes(8))
    calls.heading("measure: samples")
    for gates, want in (("", (0, 0, 0)), ("0020", (2, 2, 1)), ("4121", (2, 2, 2)),
                        ("2143", (2, 6, 8)), ("43", (1, 5, 7)), ("022102", (3, 3, 3))):
        calls.add(within(want), "measure", nothing, circuit(3, 0, bytes.fromhex(gates)))
    calls.add(within((8, 24, 32)), "measure", job(4, full(GIFT), free=1),
              circuit(4, 0, GIFT_GATES, GIFT_LAYOUT))
    calls.heading("measure: one gate of each kind, all prices and durations different")
    different = dict(prices=(3, 50, 200), durations=(4, 60, 210))
    for n, m in SHAPES:
        for gate, want in ((0x00, (1, 3, 4)), (0x21, (1, 50, 60)), (0x43, (1, 200, 210))):
            calls.add(within(want), "measure", job(n, own(n), m, **different),
                      circuit(n, m, [gate]))
    calls.heading("measure: gates side by side, gates that wait, a control in common")
    for n, m, gates, want in (
            (4, 0, "0060", (2, 2, 1)), (4, 0, "2161", (2, 2, 2)), (4, 0, "2164", (2, 2, 1)),
            (4, 0, "4360", (2, 6, 7)), (4, 0, "6043", (2, 6, 7)), (4, 0, "4361", (2, 6, 8)),
            (4, 1, "4388", (2, 6, 7)), (4, 1, "438360", (3, 11, 14)),
            (4, 1, "0020406080", (5, 5, 1)), (4, 1, "00204060800020406080", (10, 10, 2)),
            (4, 1, "808080", (3, 3, 3)), (4, 1, "0083", (2, 6, 8)), (3, 1, "6060", (2, 2, 2)),
            (3, 1, "6361", (2, 6, 8)), (3, 0, "2141", (2, 2, 2)), (3, 0, "4142", (2, 2, 2)),
            (3, 0, "214206", (3, 7, 9))):
        calls.add(within(want), "measure", job(n, own(n), m), circuit(n, m, bytes.fromhex(gates)))
    slow = job(4, own(4), durations=(1, 2, 7))
    calls.add(within((4, 8, 11)), "measure", slow, circuit(4, 0, bytes.fromhex("282C0004")))
    calls.add(within((4, 8, 12)), "measure", slow, circuit(4, 0, bytes.fromhex("282C0400")))
    calls.heading("measure: when each wire comes free; wires that no gate touches, wires that the circuit lacks")
    for n, m, gates, want in (
            (3, 0, "", "0 0 0 ready 0 0 0 0 0"), (3, 0, "00", "1 1 1 ready 1 0 0 0 0"),
            (3, 0, "20", "1 1 1 ready 0 1 0 0 0"), (3, 0, "40", "1 1 1 ready 0 0 1 0 0"),
            (3, 0, "2143", "2 6 8 ready 8 8 8 0 0"), (3, 0, "4121", "2 2 2 ready 2 2 1 0 0"),
            (3, 1, "60", "1 1 1 ready 0 0 0 1 0"), (3, 1, "4361", "2 6 8 ready 8 7 7 8 0"),
            (4, 0, "60", "1 1 1 ready 0 0 0 1 0"), (4, 0, "4360", "2 6 7 ready 7 7 7 1 0"),
            (4, 1, "80", "1 1 1 ready 0 0 0 0 1"), (4, 1, "9020", None),
            (4, 1, "8374", "2 10 14 ready 7 7 14 14 14"), (4, 1, "48", "1 1 1 ready 0 0 1 1 0")):
        want = 21 if want is None else "within " + want
        calls.add(want, "measure", job(n, own(n), m), circuit(n, m, bytes.fromhex(gates)))


def measure_ends(calls):
    calls.heading("measure: prices and durations at their ends")
    for prices, durations in (((0,) * 3, (1,) * 3), ((255,) * 3, (255,) * 3),
                              ((0, 1, 255), (255, 1, 1)), ((255, 0, 0), (1, 255, 255))):
        asked = job(3, own(3), prices=prices, durations=durations)
        for gates in ("43" * 12, "00" * 12, "21" * 12, "002040" * 4, "002143" * 4, "43", ""):
            calls.add(None, "measure", asked, circuit(3, 0, bytes.fromhex(gates)))
    top = job(4, own(4), 1, prices=(255,) * 3, durations=(255,) * 3)
    calls.add(within((12, 3060, 3060)), "measure", top, circuit(4, 1, [0x43] * 12))
    calls.add(within((12, 3060, 765)), "measure", top,
              circuit(4, 1, (bytes.fromhex("0020406080") * 3)[:12]))
    calls.heading("measure: layout, table and limits do not count")
    for layout in ref.layouts(3):
        calls.add(within((3, 3, 3)), "measure", J3, put(C3, 1, layout))
    calls.add(within((3, 3, 3)), "measure", job(3, own(3), gates=0, cost=0, depth=0), C3)
    calls.add(within((12, 12, 12)), "measure", J3, circuit(3, 0, [0x21] * 12))


def measure_drawn(calls):
    draw = Draw(4)
    calls.heading("measure: lists, prices and durations drawn at random")
    for n, m in SHAPES:
        for length in (2, 3, 4, 5, 6, 8, 9, 10, 11, 12, 12, 12, 12, 12):
            prices = [draw.below(256) for _ in range(3)]
            durations = [1 + draw.below(255) for _ in range(3)]
            gates = draw.gates(n + m, length)
            want = (length, sum(prices[ref.kind_of(gate)] for gate in gates),
                    longest_chain(gates, durations))
            calls.add(within(want), "measure",
                      job(n, bytes(2 ** n), m, prices=prices, durations=durations),
                      circuit(n, m, gates))


def measure_refused(calls):
    pair_shapes(calls, "measure")
    pair_order(calls, "measure", ORDER[:ORDER.index(15)])
    pair_lengths(calls, "measure")


# ---- verifying ------------------------------------------------------------

def samples():
    """Answers of the search that the papers and the checklist state, each with
    the job it answers, and near misses of them."""
    rows = full([0, 2, 1, 3, 4, 6, 5, 7])
    swap37, swap715 = exchanged(3, 3, 7), exchanged(4, 7, 15)
    gate21 = full([0, 3, 2, 1, 4, 7, 6, 5])
    cheap = dict(prices=(0, 5, 1))
    both_flipped = full([x ^ 3 for x in range(8)])
    unwanted = put(put(own(3), 3, 0x77), 7, 0x00)
    only0 = bytes([0x10] * 8)
    prost = full("048F15E927ACBD63")
    return [
        (job(3, rows, gates=3), "601803022102", (3, 3, 3)),
        (job(3, rows, gates=2), "601803022102", 17),
        (job(3, rows, gates=3, free=1), "604800", (0, 0, 0)),
        (job(3, rows, gates=3), "604800", 15),
        (job(3, swap37, gates=1), "60180143", (1, 5, 7)),
        (job(3, bytes(8), gates=0), "601800", (0, 0, 0)),
        (job(3, gate21, gates=1, **cheap), "60180121", (1, 5, 1)),
        (job(3, gate21, gates=4, **cheap), "60180425402540", (4, 2, 16)),
        (job(3, both_flipped, gates=2, depth=1), "6018020020", (2, 2, 1)),
        (job(3, unwanted, gates=1), "60180143", (1, 5, 7)),
        (job(3, swap37, gates=1, cost=5), "60180143", (1, 5, 7)),
        (job(3, swap37, gates=1, cost=4), "60180143", 18),
        (job(3, swap37, gates=1, depth=7), "60180143", (1, 5, 7)),
        (job(3, swap37, gates=1, depth=6), "60180143", 19),
        (job(4, swap715, 1, gates=2), "881B028374", 24),
        (job(4, swap715, 1, gates=1), "881B028374", 24),
        (job(4, swap715, 1, gates=3), "881B03837483", (3, 15, 21)),
        (job(4, swap715, 1, gates=3), "881B03857285", (3, 15, 21)),
        (job(4, swap715, 1, gates=3), "881B03867186", (3, 15, 21)),
        (job(3, only0, 1, gates=2), "6818026108", 24),
        (job(3, only0, 1, gates=2), "68180160", 16),
        (job(3, bytes(8), 1, gates=0), "68180160", 24),
        (job(3, bytes(8), 1, gates=2), "6818026060", (2, 2, 2)),
        (job(4, prost, free=1, gates=4), "80B104062C6349", (4, 20, 28)),
        (job(4, prost, free=1, gates=3), "80B104062C6349", 17),
        (job(4, prost, gates=4), "80B104062C6349", 15),
        (job(4, full(GIFT), free=1), "807808250A644220632843", (8, 24, 32)),
        (job(4, full(GIFT), free=1), "80D208250A644220632843", 16),
        (job(4, full(GIFT)), "807808250A644220632843", 15),
        (job(4, full(GIFT)), "801B08250A644220632843", 16),
    ]


def verify_few(calls):
    calls.heading("verify: samples, and source 003's eight gates for GIFT")
    for asked, given, want in samples():
        want = want if isinstance(want, int) else within(want)
        calls.add(want, "verify", asked, bytes.fromhex(given))
    calls.heading("verify: GIFT once more, under every layout")
    for layout in ref.layouts(4):
        calls.add(within((8, 24, 32)) if layout == GIFT_LAYOUT else 16, "verify",
                  job(4, full(GIFT), free=1), circuit(4, 0, GIFT_GATES, layout))
    calls.heading("verify: two outputs cannot come from one wire")
    shared = bytes([0x30, 0x33] * 4)
    for layout in ref.layouts(3):
        calls.add(16, "verify", job(3, shared, free=1), circuit(3, 0, b"", layout))
    calls.add(9, "verify", job(3, shared, free=1), circuit(3, 0, b"", 0x08))


def verify_limits(calls):
    calls.heading("verify: limits met exactly, missed by one, and one to spare")
    for n, m, gates, fields in (
            (3, 0, "022143", {}), (4, 0, "250A644220632843", {}), (4, 1, "837483", {}),
            (3, 0, "21", dict(prices=(0, 255, 0), durations=(1, 255, 1))),
            (3, 0, "2142", dict(prices=(0, 128, 0), durations=(1, 128, 1))),
            (3, 1, "43" * 11 + "00", dict(prices=(255,) * 3, durations=(255,) * 3)),
            (3, 0, "002040", dict(prices=(1, 9, 9), durations=(200, 9, 9)))):
        asked, given = exact_pair(n, m, bytes.fromhex(gates), **fields)
        limits = limits_of(asked)
        calls.add(within(limits), "verify", asked, given)
        for which in range(3):
            calls.add(17 + which, "verify", with_limit(asked, which, limits[which] - 1), given)
            if which > 0 or limits[which] < 12:
                calls.add(within(limits), "verify",
                          with_limit(asked, which, limits[which] + 1), given)
    calls.heading("verify: the high byte of a limit counts for more than the low")
    asked, given = exact_pair(3, 0, bytes.fromhex("2142"), prices=(1, 129, 1), durations=(1, 129, 1))
    passed = within((2, 0x0102, 0x0102))
    for limit, want in ((0x0102, 0), (0x0201, 0), (0x0200, 0), (0x0103, 0),
                        (0x0101, 1), (0x0100, 1), (0x00FF, 1), (0x0002, 1), (0, 1)):
        for which in (1, 2):
            calls.add(17 + which if want else passed, "verify",
                      with_limit(asked, which, limit), given)
    calls.heading("verify: limits of 0")
    none = dict(gates=0, cost=0, depth=0)
    calls.add(within((0, 0, 0)), "verify", job(3, own(3), **none), circuit(3, 0, b""))
    calls.add(17, "verify", job(3, bytes(8), **none), circuit(3, 0, [0x21]))
    calls.add(18, "verify", job(3, bytes(8), cost=0, depth=0), circuit(3, 0, [0x21]))
    calls.add(19, "verify", job(3, bytes(8), cost=0, depth=0, prices=(0, 0, 0)),
              circuit(3, 0, [0x21]))
    calls.heading("verify: depth is no sum, and gates that share a control do wait")
    for depth, gates, want in ((1, "002040", within((3, 3, 1))), (1, "4121", 19),
                               (2, "4121", within((2, 2, 2)))):
        calls.add(want, "verify", job(3, bytes(8), depth=depth),
                  circuit(3, 0, bytes.fromhex(gates)))


def verify_rows(calls):
    calls.heading("verify: one bit wrong, for every row and bit, then no longer asked for")
    for n, gates in ((3, "022143"), (4, "2164420A")):
        asked, given = exact_pair(n, 0, bytes.fromhex(gates))
        for x, j in itertools.product(range(2 ** n), range(n)):
            at = 12 + x
            calls.add(16, "verify", put(asked, at, asked[at] ^ 1 << j), given)
            if n == 3 or (x + j) % 4 == 0:
                calls.add(within(limits_of(asked)), "verify",
                          put(asked, at, asked[at] & ~(0x11 << j)), given)
    calls.heading("verify: rows that ask for nothing, not even for their own number")
    asked, given = exact_pair(3, 0, [0x43])
    for x in range(8):
        calls.add(within((1, 5, 7)), "verify", put(asked, 12 + x, 0), given)
    calls.add(within((1, 5, 7)), "verify", asked[:12] + bytes(8), given)
    calls.add(16, "verify", asked[:12] + bytes(7) + b"\x40", circuit(3, 0, b""))
    calls.add(within((0, 0, 0)), "verify", asked[:12] + b"\x40" + bytes(7), circuit(3, 0, b""))


def verify_layouts(calls):
    calls.heading("verify: each layout with a free and with a fixed job")
    for n, m, gates in ((3, 0, "0221"), (3, 1, "612861"), (4, 0, "0C2143")):
        gates = bytes.fromhex(gates)
        for layout in ref.layouts(n):
            asked, given = exact_pair(n, m, gates, layout, 1)
            calls.add(within(limits_of(asked)), "verify", asked, given)
            fixed = exact_pair(n, m, gates, layout)
            plain = layout == ref.PLAIN_LAYOUT[n]
            calls.add(within(limits_of(asked)) if plain else 15, "verify", *fixed)
        asked, given = exact_pair(n, m, gates, free=1)
        calls.add(16, "verify", asked, put(given, 1, ref.layouts(n)[1]))
    calls.heading("verify: an ancilla starts at 0 and ends there, whatever the rows want")
    for n, gates, want in (
            (3, "", (0, 0, 0)), (3, "60", 24), (3, "63", 24), (3, "28", (1, 1, 1)), (3, "6363", (2, 10, 14)),
            (3, "6028", 16), (3, "60286020", (4, 4, 3)), (3, "602820", 24), (3, "6163", 24),
            (4, "80", 24), (4, "10", (1, 1, 1)), (4, "8010", 16), (4, "801000", 24), (4, "80100080", (4, 4, 3))):
        calls.add(want if isinstance(want, int) else within(want), "verify",
                  job(n, own(n), 1), circuit(n, 1, bytes.fromhex(gates)))
        if want != 16 and n == 3:
            calls.add(want if isinstance(want, int) else within(want), "verify",
                      job(n, bytes(2 ** n), 1), circuit(n, 1, bytes.fromhex(gates)))
    calls.heading("verify: an ancilla left at 1 in two rows, which alone are wanted, or alone unwanted")
    lists = [(3, [*flips, 0x63, *flips]) for flips in ([], [0x00], [0x20], [0x00, 0x20])]
    for n, gates in [*lists, (4, bytes.fromhex("638C638C"))]:
        dirty = [x for x in range(2 ** n) if ref.bit(ref.run(gates, x), n)]
        assert len(dirty) == 2
        rows = own(n)
        alone = bytes(row if x in dirty else 0 for x, row in enumerate(rows))
        others = bytes(0 if x in dirty else row for x, row in enumerate(rows))
        for some in (rows, alone, others):
            calls.add(24, "verify", job(n, some, 1), circuit(n, 1, gates))
        calls.add(within(ref.measures_of([*gates, *gates], (1, 1, 5), (1, 1, 7))), "verify",
                  job(n, rows, 1), circuit(n, 1, [*gates, *gates]))


def verify_drawn(calls):
    draw = Draw(5)
    prices, durations = (2, 3, 4), (3, 5, 9)
    calls.heading("verify: lists and care masks drawn at random, then one bit turned; with an ancilla also the list undone")
    for n, m in SHAPES:
        for length in (0, 1, 4, 9, 12):
            gates = draw.gates(n + m, length)
            layout = draw.among(ref.layouts(n))
            for some in [gates] + ([gates[:6] + gates[5::-1]] if m == 1 and length in (4, 9) else []):
                rows = bytearray(full(outputs(n, some, layout)))
                for x in range(2 ** n):
                    rows[x] &= 0x11 * (draw.below(2 ** n) if x != 5 else 15)
                asked = job(n, rows, m, 1, prices=prices, durations=durations)
                given = circuit(n, m, some, layout)
                passed = within(ref.measures_of(some, prices, durations))
                calls.add(passed if ref.clean(some, n) else 24, "verify", asked, given)
                calls.add(16, "verify", put(asked, 17, asked[17] ^ 1 << draw.below(n)), given)


def verify_refused(calls):
    pair_shapes(calls, "verify")
    pair_order(calls, "verify", ORDER)
    pair_lengths(calls, "verify")


# ---- parity ---------------------------------------------------------------

def parity_tables(calls):
    calls.heading("parity: the tables of source 002")
    for _, table, _, want in TABLES_002:
        calls.add(want, "parity", job(4, full(table)))
    calls.heading("parity: the tables of source 003, and its classes G0 to G15")
    for _, table, want in TABLES_003:
        calls.add(want, "parity", job(4, full(table)))
    calls.heading("parity: ancilla, layout, limits and prices do not count")
    other = dict(gates=0, cost=0, depth=0, prices=(0,) * 3, durations=(255,) * 3)
    for rows, want in ((full(GIFT), "even"), (full("062493D51EC78ABF"), "odd"),
                       (own(3), "even"), (exchanged(3, 3, 7), "odd")):
        n = 3 if len(rows) == 8 else 4
        for m, free in itertools.product((0, 1), repeat=2):
            calls.add(want, "parity", job(n, rows, m, free))
        calls.add(want, "parity", job(n, rows, **other))


def parity_made(calls):
    calls.heading("parity: no row moved, two exchanged, three turned, all reversed")
    for n in (3, 4):
        size = 2 ** n
        calls.add("even", "parity", job(n, own(n)))
        for a, b in itertools.combinations(range(size), 2):
            if n == 3 or (a + b) % 3 == 0 or (a, b) == (7, 15):
                calls.add("odd", "parity", job(n, exchanged(n, a, b)))
        for a in range(size - 2):
            turned = list(range(size))
            turned[a], turned[a + 1], turned[-1] = a + 1, size - 1, a
            calls.add("even", "parity", job(n, full(turned)))
        calls.add("even", "parity", job(n, full(range(size)[::-1])))
    calls.heading("parity: the table of every gate on three wires and on four")
    for n in (3, 4):
        for gate in GATES[n]:
            want = "odd" if n == 3 and ref.kind_of(gate) == 2 else "even"
            calls.add(want, "parity", job(n, full(outputs(n, [gate], ref.PLAIN_LAYOUT[n]))))
    calls.heading("parity: the table of every layout")
    for n in (3, 4):
        for layout in ref.layouts(n):
            calls.add("even", "parity", job(n, full(outputs(n, [], layout))))
    calls.heading("parity: permutations drawn at random")
    draw = Draw(6)
    for n in (3, 4):
        for _ in range(40):
            values = draw.shuffled(range(2 ** n))
            calls.add(parity_by_cycles(values), "parity", job(n, full(values)))


def parity_neither(calls):
    calls.heading("parity: a value that comes twice")
    for n in (3, 4):
        size = 2 ** n
        for a, b in ((0, 1), (0, size - 1), (size - 1, 0), (size // 2, 1), (size - 2, size - 1)):
            values = list(range(size))
            values[a] = values[b]
            calls.add("neither", "parity", job(n, full(values)))
        for values in ([0] * size, [size - 1] * size, [x // 2 * 2 for x in range(size)]):
            calls.add("neither", "parity", job(n, full(values)))
    calls.heading("parity: a care mask that is not full, though the values are a permutation")
    for n in (3, 4):
        size = 2 ** n
        for x in (0, 1, size // 2, size - 1):
            rows = exchanged(n, 0, x)       # row x has value 0
            for care in [size - 1 - (1 << j) for j in range(n)] + [0]:
                calls.add("neither", "parity", job(n, put(rows, x, care << 4)))
        calls.add("neither", "parity", job(n, bytes(size)))
        calls.add("neither", "parity", job(n, [0x11 * x for x in range(size)]))
    calls.add("neither", "parity", job(4, [0x70 | x % 8 for x in range(16)]))


def parity_refused(calls):
    calls.heading("parity: the job's rules")
    for sound, n in ((job(3, own(3)), 3), (job(4, full(GIFT)), 4)):
        for code, ways in job_breaks(n).items():
            for way in ways:
                calls.add(code, "parity", way(sound))
        two_broken(calls, "parity", sound, one_way(job_breaks(n)))
    for record in (b"", b"\x60", J3[:12], J3 * 30):
        calls.add(1, "parity", record)


# ---- longer jobs and marked circuits --------------------------------------

def longer_jobs(calls):
    calls.heading("longer job: lengths 0 to 40, cut from or grown from sound ones")
    for sound, size in ((L3, 22), (L4, 30)):
        grown = sound + own(4) + own(3)
        for length in range(41):
            want = {size: "sound", size - 2: 6, 50 - size: 2, 52 - size: 2}.get(length, 1)
            calls.add(want, "job", grown[:length])
    calls.heading("longer job: byte 0, each n, then each m, layout bit and pair of last bits")
    for sound, right in ((L3, 3), (L4, 4)):
        for n in range(8):
            calls.add("sound" if n == right else 2, "job", put(sound, 0, n << 5))
        for low in range(32):
            want = 3 if low >= 16 or low & 3 else "sound"
            calls.add(want, "job", put(sound, 0, right << 5 | low))
    calls.heading("longer job: gate limits, every pattern of durations, prices at their ends")
    for sound in (L3, L4):
        for limit in (0, 12, 13, 255):
            calls.add("sound" if limit <= 12 else 4, "job", put(sound, 1, limit))
        for durations in itertools.product((0, 1), repeat=4):
            calls.add(5 if 0 in durations else "sound", "job", sound[:10] + bytes(durations) + sound[14:])
        for at, value in itertools.product(range(6, 10), (0, 255)):
            calls.add("sound", "job", put(sound, at, value))
    calls.heading("longer job: a bad row at the beginning, in the middle, at the end")
    for sound, rows, places in ((L3, (0x01, 0x08, 0x61, 0x80, 0xF7), (0, 4, 7)),
                                (L4, (0x01, 0x08, 0xE1, 0xB4, 0x78), (0, 8, 15))):
        for x, row in itertools.product(places, rows):
            calls.add(6, "job", put(sound, 14 + x, row))
    calls.heading("longer job: two rules broken, and all from one on")
    for sound, n in ((L3, 3), (L4, 4)):
        two_broken(calls, "job", sound, one_way(job_breaks(n, 4)))
        rest_broken(calls, "job", sound, job_breaks(n, 4))


def marked_circuits(calls):
    calls.heading("marked circuit: lengths 0 to 20 with the count to match")
    gates = (MORE_GATES[4] * 2)[:17]
    for length in range(21):
        want = "sound" if 3 <= length <= 15 else 7
        calls.add(want, "circuit", circuit(4, 0, gates[:max(length - 3, 0)], mark=1)[:length])
    calls.heading("marked circuit: some layouts, count bytes")
    for n, m in SHAPES:
        for layout in (0x00, 0x18, 0x1A, 0x1B, 0x24, 0xE4, 0xE5):
            calls.add("sound" if layout in ref.layouts(n) else 9, "circuit", circuit(n, m, b"", layout, 1))
        for count in (0, 1, 2, 12, 255):
            calls.add("sound" if count == 1 else 10, "circuit", put(circuit(n, m, [0], mark=1), 2, count))
    calls.heading("marked circuit: two rules broken, and all from one on")
    for sound, n, m in ((M4, 4, 0), (M5, 4, 1)):
        two_broken(calls, "circuit", sound, one_way(circuit_breaks(n, m, 1)))
        rest_broken(calls, "circuit", sound, circuit_breaks(n, m, 1))


def marked_gates(calls):
    for n, m in SHAPES:
        calls.heading("marked circuit: every byte as the only gate, n = %d, m = %d" % (n, m))
        sound = built_gates(n + m, 3)
        for gate in range(256):
            calls.add("sound" if gate in sound else 21, "circuit", circuit(n, m, [gate], mark=1))
    calls.heading("a gate of three controls in a marked circuit and in an unmarked one, first, in the middle, last")
    for n, m, gate in ((3, 1, 0x67), (4, 0, 0x67), (4, 0, 0x0E), (4, 1, 0x67), (4, 1, 0x9C)):
        gates = bytes(GATES[n + m][:12])
        for at in (0, 5, 11):
            sound = ref.lawful(gate, n + m, 3)
            calls.add("sound" if sound else 21, "circuit", circuit(n, m, put(gates, at, gate), mark=1))
            calls.add(21, "circuit", circuit(n, m, put(gates, at, gate)))


def marked_runs(calls):
    calls.heading("run: 67 exchanges 7 and 15; unmarked it is refused")
    for value in range(16):
        want = {7: 15, 15: 7}.get(value, value)
        both_ways(calls, circuit(4, 0, [0x67], mark=1), [value], "value %02X" % want)
    both_ways(calls, circuit(4, 0, [0x67]), [7], 21)
    calls.heading("run: every gate of three controls on all ones, and less each wire; beyond the last value")
    for n, m in ((3, 1), (4, 0), (4, 1)):
        top = 2 ** (n + m)
        for gate in MORE_GATES[n + m]:
            if ref.kind_of(gate) == 3:
                for value in [top - 1] + [top - 1 - (1 << wire) for wire in range(n + m)]:
                    flips = all(ref.bit(value, wire) for wire in ref.controls_of(gate))
                    calls.add("value %02X" % (value ^ flips << gate // 32), "forwards",
                              circuit(n, m, [gate], mark=1), bytes([value]))
        both_ways(calls, circuit(n, m, [0x67], mark=1), [top, 255], 20)
    calls.heading("run: marked lists drawn at random, forwards, then backwards from there")
    draw = Draw(7)
    for n, m in SHAPES:
        for length in (1, 3, 6, 9, 12):
            gates = draw.gates(n + m, length, MORE_GATES)
            value = draw.below(2 ** (n + m))
            there = ref.run(gates, value)
            calls.add("value %02X" % there, "forwards", circuit(n, m, gates, mark=1), bytes([value]))
            calls.add("value %02X" % value, "backwards", circuit(n, m, gates, mark=1), bytes([there]))


def marked_measures(calls):
    calls.heading("measure: one gate of each kind, all prices and durations different")
    different = dict(prices=(3, 50, 200, 9), durations=(4, 60, 210, 11))
    for n, m in SHAPES:
        for gate, want in ((0x00, (1, 3, 4)), (0x21, (1, 50, 60)), (0x43, (1, 200, 210)), (0x67, (1, 9, 11))):
            if gate in MORE_GATES[n + m]:
                asked = job(n, own(n), m, **different)
                calls.add(within(want), "measure", asked, circuit(n, m, [gate], mark=1))
                calls.add(21 if gate == 0x67 else within(want), "measure", asked, circuit(n, m, [gate]))
    calls.heading("measure: gates of three controls wait for each other, and for whatever has a wire of theirs")
    for n, m, gates, want in ((4, 0, "6700", "2 10 12 ready 12 11 11 11 0"), (4, 0, "0067", "2 10 12 ready 12 12 12 12 0"),
                              (4, 1, "6780", "2 10 11 ready 11 11 11 11 1"), (4, 1, "8E67", "2 18 22 ready 22 22 22 22 11"),
                              (4, 1, "8E00", "2 10 11 ready 1 11 11 11 11"), (3, 1, "6767", "2 18 22 ready 22 22 22 22 0")):
        calls.add("within " + want, "measure", job(n, own(n), m, **LONG), circuit(n, m, bytes.fromhex(gates), mark=1))
    calls.heading("measure: lists, prices and durations drawn at random")
    draw = Draw(8)
    for n, m in SHAPES:
        for length in (2, 5, 8, 12):
            prices = [draw.below(256) for _ in range(4)]
            durations = [1 + draw.below(255) for _ in range(4)]
            gates = draw.gates(n + m, length, MORE_GATES)
            want = (length, sum(prices[ref.kind_of(gate)] for gate in gates), longest_chain(gates, durations))
            calls.add(within(want), "measure", job(n, bytes(2 ** n), m, prices=prices, durations=durations),
                      circuit(n, m, gates, mark=1))


def marked_pairs(calls):
    """Which circuit may go with which job, and in which order the rules are asked."""
    for name in ("measure", "verify"):
        calls.heading(name + ": marked or not, under a shorter job and under a longer one")
        for (n, m), gates in itertools.product(SHAPES, (b"", [0x43], [0x43, 0x67])):
            if 0x67 in gates and (n, m) == (3, 0):
                continue
            rows = full(outputs(n, gates, ref.PLAIN_LAYOUT[n]))
            shorter, longer = job(n, rows, m), job(n, rows, m, **LONG)
            dirty = name == "verify" and not ref.clean(gates, n)
            passed = 24 if dirty else within(ref.measures_of(gates, *LONG.values()))
            plain, marked = circuit(n, m, gates), circuit(n, m, gates, mark=1)
            for asked, by_mark in ((shorter, 28), (longer, passed)):
                calls.add(21 if 0x67 in gates else passed, name, asked, plain)
                calls.add(by_mark, name, asked, marked)
        calls.heading(name + ": 28 comes after 21 and 12, and before 15, 16, 24, 17, 18 and 19")
        asked, given = exact_pair(3, 0, [0x43])
        marked = put(given, 0, 0x61)
        calls.add(28, name, asked, marked)
        calls.add(21, name, asked, put(marked, 3, 0x22))
        calls.add(12, name, asked, put(marked, 0, 0x69))
        calls.add(12, name, job(4, own(4)), marked)
        for worse, other in ((asked, put(marked, 1, 0x24)), (put(asked, 13, 0x70), marked),
                             *((with_limit(asked, which, 0), marked) for which in range(3))):
            calls.add(28, name, worse, other)
        five = job(4, own(4), 1)
        calls.add(28, name, five, circuit(4, 1, [0x80], mark=1))
        if name == "verify":
            calls.add(24, name, job(4, own(4), 1, **LONG), circuit(4, 1, [0x80], mark=1))
    pair_order(calls, "measure", ORDER[:ORDER.index(15)], MARKED_PAIRS, 1)
    pair_order(calls, "verify", ORDER, MARKED_PAIRS, 1)


def marked_verified(calls):
    calls.heading("verify: the exchange of rows 7 and 15 by one gate; by three with an ancilla, unmarked and marked")
    swap = job(4, exchanged(4, 7, 15), gates=1, cost=9, depth=11, **LONG)
    calls.add(within((1, 9, 11)), "verify", swap, bytes.fromhex("811B0167"))
    calls.add(21, "verify", swap, bytes.fromhex("801B0167"))
    calls.add(16, "verify", swap, bytes.fromhex("811B010E"))
    for which, code in ((0, 17), (1, 18), (2, 19)):
        calls.add(code, "verify", with_limit(swap, which, limits_of(swap)[which] - 1), bytes.fromhex("811B0167"))
    calls.add(28, "verify", job(4, exchanged(4, 7, 15)), bytes.fromhex("811B0167"))
    for given in ("881B03837483", "891B03837483"):
        calls.add(within((3, 15, 21)), "verify", job(4, exchanged(4, 7, 15), 1, **LONG), bytes.fromhex(given))
    calls.heading("verify: marked lists drawn at random, with the table that they make; then one bit turned")
    draw = Draw(9)
    for n, m in SHAPES:
        for length in (0, 1, 4, 9, 12):
            gates = draw.gates(n + m, length, MORE_GATES)
            layout = draw.among(ref.layouts(n))
            asked = job(n, full(outputs(n, gates, layout)), m, 1, **LONG)
            given = circuit(n, m, gates, layout, 1)
            passed = within(ref.measures_of(gates, *LONG.values()))
            calls.add(passed if ref.clean(gates, n) else 24, "verify", asked, given)
            calls.add(16, "verify", put(asked, 19, asked[19] ^ 1 << draw.below(n)), given)


def longer_parity(calls):
    calls.heading("parity: of longer jobs")
    for n in (3, 4):
        calls.add("even", "parity", job(n, own(n), **LONG))
        calls.add("odd", "parity", job(n, exchanged(n, 1, 6), **LONG))
        calls.add("neither", "parity", job(n, bytes(2 ** n), **LONG))
        calls.add("neither", "parity", job(n, put(own(n), 0, own(n)[1]), **LONG))
        for code, ways in job_breaks(n, 4).items():
            calls.add(code, "parity", ways[-1](job(n, own(n), **LONG)))
    for _, table, _, want in TABLES_002[:6]:
        calls.add(want, "parity", job(4, full(table), **LONG))
    calls.heading("parity: four wires; odd where the gates of three controls are odd in number")
    draw = Draw(10)
    lists = [[gate] for gate in MORE_GATES[4] if ref.kind_of(gate) == 3]
    for gates in lists + [draw.gates(4, length, MORE_GATES) for length in (2, 5, 8, 12, 12, 30) * 6]:
        threes = [gate for gate in gates if ref.kind_of(gate) == 3]
        rows = full(outputs(4, gates, draw.among(ref.layouts(4))))
        for fields in (LONG, {}):
            calls.add("odd" if len(threes) % 2 else "even", "parity", job(4, rows, **fields))


# ---- facts that the papers and the checklist state ------------------------

def parity_by_cycles(values):
    """Another way to the same word: a cycle of even length is an odd turn."""
    seen, odd = set(), 0
    for start in range(len(values)):
        length, at = 0, start
        while at not in seen:
            seen.add(at)
            length, at = length + 1, values[at]
        odd += length > 0 and length % 2 == 0
    return "odd" if odd % 2 else "even"


def longest_chain(gates, durations):
    """Depth once more: the heaviest chain of gates, each touching the next."""
    heavy = []
    for i, gate in enumerate(gates):
        touched = {ref.target_of(gate), *ref.controls_of(gate)}
        before = [heavy[k] for k in range(i)
                  if touched & {ref.target_of(gates[k]), *ref.controls_of(gates[k])}]
        heavy.append(max(before, default=0) + durations[ref.kind_of(gate)])
    return max(heavy, default=0)


def refused(want, line):
    assert answer(line) == "refused %d" % want, (line, answer(line), want)


def check_gates():
    stated = {
        3: "000204062021242540414243",
        4: "00020406080A0C2021242528292C404142434849" "4A60616263646566",
        5: "00020406080A0C101214182021242528292C303134384041424348494A505152"
           "5860616263646566707172748081828384858688898A8C",
    }
    for wires, size, more in ((3, 12, 12), (4, 28, 32), (5, 55, 75)):
        assert len(GATES[wires]) == size and len(MORE_GATES[wires]) == more
        assert bytes(GATES[wires]).hex().upper() == stated[wires]
        assert set(GATES[wires]) == built_gates(wires)
        assert set(MORE_GATES[wires]) == built_gates(wires, 3)
    assert [ref.step(0x43, v) for v in (3, 7, 5)] == [7, 3, 5]
    assert ref.step(0x21, 1) == 3
    assert not any(ref.lawful(0x22, wires) for wires in (3, 4, 5))
    assert len(ref.controls_of(0x67)) == 3
    assert not any(ref.lawful(0x67, wires) for wires in (3, 4, 5))
    assert [ref.lawful(0x67, wires, 3) for wires in (3, 4, 5)] == [False, True, True]
    assert ref.lawful(0x60, 4) and not ref.lawful(0x60, 3)
    for wires in (3, 4, 5):
        for gate in MORE_GATES[wires]:
            values = [ref.step(gate, value) for value in range(2 ** wires)]
            odd = ref.kind_of(gate) == wires - 1
            assert ref.inversions(values) % 2 == odd
            for value, after in enumerate(values):      # q0 plus the product of the others
                product = min([ref.bit(value, c) for c in ref.controls_of(gate)], default=1)
                assert after - value == product * (1 - 2 * ref.bit(value, gate // 32)) * 2 ** (gate // 32)


def check_layouts():
    assert ref.layouts(3) == [0x18, 0x24, 0x48, 0x60, 0x84, 0x90]
    assert len(ref.layouts(4)) == 24
    for n in (3, 4):
        assert ref.PLAIN_LAYOUT[n] == ref.layouts(n)[0]
        for layout in ref.layouts(n):
            assert ref.inversions(outputs(n, [], layout)) % 2 == 0


def check_measures():
    prices, durations = (1, 1, 5), (1, 1, 7)
    for gates, cost, depth in (("", 0, 0), ("0020", 2, 1), ("4121", 2, 2), ("2143", 6, 8)):
        gates = bytes.fromhex(gates)
        assert ref.measures_of(gates, prices, durations) == (len(gates), cost, depth)
    assert ref.measures_of(GIFT_GATES, prices, durations) == (8, 24, 32)
    draw = Draw(1)
    for _ in range(1500):
        wires = 3 + draw.below(3)
        gates = draw.gates(wires, draw.below(15))
        durations = [1 + draw.below(20) for _ in range(3)]
        depth = ref.measures_of(gates, prices, durations).depth
        assert depth == longest_chain(gates, durations)
        assert depth == longest_chain(gates[::-1], durations)
        assert depth <= sum(durations[ref.kind_of(gate)] for gate in gates)
        assert len(gates) <= wires * depth
        value = draw.below(2 ** wires)
        assert ref.undo(gates, ref.run(gates, value)) == value < 2 ** wires


def check_parities():
    for name, table, count, want in TABLES_002:
        values = [int(digit, 16) for digit in table]
        assert sorted(values) == list(range(16)), name
        assert ref.inversions(values) == count, name
        assert answer("parity " + word(job(4, full(table)))) == want == parity_by_cycles(values)
    assert [want for _, _, _, want in TABLES_002].count("odd") == 1
    even = [name for name, _, want in TABLES_003 if name[0] == "G" and want == "even"]
    assert even == ["G0", "G1", "G2", "G4", "G5", "G7", "G8", "G13"]
    for name, table, want in TABLES_003:
        assert answer("parity " + word(job(4, full(table)))) == want, name


def check_refusals():
    """The refusal vectors at the end of the checklist."""
    sound3, sound4, given = J3, J4, bytes.fromhex("60180143")
    assert sound3 == job(3, full([0, 2, 1, 3, 4, 6, 5, 7]), gates=3)
    assert answer("job " + word(sound3)) == answer("job " + word(sound4)) == "sound"
    assert answer("circuit " + word(given)) == "sound"
    for length in (0, 19, 21, 23, 27, 29, 31):
        refused(1, "job " + word((sound3 + sound4)[:length]))
    edits = [(2, 0, 0x80), (2, 0, 0x00), (2, 0, 0xE0), (2, 0, 0x93), (3, 0, 0x70), (3, 0, 0x61),
             (3, 0, 0x62), (4, 1, 13), (5, 9, 0), (5, 10, 0), (5, 11, 0),
             (6, 12, 0x01), (6, 15, 0x80), (6, 19, 0x88)]
    for code, at, byte in edits:
        refused(code, "job " + word(put(sound3, at, byte)))
        if code == 5:
            refused(5, "job " + word(put(put(sound3, at, byte), 14, 0x01)))
    refused(2, "job " + word(put(sound4, 0, 0x60)))
    refused(3, "job " + word(put(put(sound3, 0, 0x70), 1, 13)))
    for length in (0, 1, 2, 16):
        refused(7, "circuit " + word((given + bytes(13))[:length]))
    edits = [(8, 0, 0x20), (8, 0, 0x70), (8, 0, 0x62), (9, 1, 0x00), (9, 1, 0x19), (9, 1, 0x1B),
             (9, 1, 0x3C), (10, 2, 0), (10, 2, 2), (21, 3, 0x22), (21, 3, 0x67), (21, 3, 0x60),
             (21, 3, 0xE0)]
    for code, at, byte in edits:
        refused(code, "circuit " + word(put(given, at, byte)))
    refused(20, "forwards %s 08" % word(given))
    refused(20, "backwards %s 08" % word(given))
    swap = job(3, exchanged(3, 3, 7), gates=1, cost=5, depth=7)
    assert answer("verify %s %s" % (word(swap), word(given))) == "within 1 5 7 ready 7 7 7 0 0"
    for code, asked, other in (
            (12, swap, put(given, 0, 0x68)), (12, swap, circuit(4, 0, [0x43])),
            (12, swap, put(given, 0, 0x69)), (28, swap, put(given, 0, 0x61)), (28, swap, put(put(given, 0, 0x61), 1, 0x24)),
            (15, swap, put(given, 1, 0x24)), (16, job(3, own(3), gates=0), given),
            (17, put(swap, 1, 0), given), (18, put(swap, 3, 4), given), (19, put(swap, 5, 6), given)):
        refused(code, "verify %s %s" % (word(asked), word(other)))


def check_samples():
    for asked, given, want in samples():
        want = "refused %d" % want if isinstance(want, int) else within(want)
        got = answer("verify %s %s" % (word(asked), given)).split(" ready")[0]
        assert got == want, (word(asked), given)


def self_check():
    check_gates()
    check_layouts()
    check_measures()
    check_parities()
    check_refusals()
    check_samples()


# ---- writing --------------------------------------------------------------

MAKERS = {
    "jobs": [job_lengths, job_sound, job_byte_0, job_numbers, job_rows, job_order],
    "circuits": [circuit_lengths, circuit_head, circuit_gates, circuit_order],
    "counts": [circuit_counts],
    "running": [run_few, run_ends, run_each_gate, run_lists],
    "measuring": [measure_few, measure_ends, measure_drawn, measure_refused],
    "verifying": [verify_few, verify_limits, verify_rows, verify_layouts,
                  verify_drawn, verify_refused],
    "parity": [parity_tables, parity_made, parity_neither, parity_refused],
    "longer": [longer_jobs, marked_measures, marked_pairs, marked_verified, longer_parity],
    "marked": [marked_circuits, marked_gates, marked_runs],
}


def text_of(lines):
    return "".join(line + "\n" for line in lines)


def calls_of(name):
    calls = Calls()
    for maker in MAKERS[name]:
        maker(calls)
    return calls


def main(data, stdout, names):
    self_check()
    os.makedirs(data, exist_ok=True)
    expected = []
    for name in names:
        calls = calls_of(name)
        text, longest = text_of(calls.lines), max(map(len, calls.lines))
        print("%-10s %5d lines %6d bytes, longest line %5d"
              % (name, len(calls.lines), len(text), longest))
        assert len(text) < FILE_BELOW and longest < LINE_BELOW
        assert all(calls.lines) and text.isascii()
        with open(os.path.join(data, name), "w", newline="\n") as file:
            file.write(text)
        expected += calls.answers
    with open(stdout, "w", newline="\n") as file:
        file.write(text_of(expected))


if __name__ == "__main__":
    if len(sys.argv) < 4 or any(name not in MAKERS for name in sys.argv[3:]):
        sys.exit(__doc__)
    main(sys.argv[1], sys.argv[2], sys.argv[3:])
