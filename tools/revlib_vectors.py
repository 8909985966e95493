"""Writes the test vectors of `.real` text: files of calls, and what they have to print.

    revlib_vectors.py DATA STDOUT

writes DATA/NAME for every name of FILES, and into STDOUT the expected output of
all of them in that order. Nothing is written unless `self_check` passes.

A data file has one call a line, its words one space apart. Byte strings are
upper-case hexadecimal, the empty one is `-`. A line that starts with `#` is a
heading and is printed as it is. LL is the length of the buffer, whose byte i
is 0xA0 + i, modulo 256, before the call; it is printed after the call.

    read TEXT LL       record SIZE BUFFER | refused CODE BUFFER
    write CIRCUIT LL   text SIZE BUFFER | short SIZE BUFFER | refused CODE BUFFER
    damage TEXT LIST   answers, and for each three bytes of the list (a place,
                       high byte first, and the byte put there) the refusal's
                       code or the record, read with a buffer of 15 bytes

Answers come from revlib_text.py. Where the author knows the answer beforehand,
the vector states it as `want`, and a difference stops the generator.
"""

import os
import sys

import revlib_text as real
import reference as ref
from vectors import Draw, GATES, SHAPES, circuit, circuit_breaks, put, word

FILE_BELOW = 60000
STDOUT_BELOW = 200000
DAMAGES = 10000
DAMAGED_FILES = 3
# Bytes that stand in texts, and near misses of them.
COMMON = b"abcdefgxyz0123456789-. \n\r\tT`{/:"
# The headings that document 02 allows: W, the word after `.constants`, n, m.
HEADINGS = [(3, None, 3, 0), (3, b"---", 3, 0), (4, None, 4, 0), (4, b"----", 4, 0),
            (4, b"---0", 3, 1), (5, b"----0", 4, 1)]
# A text a heading, by hand, with a gate of each kind, and its record.
SAMPLES = [
    (".version 2.0\n.numvars 3\n.variables a b c\n.begin\nt3 a b c\n.end\n", "60180143"),
    (".version 2.0\n.numvars 3\n.variables a b c\n.begin\nt2 b a\nt2 a b\nt2 b a\n.end\n", "601803022102"),
    (".version 2.0\n.numvars 3\n.variables a b c\n.constants ---\n.begin\nt1 a\nt1 b\nt1 c\n.end\n", "601803002040"),
    (".version 2.0\n.numvars 4\n.variables a b c d\n.begin\nt3 c d a\nt1 d\n.end\n", "801B020C60"),
    (".version 2.0\n.numvars 4\n.variables a b c d\n.constants ----\n.begin\nt2 d b\n.end\n", "801B0128"),
    (".version 2.0\n.numvars 4\n.variables a b c d\n.constants ---0\n.begin\nt3 a b d\nt2 d a\n.end\n", "6818026308"),
    (".version 2.0\n.numvars 5\n.variables a b c d e\n.constants ----0\n.begin\nt3 a b e\nt3 c e d\nt3 a b e\n.end\n",
     "881B03837483"),
]
PLAIN3 = SAMPLES[0][0].encode().split(b"\n")[:-1]
PLAIN5 = SAMPLES[6][0].encode().split(b"\n")[:-1]


# ---- building blocks ------------------------------------------------------

def numbered(room):
    return bytes((160 + i) % 256 for i in range(room))


def printed(what, number, front, room):
    """An answer and the whole buffer, with `front` written at its start."""
    return "%s %d %s" % (what, number, word(front + numbered(room)[len(front):]))


def short_answer(text):
    code, record = real.read_call(text, 15)
    return str(code) if code else word(record)


def answer(line):
    """What has to be printed for one line of a data file."""
    if line.startswith("#"):
        return line
    name, first, second = line.split(" ")
    data = b"" if first == "-" else bytes.fromhex(first)
    more = b"" if second == "-" else bytes.fromhex(second)
    if name == "damage":
        found = [short_answer(put(data, 256 * more[i] + more[i + 1], more[i + 2])) for i in range(0, len(more), 3)]
        return " ".join(["answers"] + found)
    room, = more
    if name == "read":
        code, record = real.read_call(data, room)
        return printed("refused", code, b"", room) if code else printed("record", len(record), record, room)
    assert name == "write", line
    code, result = real.write_call(data, room)
    if code == 13:
        return printed("short", result, b"", room)
    return printed("refused", code, b"", room) if code else printed("text", len(result), result, room)


class Calls:
    """The lines of one data file and their answers, gathered in order."""

    def __init__(self):
        self.lines = []
        self.answers = []

    def heading(self, text):
        self.lines.append("# " + text)
        self.answers.append("# " + text)

    def add(self, line):
        self.lines.append(line)
        self.answers.append(answer(line))

    def expect(self, want):
        if want is not None and want != self.answers[-1]:
            raise AssertionError("%s\n  gives %s, want %s" % (self.lines[-1], self.answers[-1], want))

    def read(self, want, text, room=15):
        """`want` is a refusal's code, the record in hexadecimal, or None: not known."""
        self.add("read %s %02X" % (word(text), room))
        if isinstance(want, int):
            want = printed("refused", want, b"", room)
        elif want is not None:
            want = printed("record", len(want) // 2, bytes.fromhex(want), room)
        self.expect(want)

    def damage(self, text, damages):
        """`damages` are pairs of a place and a byte."""
        self.add("damage %s %s" % (word(text), word(b"".join(p.to_bytes(2, "big") + bytes([b]) for p, b in damages))))

    def write(self, want, record, room):
        """`want` is a refusal's code, the text, the length needed as `short N`, or None."""
        self.add("write %s %02X" % (word(record), room))
        if isinstance(want, int):
            want = printed("refused", want, b"", room)
        elif isinstance(want, bytes):
            want = printed("text", len(want), want, room)
        elif want is not None:
            want = printed("short", int(want.split(" ")[1]), b"", room)
        self.expect(want)


def joined(lines):
    return b"".join(line + b"\n" for line in lines)


def with_line(lines, at, *others):
    """The text with a line replaced by others, perhaps none."""
    return joined([*lines[:at], *(other.encode() for other in others), *lines[at + 1:]])


def drawn_letters(draw, wires):
    return bytes(draw.shuffled(range(97, 123))[:wires])


def drawn_gates(draw, wires, count):
    """For each gate its wires, the target last."""
    return [draw.shuffled(range(wires))[:1 + draw.below(3)] for _ in range(count)]


def record_of(n, m, gates):
    """The record of gates that are given by their wires, as hexadecimal."""
    return word(circuit(n, m, [gate[-1] << 5 | sum(1 << wire for wire in gate[:-1]) for gate in gates]))


def filled_text(size):
    """A sound text of three wires that is `size` bytes long, which is far too many gates."""
    empty = real.text_of(b"abc", None, [])
    room = size - len(empty)
    for threes in range(5):
        for twos in range(5):
            if (room - 9 * threes - 7 * twos) % 5 == 0:
                ones = (room - 9 * threes - 7 * twos) // 5
                gates = [[0]] * ones + [[0, 1]] * twos + [[2, 0, 1]] * threes
                return real.text_of(b"abc", None, gates)
    raise AssertionError(size)


# ---- reading --------------------------------------------------------------

def read_sound(calls):
    calls.heading("samples of each heading, buffers of 15 and 16 bytes")
    for text, record in SAMPLES:
        calls.read(record, text.encode())
        calls.read(record, text.encode(), 16)
    calls.heading("no gate")
    for wires, constants, n, m in HEADINGS:
        calls.read(record_of(n, m, []), real.text_of(b"abcde"[:wires], constants, []))
    calls.heading("each gate, its controls in either order")
    for wires, constants, n, m in HEADINGS:
        for target in range(wires):
            others = [wire for wire in range(wires) if wire != target]
            one = [[target]] + [[wire, target] for wire in others]
            two = [[a, b, target] for a in others for b in others if a != b]
            for gates in (one, two[:6], two[6:]):
                if gates:
                    calls.read(record_of(n, m, gates), real.text_of(b"abcde"[:wires], constants, gates))
    calls.heading("the first letter is wire 0, whatever letters there are")
    calls.read("60180143", b".version 2.0\n.numvars 3\n.variables c b a\n.begin\nt3 c b a\n.end\n")
    calls.read("60180106", b".version 2.0\n.numvars 3\n.variables c b a\n.begin\nt3 a b c\n.end\n")
    calls.read("601803402000", b".version 2.0\n.numvars 3\n.variables z a t\n.begin\nt1 t\nt1 a\nt1 z\n.end\n")
    calls.read("881B0188", b".version 2.0\n.numvars 5\n.variables t z a y b\n.constants ----0\n.begin\nt2 y b\n.end\n")
    draw = Draw(11)
    for wires, constants, n, m in HEADINGS * 2:
        gates = drawn_gates(draw, wires, 6)
        calls.read(record_of(n, m, gates), real.text_of(drawn_letters(draw, wires), constants, gates))


def read_counts(calls):
    draw = Draw(12)
    calls.heading("0 to 15 gates")
    for at, (wires, constants, n, m) in enumerate(HEADINGS):
        for count in range(at % 2, 16, 2) if at > 1 else range(16):
            gates = drawn_gates(draw, wires, count)
            want = record_of(n, m, gates) if count <= 12 else 23
            calls.read(want, real.text_of(drawn_letters(draw, wires), constants, gates))
    calls.heading("one gate twelve times, and thirteen")
    for wires, constants, n, m in HEADINGS:
        for gate in ([0], [0, 1], [1, 2, 0], [0, 1, wires - 1]):
            calls.read(record_of(n, m, [gate] * 12), real.text_of(b"abcde"[:wires], constants, [gate] * 12))
            calls.read(23, real.text_of(b"abcde"[:wires], constants, [gate] * 13))
    calls.heading("thirteen gates and a departure")
    many = real.text_of(b"abc", None, [[0, 1, 2]] * 13)
    lines = many.split(b"\n")[:-1]
    for text in (many[:-1], many + b"\n", many + b".end\n", many[:-5], many.replace(b"\n", b"\r\n"),
                 with_line(lines, 16, "t3 a b d"), with_line(lines, 16, "t3 a b a"), with_line(lines, 16, "t3 a b c "),
                 with_line(lines, 4, "t1 d"), with_line(lines, 17, ".End"), with_line(lines, 0, ".version 2.1"),
                 with_line(lines, 16, "t4 a b c d"), with_line(lines, 3, ".constants --0", ".begin")):
        calls.read(22, text)


def read_buffers(calls):
    calls.heading("buffers from 0 to 18 bytes: 13 comes first, then 22, then 23")
    sound = SAMPLES[0][0].encode()
    for room in (0, 1, 4, 13, 14):
        calls.read(13, sound, room)
        calls.read(13, sound[:-1], room)
        calls.read(13, b"", room)
        calls.read(13, real.text_of(b"abc", None, [[0]] * 13), room)
    for room in (15, 16, 18):
        calls.read("60180143", sound, room)
        calls.read(22, sound[:-1], room)
        calls.read(22, b"", room)
        calls.read(23, real.text_of(b"abc", None, [[0]] * 13), room)
        calls.read(record_of(4, 1, [[0, 1, 4]] * 12), real.text_of(b"abcde", b"----0", [[0, 1, 4]] * 12), room)
        calls.read(record_of(3, 1, []), real.text_of(b"abcd", b"---0", []), room)
    calls.read("60180143", sound, 255)
    calls.read(22, sound + sound, 255)


def read_departures(calls):
    """Every line of two texts in many wrong forms, one at a time."""
    calls.heading("departures: line ends, spaces, letter case")
    for lines in (PLAIN3, PLAIN5):
        text = joined(lines)
        calls.read(22, text.replace(b"\n", b"\r\n"))
        calls.read(22, text.replace(b"\n", b"\r"))
        calls.read(22, text.replace(b" ", b"  "))
        calls.read(22, text.replace(b" ", b"\t"))
        calls.read(22, text.upper())
        calls.read(22, text[:-1])
        for at, line in enumerate(lines):
            word_end = line.find(b" ")
            for other in (line + b"\r", line + b" ", b" " + line, line.upper(), line[:-1], line[1:], line + b"\0",
                          line + b"x", line + b" #", b"", b"# " + line):
                calls.read(22, joined([*lines[:at], other, *lines[at + 1:]]))
            if word_end > 0:
                for space in (b"  ", b"\t", b""):
                    calls.read(22, joined([*lines[:at], line[:word_end] + space + line[word_end + 1:], *lines[at + 1:]]))
    calls.heading("departures: a line left out, a line twice, an empty line, two lines exchanged")
    for lines, gates in ((PLAIN3, (4,)), (PLAIN5, (5, 6, 7))):
        for at, line in enumerate(lines):
            if at not in gates:
                calls.read(22, joined(lines[:at] + lines[at + 1:]))
                calls.read(22, joined(lines[:at] + [line] + lines[at:]))
            calls.read(22, joined(lines[:at] + [b""] + lines[at:]))
            if at and not (at in gates and at - 1 in gates):
                calls.read(22, joined(lines[:at - 1] + [line, lines[at - 1]] + lines[at + 1:]))
    calls.heading("departures: nothing, only a part, bytes after .end")
    text = joined(PLAIN3)
    for other in (b"", b"\n", b".", b".end\n", b".version 2.0\n", b".begin\n.end\n", joined(PLAIN3[:3]), joined(PLAIN3[:4]),
                  joined(PLAIN3[:5]), joined(PLAIN3[1:]), text + b"\n", text + b" ", text + b".end\n", text + text,
                  text + b"t1 a\n", text + b"\0", b"\n" + text, b"\xEF\xBB\xBF" + text, b"\0" * 60, b"\xFF" * 60):
        calls.read(22, other)


def read_headings(calls):
    calls.heading("departures: .version, .numvars, .begin and .end")
    for other in (".version 1.0", ".version 2", ".version 2.00", ".version 2,0", ".version 02.0", ".version", "version 2.0", ".Version 2.0"):
        calls.read(22, with_line(PLAIN3, 0, other))
    for other in [".numvars %s" % w for w in (0, 1, 2, 4, 5, 6, 7, 13, 33, "03", "c", "")] + [".numvars", ".numvar 3", ".numVars 3"]:
        calls.read(22, with_line(PLAIN3, 1, other))
    for other in (".begin ", ".start", ".begin .end", "begin", ".Begin"):
        calls.read(22, with_line(PLAIN3, 3, other))
    for other in (".end ", ".ende", "end", ".End", ".en"):
        calls.read(22, with_line(PLAIN3, 5, other))
    calls.heading("departures: two and six wires, with and without .constants")
    for wires in (1, 2, 6):
        names = b"abcdef"[:wires]
        for constants in (None, b"-" * wires, b"-" * (wires - 1) + b"0"):
            calls.read(22, real.text_of(names, constants, []))
            calls.read(22, real.text_of(names, constants, [[0]]))
    calls.heading("departures: letters of .variables, in texts without gates and with one")
    for other in ("a b", "a b c d", "a b a", "a a b", "a b b", "a b C", "A b c", "a b 1", "a B c", "a b  c", "a b c ", " a b c",
                  "a,b,c", "abc", "a bc", "x1 x2 x3", "aa b c", "a b {", "a b `", "a b @", "a b [", "a b \xe9", "a b -", "", "a",
                  "a b c\r", "a\tb\tc", "a b \0", "a b  ", "a b \n"):
        line = b".variables " + other.encode("latin-1")
        for gates in ([], [b"t1 a"], PLAIN3[4:5]):
            calls.read(22, joined([*PLAIN3[:2], line, PLAIN3[3], *gates, PLAIN3[5]]))
    calls.read(22, with_line(PLAIN3, 2, ".variables"))
    for letters in (b"aacde", b"abade", b"abcae", b"abcda", b"abbde", b"abcbe", b"abcdb", b"abcce", b"abcdc", b"abcdd"):
        calls.read(22, real.text_of(letters, b"----0", []))
        calls.read(22, real.text_of(letters, b"----0", [[0]]))
    for letters in ("aacd", "abad", "abca", "abbd", "abcb", "abcc"):
        calls.read(22, real.text_of(letters.encode(), None, [[0]]))


def read_constants(calls):
    calls.heading("each word of `-` and `0` after .constants, and others, for 3, 4 and 5 wires")
    allowed = {(3, "---"): (3, 0), (4, "----"): (4, 0), (4, "---0"): (3, 1), (5, "----0"): (4, 1)}
    words = ["".join("-0"[i >> j & 1] for j in range(size)) for size in range(7) for i in range(2 ** size) if size < 5 or i in
             (0, 1, 2 ** size - 1, 2 ** (size - 1), 3 * 2 ** (size - 2))]
    others = ["---1", "--- ", "---\r", "0", "---O", "--- 0", "- - - 0", "----0 ", "---x", "----1", "-----0", "___0"]
    for wires in (3, 4, 5):
        for said in words + others:
            shape = allowed.get((wires, said))
            want = 22 if shape is None else record_of(*shape, [[0, 1]])
            calls.read(want, real.text_of(b"abcde"[:wires], said.encode(), [[0, 1]]))
    calls.heading("five wires without .constants; .constants twice, early, late, without its word")
    calls.read(22, joined(PLAIN5[:3] + PLAIN5[4:]))
    calls.read(22, real.text_of(b"abcde", None, []))
    calls.read(22, joined(PLAIN5[:2] + [PLAIN5[3], PLAIN5[2]] + PLAIN5[4:]))
    calls.read(22, joined(PLAIN5[:3] + [PLAIN5[4], PLAIN5[3]] + PLAIN5[5:]))
    for other in (".constants", ".constants ", ".constant ----0", ".Constants ----0", ".constants  ----0", ".garbage -----"):
        calls.read(22, with_line(PLAIN5, 3, other))
    for wires, said in ((3, "---"), (4, "----"), (4, "---0")):
        lines = real.text_of(b"abcde"[:wires], said.encode(), []).split(b"\n")[:-1]
        for other in (".constants", ".constants ", ".constants " + said + " ", ".constants  " + said, ".constants\t" + said,
                      ".constants " + said.replace("-", "0"), ".constants 0" + said[1:], ".Constants " + said):
            calls.read(22, with_line(lines, 3, other))


def read_gate_lines(calls):
    calls.heading("departures: gate lines")
    bad = ("t0", "t0 a", "t1", "t1 ", "t1 d", "t1 A", "t1 a b", "t1 a a", "t1a", "t1  a", "t1 a ", "t1\ta", " t1 a", "T1 a", "t 1 a", "t01 a",
           "t", "t2", "t2 a", "t2 a a", "t2 b b", "t2 a d", "t2 d a", "t2 a b c", "t2 a  b", "t2 a b ", "t2 ab", "t2 a,b", "t2 A b", "t2 a B",
           "t3", "t3 a", "t3 a b", "t3 a b a", "t3 a b b", "t3 a a b", "t3 b a a", "t3 a a a", "t3 c c c", "t3 a b d", "t3 a d b", "t3 d a b",
           "t3 a b c a", "t3 a b c d", "t3  a b c", "t3 a  b c", "t3 a b  c", "t3 a b c ", "t3 abc", "t3 a b C", "t3 A b c", "t3 a B c",
           "t4 a b c d", "t4 a b c", "t4 a b c a", "t5 a b c", "t6", "t9 a", "f1 a", "f2 a b", "f3 a b c", "p a b c", "v a b", "x a",
           "t3 a b -c", "t3 -a b c", "t2 a 0", "t1 0", "t1 t", "t:", "t3 a b c # it", "# t3 a b c", ".end", "t/ a", "t1 a\rt1 b",
           "t1 a\r", "t2 a b\r", "t3 a b c\r", "t1 a\0", "t2 a b\0", "t3 a b c\0", "t2\ta b", "t2 a\tb", "t3\ta b c", "t3 a\tb c", "t3 a b\tc",
           "t1 `", "t1 {", "t2 a `", "t3 a b `")
    for other in bad:
        calls.read(22, with_line(PLAIN3, 4, other))
    calls.heading("the same after a sound gate line")
    for other in bad[::3]:
        calls.read(22, with_line(PLAIN3, 4, "t2 a b", other))
    calls.heading("four and five wires: four letters, a control that is the target")
    four = SAMPLES[3][0].encode().split(b"\n")[:-1]
    for other in ("t4 a b c d", "t3 a b e", "t1 e", "t3 d a d", "t3 a d d", "t3 d d a", "t2 d d"):
        calls.read(22, with_line(four, 4, other))
    for other in ("t4 a b c d", "t5 a b c d e", "t4 a b c e", "t1 f", "t3 e a e", "t3 a e e", "t3 e e a", "t2 e e"):
        calls.read(22, with_line(PLAIN5, 6, other))


def reading(calls):
    read_sound(calls)
    read_counts(calls)


def headings(calls):
    read_buffers(calls)
    read_headings(calls)


def lines(calls):
    read_constants(calls)
    read_gate_lines(calls)


def cut(calls):
    text = SAMPLES[5][0].encode()
    calls.heading("each byte left out")
    for at in range(len(text)):
        calls.read(22, text[:at] + text[at + 1:])
    calls.heading("each byte twice")
    for at in range(len(text)):
        calls.read(22, text[:at] + text[at:at + 1] + text[at:])
    calls.heading("cut off after each byte")
    for at in range(len(text)):
        calls.read(22, text[:at])
    calls.heading("cut off in front of each byte")
    for at in range(1, len(text)):
        calls.read(22, text[at:])


def long(calls):
    calls.heading("250 gate lines, a departure in the last of them")
    many = real.text_of(b"abcde", b"----0", drawn_gates(Draw(13), 5, 250))
    calls.read(23, many, 16)
    calls.read(22, many[:-7] + b"\0" + many[-6:], 16)
    calls.read(22, many[:-1], 16)
    calls.heading("4,096 bytes, and with a departure at the end")
    most = filled_text(4096)
    assert len(most) == 4096
    calls.read(23, most)
    calls.read(22, most[:-1] + b"\r")
    calls.read(13, most, 14)
    calls.heading("4,097 bytes")
    over = filled_text(4097)
    assert len(over) == 4097
    calls.read(22, over)
    calls.read(13, over, 14)


def every(calls):
    """Each byte from 0 to 255 at places of two texts."""
    calls.heading("every byte at a place: digit of .numvars, letters, spaces, line feeds, .constants, gate lines, .end")
    for text, places in ((SAMPLES[0][0], [0, 11, 22, 34, 35, 37, 39, 40, 47, 48, 49, 50, 51, 53, 55, 56, 61]),
                         (SAMPLES[5][0], [12, 22, 41, 43, 53, 56, 57, 58])):
        for place in places:
            calls.damage(text.encode(), [(place, b) for b in range(256)])


def drawn_damage(draw, text):
    """A place and another byte: any, one near to those of texts, one of this text, or a letter in a letter's place."""
    places = range(len(text))
    letters = [place for place in places if 97 <= text[place] <= 122 and text[place - 1:place] == b" "]
    while True:
        kind = draw.below(4)
        place = draw.among(letters if kind == 3 else places)
        byte = draw.among((range(256), COMMON, text, [text[at] for at in letters])[kind])
        if byte != text[place]:
            return place, byte


def damaged(part):
    def fill(calls):
        draw = Draw(100 + part)
        calls.heading("texts drawn at random, damaged in one place at a time, part %d" % part)
        left = DAMAGES // DAMAGED_FILES + (part <= DAMAGES % DAMAGED_FILES)
        while left:
            wires, constants, _, _ = draw.among(HEADINGS)
            gates = drawn_gates(draw, wires, draw.below(14))
            text = real.text_of(drawn_letters(draw, wires), constants, gates)
            count = min(left, 50)
            calls.damage(text, [drawn_damage(draw, text) for _ in range(count)])
            left -= count
    return fill


# ---- writing --------------------------------------------------------------

def write_sound(calls):
    calls.heading("samples: the record's text, by hand")
    for text, record in SAMPLES:
        if ".constants ---\n" not in text and ".constants ----\n" not in text:
            calls.write(text.encode(), bytes.fromhex(record), len(text) + 3)
    draw = Draw(14)
    calls.heading("every shape, 0 to 12 gates")
    for n, m in SHAPES:
        for count in range(13):
            record = circuit(n, m, draw.gates(n + m, count))
            calls.write(None, record, len(real.render(record)))
    calls.heading("every byte as the only gate, n = 4, m = 1")
    for gate in range(256):
        record = circuit(4, 1, [gate])
        sound = gate in GATES[5]
        calls.write(None if sound else 21, record, len(real.render(record)) if sound else 3)
    calls.heading("every gate, twelve to a record")
    for n, m in SHAPES:
        gates = GATES[n + m]
        for at in range(0, len(gates), 12):
            record = circuit(n, m, gates[at:at + 12])
            calls.write(None, record, len(real.render(record)))


def write_room(calls):
    calls.heading("just enough, one byte short, one to spare, no byte, and 255")
    draw = Draw(15)
    longest = circuit(4, 1, [0x83] * 12)
    calls.write("short 182", longest, 181)
    calls.write(None, longest, 182)
    for n, m in SHAPES:
        for count in (0, 1, 12):
            record = circuit(n, m, draw.gates(n + m, count))
            text = real.render(record)
            short = "short %d" % len(text)
            calls.write(text, record, len(text))
            calls.write(text, record, len(text) + 1)
            for room in (len(text) - 1, len(text) // 2, 1, 0):
                calls.write(short, record, room)
        calls.write(real.render(circuit(n, m, b"")), circuit(n, m, b""), 255)


def write_refused(calls):
    calls.heading("the circuit's own rules, with room and without")
    for n, m in SHAPES:
        sound = circuit(n, m, [0x00, 0x21, 0x43])
        for code, ways in circuit_breaks(n, m).items():
            for way in ways:
                calls.write(code, way(sound), 20)
                calls.write(code, way(sound), 0)
    for record in (b"", b"\x60", b"\x60\x18"):
        calls.write(7, record, 5)
    calls.heading("a marked circuit: 8, after the circuit's own rules and before 15 and the room")
    for n, m in SHAPES:
        other = ref.layouts(n)[-1]
        for gates in ([], [0x21], [0x67][:n + m - 3]):
            calls.write(8, circuit(n, m, gates, mark=1), 200)
            calls.write(8, circuit(n, m, gates, other, 1), 4)
        calls.write(21, circuit(n, m, [0x22], other, 1), 4)
        calls.write(9, circuit(n, m, [0x21], 0x00, 1), 4)
    calls.heading("another layout than the plain one: 15, after the circuit's own rules and before the room")
    for n, m in SHAPES:
        for layout in ref.layouts(n):
            if layout != ref.PLAIN_LAYOUT[n]:
                calls.write(15, circuit(n, m, [0x21], layout), 4)
                calls.write(15, circuit(n, m, [0x21], layout), 0)
        other = ref.layouts(n)[-1]
        calls.write(15, circuit(n, m, [0x21], other), 255)
        calls.write(21, circuit(n, m, [0x22], other), 4)
        calls.write(10, put(circuit(n, m, [0x21], other), 2, 2), 4)
        calls.write(7, circuit(n, m, [0x21] * 13, other), 4)


def writing(calls):
    for part in (write_sound, write_room, write_refused):
        part(calls)


FILES = {"reading": reading, "departures": read_departures, "headings": headings, "lines": lines, "cut": cut, "long": long,
         "every": every, "damaged_1": damaged(1), "damaged_2": damaged(2), "damaged_3": damaged(3), "writing": writing}


# ---- the model held against itself ----------------------------------------

def self_check():
    """Reading undoes writing, on records and on texts put together otherwise."""
    draw = Draw(16)
    for text, record in SAMPLES:
        assert real.read_call(text.encode(), 15) == (0, bytes.fromhex(record)), text
        assert real.read_call(text.encode(), 14) == (13, None)
    for n, m in SHAPES:
        for _ in range(300):
            record = circuit(n, m, draw.gates(n + m, draw.below(13)))
            code, text = real.write_call(record, 182)
            assert code == 0 and real.read_call(text, 15) == (0, record), record
            assert real.write_call(record, len(text)) == (0, text)
            assert real.write_call(record, len(text) - 1) == (13, len(text))
    for _ in range(2000):
        wires, constants, n, m = draw.among(HEADINGS)
        gates = drawn_gates(draw, wires, draw.below(13))
        text = real.text_of(drawn_letters(draw, wires), constants, gates)
        assert real.read_call(text, 15) == (0, bytes.fromhex(record_of(n, m, gates))), text


def main():
    data, stdout = sys.argv[1:]
    self_check()
    os.makedirs(data, exist_ok=True)
    expected = []
    for name, fill in FILES.items():
        calls = Calls()
        fill(calls)
        content = "".join(line + "\n" for line in calls.lines)
        assert len(content) < FILE_BELOW, (name, len(content))
        with open(os.path.join(data, name), "w", newline="\n") as file:
            file.write(content)
        expected += calls.answers
        print("%s: %d lines, %d bytes" % (name, len(calls.lines), len(content)), file=sys.stderr)
    content = "".join(line + "\n" for line in expected)
    assert len(content) < STDOUT_BELOW, len(content)
    with open(stdout, "w", newline="\n") as file:
        file.write(content)
    print("stdout: %d lines, %d bytes" % (len(expected), len(content)), file=sys.stderr)


if __name__ == "__main__":
    main()
