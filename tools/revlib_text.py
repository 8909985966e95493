"""A slow, plain reading of change request 1, kept apart from the proved code.

RevLib `.real` text to a circuit record and back. Reading is written from
document 02 alone: one regular expression for the whole text, and the rules
that it can't say. Writing is our own addition: the text that has the letters
a, b, c, .. in wire order, and `.constants` only where there is an ancilla.
"""

import re

import reference as ref

TEXT_AT_MOST = 4096
ROOM_AT_LEAST = 15
LETTERS = b"abcde"
FORM = re.compile(
    rb"\.version 2\.0\n"
    rb"\.numvars ([3-5])\n"
    rb"\.variables((?: [a-z])+)\n"
    rb"(?:\.constants (-*0?)\n)?"
    rb"\.begin\n"
    rb"((?:t1(?: [a-z]){1}\n|t2(?: [a-z]){2}\n|t3(?: [a-z]){3}\n)*)"
    rb"\.end\n")


def letters_of(words):
    """The letters that stand one space apart, as a list of numbers."""
    return list(words.replace(b" ", b""))


def different(letters):
    return len(set(letters)) == len(letters)


def wires_of(count, letters, constants):
    """n and m of a heading, or None where it departs from the form. `constants`
    is the word after `.constants`, None where there is no such line."""
    if len(letters) != count or not different(letters):
        return None
    if constants is None:
        constants = b"-" * count
    n, m = constants.count(b"-"), constants.count(b"0")
    return (n, m) if n + m == count and n in (3, 4) else None


def gate_of(line, letters):
    """The byte of a gate line, or None where its letters are not in order."""
    used = letters_of(line[2:])
    if not different(used) or not set(used) <= set(letters):
        return None
    *controls, target = [letters.index(letter) for letter in used]
    return target << 5 | sum(1 << control for control in controls)


def parse(text):
    """n, m and the gate bytes of a text, or None where it departs from the form."""
    found = FORM.fullmatch(text) if len(text) <= TEXT_AT_MOST else None
    if found is None:
        return None
    letters = letters_of(found[2])
    wires = wires_of(int(found[1]), letters, found[3])
    gates = [gate_of(line, letters) for line in found[4].split(b"\n")[:-1]]
    return None if wires is None or None in gates else (*wires, gates)


def read_call(text, room):
    """The refusal code or 0, and the record where it is 0."""
    if room < ROOM_AT_LEAST:
        return 13, None
    parsed = parse(text)
    if parsed is None:
        return 22, None
    n, m, gates = parsed
    if len(gates) > ref.GATES_AT_MOST:
        return 23, None
    return 0, bytes([n << 5 | m << 3, ref.PLAIN_LAYOUT[n], len(gates), *gates])


def gate_line(letters, wires):
    """The line of a gate with these wires, the target last."""
    words = [b"t%d" % len(wires)] + [letters[wire:wire + 1] for wire in wires]
    return b" ".join(words)


def text_of(letters, constants, gates):
    """A text from its parts: the letters, the word after `.constants` or None,
    and for each gate its wires, the target last."""
    names = b" ".join(letters[i:i + 1] for i in range(len(letters)))
    lines = [b".version 2.0", b".numvars %d" % len(letters), b".variables " + names]
    if constants is not None:
        lines.append(b".constants " + constants)
    lines.append(b".begin")
    lines += [gate_line(letters, wires) for wires in gates]
    lines.append(b".end")
    return b"".join(line + b"\n" for line in lines)


def render(circuit):
    """The text of a sound circuit."""
    read = ref.read_circuit(circuit)
    constants = b"-" * read.n + b"0" if read.m else None
    gates = [ref.controls_of(gate) + [ref.target_of(gate)] for gate in read.gates]
    return text_of(LETTERS[:read.n + read.m], constants, gates)


def write_call(circuit, room):
    """The refusal code, or 13 and the length that is needed, or 0 and the text."""
    code = ref.check_circuit(circuit)
    if code:
        return code, None
    if ref.read_circuit(circuit).marked:
        return 8, None
    if circuit[1] != ref.PLAIN_LAYOUT[circuit[0] >> 5]:
        return 15, None
    text = render(circuit)
    return (0, text) if len(text) <= room else (13, len(text))
