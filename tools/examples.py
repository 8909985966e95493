"""Writes the files of examples/, those at the limits of each length, and what `gazbolk` must print for them.

The texts of examples/ are given here as text and read by the few lines below, the long
ones by revlib_text.py; the verdicts and what is found come from the model in reference.py,
which tries every list: nothing comes from the proved program.
Run it in the repository's root: python3 tools/examples.py
"""

import os
import random

import batch_vectors
import closest_vectors
import jobs
import library_vectors
import price_vectors
import reference
import revlib_text
import rewrite_vectors

GIFT = [int(digit, 16) for digit in "1A4C6F392DB7508E"]

# the gates of 003's Example 4, in its order; wire a is bit 0 of the row number
EXAMPLE4 = """.version 2.0
.numvars 4
.variables a b c d
.begin
t3 a c b
t3 b d a
t2 c d
t2 b c
t1 b
t3 a b d
t2 d b
t3 a b c
.end
"""

# GIFT with output i on wire i
GIFT_PLAIN = """.version 2.0
.numvars 4
.variables a b c d
.constants ----
.begin
t3 a c b
t3 a b d
t2 d a
t1 b
t2 b c
t3 a b d
t2 c a
t2 a b
t1 c
t3 a d c
.end
"""

MEANINGS = {1: "the job is not 20, 22, 28 or 30 bytes long",
            14: "no circuit within the limits realizes the table",
            15: "the job allows the plain layout only",
            16: "the circuit does not realize the table",
            22: "the text departs from the form of a circuit",
            23: "the text has more than 12 gates",
            26: "the batch is not up to 64 whole records of 20 or 28 bytes",
            29: "the library is not up to 75 entries of three bytes each",
            31: "the circuit has a gate that is not in the library",
            33: "the list has more than 4,096 gates",
            34: "a gate of the list is not lawful, or has three controls",
            38: "the jobs differ in more than one price, or limit the cost"}

# a device of three wires in a line: each wire has a NOT, and neighbours a CNOT either way
LINE = [0x00, 0x02, 0x20, 0x21, 0x24, 0x40, 0x42]
# four times two gates that are there twice, but for one; and a gate of three controls
TWICE = [0x43, 0x20, 0x43, 0x20, 0x61, 0x25, 0x61, 0x25, 0x0A, 0x2C, 0x0A, 0x2C, 0x40, 0x61, 0x40, 0x61]
THREE = 0x67
# wire 0 added to wire 2, its neighbour's neighbour
ACROSS = 0x41

# a file that is not there
ABSENT = "absent.circuit"


def gates_of(text):
    """The gate bytes of a text with no ancilla."""
    lines = [line.split() for line in text.splitlines()]
    letters = next(line[1:] for line in lines if line[0] == ".variables")
    gates = []
    for line in lines:
        if line[0] in ("t1", "t2", "t3"):
            *controls, target = [letters.index(letter) for letter in line[1:]]
            gates.append(32 * target + sum(2 ** wire for wire in controls))
    return gates


def record(layout, gates):
    return bytes([0x80, layout, len(gates)] + gates)


def job(free, values):
    """Four outputs, all wanted, prices 1, 1, 5 and durations 1, 1, 7; only the number of gates is limited, to 12."""
    head = [0x84 if free else 0x80, 12, 255, 255, 255, 255, 1, 1, 5, 1, 1, 7]
    return bytes(head + [0xF0 + value for value in values])


def library(gates):
    """These gates at price 1 and duration 1, but for Toffolis at 5 and 7."""
    return bytes(byte for gate in gates for byte in ((gate, 5, 7) if reference.kind_of(gate) == 2 else (gate, 1, 1)))


def refusal(code):
    return f"refused {code}\n{MEANINGS[code]}\n"


def described(text):
    """The record that a text describes, or the number that refuses it."""
    code, circuit = revlib_text.read_call(text, 15)
    return code or circuit


def verdict(job, circuit, gates=None):
    """What verifying prints; a text that describes no circuit is given by its number."""
    if isinstance(circuit, int):
        return refusal(circuit)
    if gates is None:
        code, measures = reference.verify_call(job, circuit)
    else:
        code, measures = reference.verify_with_call(job, gates, circuit)
    if code:
        return refusal(code)
    asked, given = reference.read_job(job), reference.read_circuit(circuit)
    ready = reference.ready_times(given.gates, asked.durations)
    return "passed {} {} {}\nready {} {} {} {} {}\n".format(*measures, *ready)


def finding(job, gates=None):
    """What a search prints, with the job's own gates or with a library."""
    code = reference.check_job(job)
    if not code:
        gates = library_vectors.full(job) if gates is None else gates
        code, circuit = reference.search_with_call(job, gates, 15)
    if code:
        return refusal(code)
    price, duration = ({entry[0]: entry[i] for entry in reference.entries_of(gates)} for i in (1, 2))
    measures = reference.measures_by(reference.read_circuit(circuit).gates, price, duration)
    return "found {} {} {} {}\n".format(*measures, circuit.hex().upper())


def lines(batch):
    """What a batch prints: each job's line, or that it cannot be cut."""
    records = batch_vectors.cut(batch)
    if records is None:
        return refusal(26)
    return "".join(line(record) for record in records)


def line(record):
    code = reference.check_job(record)
    return "refused %d\n" % code if code else finding(record).splitlines()[0] + "\n"


def change(old, new):
    """What a comparison prints: the difference of the least costs and both lines, or a refusal."""
    code = reference.check_job(old) or reference.check_job(new) or (0 if price_vectors.comparable(old, new) else 38)
    if code:
        return refusal(code)
    found = [reference.search_with_call(record, library_vectors.full(record), 15) for record in (old, new)]
    if any(code for code, _ in found):
        return refusal(14)
    printed, costs = "", []
    for record, (_, circuit) in zip((old, new), found):
        asked = reference.read_job(record)
        measures = reference.measures_of(reference.read_circuit(circuit).gates, asked.prices, asked.durations)
        costs.append(measures[1])
        printed += "found {} {} {} {}\n".format(*measures, circuit.hex().upper())
    difference = costs[1] - costs[0]
    return "by %s\n" % ("%+d" % difference if difference else "0") + printed


def nearest(job):
    """What the closest circuit of a job prints."""
    code = reference.check_job(job)
    if code:
        return refusal(code)
    asked = reference.read_job(job)
    misses, cost, count, depth, layout, gates = closest_vectors.brute(job)
    circuit = bytes([asked.n << 5 | asked.m << 3 | asked.longer, layout, count, *gates])
    return "misses %d\nfound %d %d %d %s\n" % (misses, count, cost, depth, circuit.hex().upper())


def rewriting(file):
    """What the rewriting of a list prints: its gates and cost before and after, and the new list, or a refusal."""
    wires, window, prices, gates = file[0], file[1], tuple(file[2:5]), list(file[5:])
    code = rewrite_vectors.code_of(wires, window, gates)
    if code:
        return refusal(code)
    new = rewrite_vectors.rewritten(rewrite_vectors.Answers(wires, window, prices), window, gates)
    before, after = ("%d %d" % (len(part), sum(rewrite_vectors.price(prices, g) for g in part)) for part in (gates, new))
    return "before %s\nafter %s\n%s\n" % (before, after, bytes(new).hex().upper())


def edges():
    """Files at the limits of each length and one byte past them, which none of examples/ comes near."""
    table = reference.gate_table(4)
    batch = b"".join(jobs.job(jobs.after([table[i % 28]], 4), 1 if i < 56 else 0) for i in range(64))
    gates = bytes([3, 2, 1, 1, 5] + random.Random(36).choices(reference.gate_table(3), k=4097))
    long4 = jobs.job(jobs.after([THREE], 4), 1, **jobs.LONG)
    wide = jobs.job(jobs.after([THREE], 4), 1, m=1, **jobs.LONG)
    text = revlib_text.text_of(b"abc", None, [[0]] * 803 + [[0, 1]] * 4)
    files = {
        "whole.batch": batch,
        "over.batch": batch + b"\0",
        "whole.gates": gates[:-1],
        "over.gates": gates,
        "many.real": revlib_text.text_of(b"abc", None, [[0, 1, 2]] * 20),
        "whole.real": text,
        "over.real": text + b"\n",
        "long3.job": jobs.job(jobs.after([0x43], 3), 1, **jobs.LONG),
        "long4.job": long4,
        "cheap4.job": long4[:9] + b"\4" + long4[10:],
        "over.job": long4 + b"\0",
        "wide.job": wide,
        "whole.library": library_vectors.full(wide),
        "over.library": library_vectors.full(wide) + b"\0",
        "three.circuit": bytes([0x81, 0x1B, 1, THREE]),
    }
    sizes = {"whole.batch": 1792, "over.batch": 1793, "whole.gates": 5 + 4096, "over.gates": 5 + 4097, "many.real": 233, "whole.real": 4096,
             "over.real": 4097, "long3.job": 22, "long4.job": 30, "over.job": 31, "whole.library": 225, "over.library": 226}
    assert all(len(files[name]) == size for name, size in sizes.items())
    return files


EDGE_COMMANDS = [
    ("batch", "whole.batch"),
    ("batch", "over.batch"),
    ("rewrite", "whole.gates"),
    ("rewrite", "over.gates"),
    ("verify", "across.job", "many.real"),
    ("verify", "across.job", "whole.real"),
    ("verify", "across.job", "over.real"),
    ("search", "long3.job"),
    ("search", "long4.job"),
    ("search", "over.job"),
    ("search", "wide.job", "whole.library"),
    ("search", "wide.job", "over.library"),
    ("verify", "long4.job", "three.circuit"),
    ("verify", "over.job", "three.circuit"),
    ("verify", "long4.job", "three.circuit", "over.library"),
    ("compare", "long4.job", "cheap4.job"),
    ("compare", "long4.job", "over.job"),
    ("closest", "long4.job"),
    ("closest", "over.job"),
]


def put(folder, name, content):
    os.makedirs(folder, exist_ok=True)
    mode = "wb" if isinstance(content, bytes) else "w"
    with open(os.path.join(folder, name), mode) as file:
        file.write(content)


def main():
    gates = gates_of(EXAMPLE4)
    across = jobs.after([ACROSS], 3)
    files = {
        "gift.job": job(True, GIFT),
        "gift.circuit": record(0x78, gates),
        "gift.real": GIFT_PLAIN,
        "example4.real": EXAMPLE4,
        "example4.job": job(False, [reference.run(gates, x) for x in range(16)]),
        "across.job": jobs.job(across, 4),
        "across3.job": jobs.job(across, 3),
        "across.circuit": bytes([0x60, 0x18, 1, ACROSS]),
        "line.library": library(LINE),
    }
    far = files["across.job"]
    files["five.batch"] = far + jobs.job(jobs.after([0x25, 0x0A], 4), 2) + far[:1] + b"\x0d" + far[2:] + jobs.job(across, 0) + far
    files["cnot1.job"], files["cnot5.job"] = (jobs.job(jobs.after([0x21], 3), 4, prices=(0, price, 1)) for price in (1, 5))
    files["swap2.job"] = jobs.job(closest_vectors.SAMPLE, 2)
    files["cut.batch"] = files["five.batch"][:-1]
    files["twice.gates"] = bytes([4, 4, 1, 1, 5] + TWICE)
    files["three.gates"] = files["twice.gates"] + bytes([THREE])
    records = {
        "gift.circuit": files["gift.circuit"],
        "gift.real": record(0x1B, gates_of(GIFT_PLAIN)),
        "example4.real": record(0x1B, gates),
    }
    for name, content in files.items():
        put("examples", name, content)
    limits = edges()
    records.update({name: described(content) for name, content in limits.items() if name.endswith(".real")})
    files.update(limits)
    commands = [
        ("verify", "gift.job", "gift.circuit"),
        ("verify", "gift.job", "gift.real"),
        ("verify", "gift.job", "example4.real"),
        ("verify", "gift.job", ABSENT),
        ("verify", "across.job", "across.circuit", "line.library"),
        ("search", "across.job"),
        ("search", "across.job", "line.library"),
        ("search", "across3.job", "line.library"),
        ("batch", "five.batch"),
        ("batch", "cut.batch"),
        ("compare", "cnot1.job", "cnot5.job"),
        ("compare", "across.job", "across3.job"),
        ("closest", "swap2.job"),
        ("rewrite", "twice.gates"),
        ("rewrite", "three.gates"),
        *EDGE_COMMANDS,
    ]
    says = {"verify": verdict, "search": finding, "batch": lines, "compare": change, "closest": nearest, "rewrite": rewriting}
    printed = ""
    for command, *names in commands:
        for name in names:
            if name != ABSENT:
                put(os.path.join("crates", "gazbolk", "data"), name, files[name])
        absent = "unreadable %s\n" % ABSENT if ABSENT in names else ""
        printed += absent or says[command](*[records.get(name, files[name]) for name in names])
    # after the last `then` no command is named, as where there are no words at all: the program says what it can do
    put(os.path.join("crates", "gazbolk"), "args", "\nthen\n".join("\n".join(words) for words in commands) + "\nthen\n")
    with open(os.path.join("tools", "usage.txt")) as file:
        put(os.path.join("crates", "gazbolk"), "stdout", printed + file.read())
    for asked in ("gift.job", "example4.job"):
        for given in ("gift.circuit", "gift.real", "example4.real"):
            print(asked, given, verdict(files[asked], records[given]).replace("\n", " "))


if __name__ == "__main__":
    main()
