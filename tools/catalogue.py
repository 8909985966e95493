"""Writes a page of facts from what the proved program prints: the cheapest circuits of the S-boxes in 002 and 003.

usage: python3 tools/catalogue.py CRATES OUT [--cap SECONDS] [--ancilla-cap SECONDS] [--only NAME]

CRATES is the folder `crates`, in which `rt run` has built main/out/main and gazbolk/out/gazbolk. OUT is the page: docs/CATALOGUE.md has the
groups `ciphers` and `three`, docs/CATALOGUE-003.md `related` and `classes`. Each job is searched with
`gazbolk search`, each circuit found is checked with `gazbolk verify`, and the command that the page gives for a
row is run as well where the search took at most AGAIN seconds. Anything unexpected ends the script with an error.
A search of more than --cap processor seconds (default 600), with an ancilla --ancilla-cap (default 240), is ended, and
the page says so. --only NAME takes one S-box, by its name in jobs.py, or one group of GROUPS below; it may be given several
times. The page is written again after each S-box, so that a run that is broken off leaves what it had.
"""

import argparse
import collections
import os
import re
import resource
import signal
import subprocess
import sys
import tempfile
import time

import jobs
import reference

LIMIT = 12
DURATIONS = (1, 1, 7)
GATES, QUANTUM, TWO_QUBIT = PRICES = [(1, 1, 1), (1, 1, 5), (0, 1, 5)]
MEASURES = {GATES: "gate count", QUANTUM: "quantum cost", TWO_QUBIT: "two-qubit cost"}
LAYOUTS = ["fixed", "free"]
AGAIN = 5

# The groups of S-boxes, by the words for --only: a heading, the tables, and what to know of them.
GROUPS = {
    "ciphers": ("S-boxes of ciphers", jobs.SBOXES, "Those that 002 and 003 name, with 002's linear map M."),
    "three": ("Tables of three bits", jobs.THREE_BITS,
              "Neither paper prints a table of three bits: 003's example of one has letters for its rows. These are ours."),
    "related": ("S-boxes of 003's Tables 6 to 9 and D2", jobs.RELATED,
                "003 looks for the S-box that takes fewest gates among all that are affine equivalent to a given one (Tables 6 and 8), the\n"
                "same without fixed points (7 and 9), and for S-boxes with given cryptographic properties (D2). A name here is that of the\n"
                "table's row, with the number of the table."),
    "classes": ("S-boxes of 003's Table C1", jobs.CLASSES,
                "One table of each affine class. 003 prints no counts for them, and the odd ones were not run with an ancilla."),
}

# Where the papers have the tables of the first group.
PLACES = {
    "GIFT": "002 Tables 1, 2 and 4, 003 Appendix B",
    "PRESENT": "002 Table 1, 003 Appendix B",
    "RECTANGLE": "002 Tables 1 and 2, 003 Appendix B",
    "SKINNY": "002 Table 1, 003 Appendix B",
    "MIDORI": "002 Table 1",
    "ELEPHANT": "002 Table 2",
    "LBLOCK": "002 Table 2",
    "LAC": "003 Appendix B",
    "UBLOCK": "002 Table 2",
    "PROST": "003 Appendix B",
    "PICCOLO": "003 Appendix B",
    "M": "002 Table 6",
    "inverse": "002 Tables 1 and 2",
}

# A count that a paper prints: of which S-box, where, found by whom, with how many ancillas, the prices at which cost
# is the same measure, the count, and what was minimised.
Printed = collections.namedtuple("Printed", "name place by m prices count minimised")


def gate_counts(place, by, minimised, m=0, **counts):
    return [Printed(name, place, by, m, GATES, count, minimised) for name, count in counts.items()]


def table_4(name, *counts):
    return [Printed(name, "003 Table 4", "003", 0, prices, count, MEASURES[prices])
            for prices, count in zip((GATES, TWO_QUBIT, QUANTUM), counts)]


def class_counts(number, counts):
    """Of 003's Tables 6 to 9: the count for the S-box that stands for its class."""
    return [Printed(f"{name}/{number}", f"003 Table {number}", "003", 0, GATES, count,
                    "gate count, over the whole class") for name, count in counts.items()]


THEN_DEPTH = "gate count, then depth"
PRINTED = [
    *gate_counts("002 Table 1", "LIGHTER-R", "gate count", RECTANGLE=10, GIFT=8, PRESENT=11, SKINNY=10, MIDORI=10),
    *gate_counts("002 Table 1", "002", THEN_DEPTH, PRESENT=11, SKINNY=10, MIDORI=10),
    *gate_counts("002 Tables 1 and 2", "002", THEN_DEPTH, RECTANGLE=10, GIFT=8),
    *gate_counts("002 Tables 1 and 2", "002", THEN_DEPTH, 1, inverse=10),
    *gate_counts("002 Figure 6", "Lin et al.", "002 does not say", 1, inverse=10),
    *gate_counts("002 Table 2", "DORCIS", "depth", RECTANGLE=11, GIFT=13, ELEPHANT=13, LBLOCK=10, UBLOCK=9),
    *gate_counts("002 Table 2", "002", THEN_DEPTH, ELEPHANT=12, LBLOCK=9, UBLOCK=8),
    *gate_counts("002 Table 2", "002", "depth, with an ancilla", 1, GIFT=9),
    *table_4("PROST", 4, 20, 20),
    *table_4("PICCOLO", 9, 20, 25),
    *table_4("SKINNY", 10, 20, 26),
    *table_4("PRESENT", 11, 25, 27),
    *table_4("RECTANGLE", 10, 23, 26),
    *table_4("LAC", 8, 22, 24),
    *table_4("GIFT", 8, 22, 24),
    *class_counts(6, dict(PICCOLO=4, SKINNY=4, PRESENT=5, RECTANGLE=5, LAC=4, GIFT=5)),
    *class_counts(7, dict(PROST=5, PICCOLO=5, SKINNY=5, PRESENT=6, RECTANGLE=6, LAC=5, GIFT=6)),
    *class_counts(8, dict(G0=4, G1=5, G2=4, G4=7, G5=7, G7=7, G13=7)),
    *class_counts(9, dict(G0=5, G1=6, G2=5, G4=7, G5=8, G7=8, G8=5, G13=8)),
    *[Printed(f"S{i}/D2", "003 Table D2", "003", 0, GATES, count, "gate count, at given properties")
      for i, count in enumerate((4, 6, 5, 5, 7, 7), 1)],
]

HEAD = """\
# Catalogue

The cheapest circuits of the 3- and 4-bit S-boxes in the papers 002 and 003, as the proved program prints them. This page is written by
[tools/catalogue.py](../tools/catalogue.py). No answer on it is typed in; the tables asked about and the papers' counts are.

    {command}

## How to read it

A row is one job: a table with every bit asked for, at most {limit} gates, no limit on cost or depth, and durations {durations} for a NOT, a CNOT and
a Toffoli. Its prices stand in that order: 1,1,1 counts gates, 1,1,5 is called quantum cost and 0,1,5 two-qubit cost. With the fixed layout
output i ends on wire i; with the free one the outputs may end on the data wires in any order. An ancilla is one more wire, which starts at 0
and ends at 0 in every row of the table.

- **A circuit** in a row is cheapest: no list of at most {limit} gates with an allowed layout realizes the table at a lower cost. Among those of
  equal cost it has the fewest gates, then the least depth; then the order of layout and gate bytes decides. At prices 1,1,1 every list of more
  than {limit} gates costs more than {limit}, so there the circuit is cheapest among lists of every length. At the other prices a longer list might
  cost less; the page does not say.
- **none within {limit} gates** means that no list of at most {limit} gates, with any allowed layout, realizes the table.
- **none of any length** means that no list of gates realizes the table, however long. It is said of odd tables of four bits without an ancilla.
{late}
Gates, cost and depth are the circuit's measures. Its record is read byte by byte in [REFERENCE.md](REFERENCE.md#the-circuit-record). In
a drawing each line is a wire, wire 0 on top, and each column a gate, first gate first: ⊕ is the target and ● a control, and ┼ is a wire that
the gate passes over. x0 to x3 are the inputs and y0 to y3 the outputs; an ancilla has 0 at both ends. Below each column is the gate's byte.

## Why to believe it

| in a row | theorem | what it says |
|---|---|---|
| a circuit | [found_is](../crates/outcomes/proofs/Facts.antt) | what is found realizes the table within the limits, and every other that does comes after it in the order and costs no less |
| none within {limit} gates | [none_is](../crates/outcomes/proofs/Facts.antt) | 14 is answered exactly when no list with an allowed layout solves the job |
| none of any length | [odd_none](../crates/outcomes/proofs/Facts.antt), [none_realizes](../crates/parity/proofs/odd_tables/Never.antt) | on four data wires without an ancilla no list of these gates realizes an odd table |

The words of the theorems are definitions: `Admitted`, `Solves` and `Winner` in [Demand.antt](../crates/problem/specs/Demand.antt), over the problem of
[Problems.antt](../crates/problem/specs/Problems.antt). Search and verify are tied together in [Verified.antt](../crates/outcomes/proofs/Verified.antt):
what is found passes `verify` with the measures returned, and "none" is answered exactly when no record of any bytes would pass. The script asks
`gazbolk verify` again for every circuit here, and stops unless it prints the same gates, cost and depth. It also runs the command of each row
that took at most {again} seconds, and stops unless it prints what the row says.

Not proved are the prover, the compiler's back end, the linker, libc and the processor, and that a program reads its input and writes its line out;
[ASSURANCE.md](ASSURANCE.md#what-is-not-proved) has the list. The drawings, the parities and the comparisons with the papers are made by the script,
which has no proof; that the inverse is odd is proved, as a row of [samples](../crates/samples/specs/Table.antt).

## The papers' counts

A count is set beside our row with the same ancillas, the free layout and the prices that give the same measure: both papers let the outputs end
on any data wire. "Lower by 1" says that our cost is 1 below the printed count. A count can be higher because something else was minimised, so
the tables say what. LIGHTER-R and DORCIS are tools whose counts 002 prints beside its own: the first goes for gates, the second for depth. 002
says that it takes the fewest gates first and then the least depth; but in its Table 2 every row without an ancilla has the depth that DORCIS
has. The inverse is from a paper of Lin et al., whose count 002 prints too.

An ancilla ends at 0 here, in every row of the table. 002 writes that ancillas are to be cleaned up, but the constraints it prints ask nothing of the
ancilla's end, so that a count of its own with an ancilla can be lower than ours.

The papers' depths are not compared. 003 counts layers of Toffolis only, and 002 defines its full depth by the parts of a Toffoli taken apart.

## Overview

The cost, at each layout and price.
"""

LATE = """\
- **not answered** means that the program was ended after the processor time given, and nothing is known. In the overview it is a dash.
"""

# What a row says: "found", "none" or "late", the measures and the record of what was found, the seconds after which a
# search was ended.
Answer = collections.namedtuple("Answer", "word gates cost depth record cap", defaults=[None] * 5)
Row = collections.namedtuple("Row", "m free prices job answer")
# The names of an S-box, the digits of its table, its parity, and its rows.
Entry = collections.namedtuple("Entry", "names digits parity rows")


class Program:
    """The proved programs in the folder of crates, and a folder for their files."""

    def __init__(self, crates, folder):
        self.folder = folder
        self.gazbolk = os.path.join(os.path.abspath(crates), "gazbolk", "out", "gazbolk")
        os.symlink(os.path.abspath(crates), os.path.join(folder, "crates"))

    def put(self, name, content):
        path = os.path.join(self.folder, name)
        with open(path, "wb") as file:
            file.write(content)
        return path

    def printed(self, command):
        return subprocess.run(command, stdout=subprocess.PIPE, check=True, cwd=self.folder).stdout.decode()

    def printed_within(self, command, cap):
        """What a command prints, or None where it was ended after so much processor time."""
        def limit():
            resource.setrlimit(resource.RLIMIT_CPU, (cap, cap + 1))
        run = subprocess.run(command, stdout=subprocess.PIPE, cwd=self.folder, preexec_fn=limit)
        if run.returncode in (-signal.SIGXCPU, -signal.SIGKILL):
            return None
        run.check_returncode()
        return run.stdout.decode()

    def search(self, job, cap):
        """The answer to a job, checked by `verify` and by the row's own command."""
        path = self.put("job", job)
        start = time.monotonic()
        text = self.printed_within([self.gazbolk, "search", path], cap)
        if text is None:
            return Answer("late", cap=cap)
        line = text.split("\n")[0]
        quick = time.monotonic() - start <= AGAIN
        if quick and self.printed(["bash", "-c", command_of(job)]).strip() != line:
            sys.exit(f"{command_of(job)} does not print {line}")
        if line == "refused 14":
            return Answer("none")
        words = line.split()
        if len(words) != 5 or words[0] != "found":
            sys.exit(f"{job.hex()}: {line}")
        answer = Answer("found", *map(int, words[1:4]), bytes.fromhex(words[4]))
        self.verify(path, answer)
        return answer

    def verify(self, path, answer):
        circuit = self.put("circuit", answer.record)
        line = self.printed([self.gazbolk, "verify", path, circuit]).split("\n")[0]
        if line != f"passed {answer.gates} {answer.cost} {answer.depth}":
            sys.exit(f"{answer.record.hex()}: found {answer}, but verify says {line}")


def command_of(job):
    return "printf '" + "".join(f"\\x{byte:02x}" for byte in job) + "' | crates/main/out/main"


def printed_for(names):
    return [printed for printed in PRINTED if printed.name in names]


def combinations(names, odd, group):
    """Ancillas, layout and prices of the rows. Rows with an ancilla: all of them for an odd table of four bits, else those
    beside which a paper prints a count."""
    every = [(free, prices) for free in range(2) for prices in PRICES]
    counted = {(1, printed.prices) for printed in printed_for(names) if printed.m}
    with_ancilla = [pair for pair in every if pair in counted or odd and group != "classes"]
    return [(0, *pair) for pair in every] + [(1, *pair) for pair in with_ancilla]


def entry_of(program, names, digits, group, caps):
    values = jobs.sbox(names[0])
    parity = reference.parity_call(jobs.job(values, LIMIT))[1]
    odd = len(values) == 16 and parity == "odd"
    rows = []
    for m, free, prices in combinations(names, odd, group):
        job = jobs.job(values, LIMIT, m=m, free=free, prices=prices, durations=DURATIONS)
        start = time.monotonic()
        answer = program.search(job, caps[m])
        if odd and m == 0 and answer.word != "none":
            sys.exit(f"{names[0]}: an odd table, and yet {answer}")
        rows.append(Row(m, free, prices, job, answer))
        print(names[0], m, LAYOUTS[free], price_text(prices), answer.word, f"{time.monotonic() - start:.2f}", file=sys.stderr)
    return Entry(names, digits, parity, rows)


def drawing(record):
    """One line a wire, one column a gate."""
    circuit = reference.read_circuit(record)
    ends = {wire: f"y{j}" for j, wire in enumerate(reference.layout_wires(circuit.layout)[:circuit.n])}
    lines = []
    for wire in range(circuit.n + circuit.m):
        marks = "".join(f"─{mark(gate, wire)}──" for gate in circuit.gates)
        start, end = (f"x{wire}", ends[wire]) if wire < circuit.n else ("0 ", "0")
        lines.append(f"{start} ─{marks}─ {end}")
    if circuit.gates:
        lines.append("    " + "  ".join(f"{gate:02X}" for gate in circuit.gates))
    return lines


def mark(gate, wire):
    target, controls = reference.target_of(gate), reference.controls_of(gate)
    touched = [target] + controls
    if wire == target:
        return "⊕"
    if wire in controls:
        return "●"
    return "┼" if min(touched) < wire < max(touched) else "─"


def never(entry, row):
    return len(entry.digits) == 16 and entry.parity == "odd" and row.m == 0


def price_text(prices):
    return ",".join(map(str, prices))


def row_line(number, entry, row, letters):
    answer = row.answer
    head = [str(number)] + [str(row.m)] * has_ancilla(entry) + [LAYOUTS[row.free], price_text(row.prices)]
    if answer.word == "found":
        tail = [str(answer.gates), str(answer.cost), str(answer.depth), letters[answer.record], "found_is"]
    elif answer.word == "none":
        text, theorem = ("none of any length", "odd_none") if never(entry, row) else (f"none within {LIMIT} gates", "none_is")
        tail = ["", "", "", text, theorem]
    else:
        tail = ["", "", "", f"not answered within {answer.cap} seconds", ""]
    return "| " + " | ".join(head + tail) + " |"


def has_ancilla(entry):
    return any(row.m for row in entry.rows)


def listed(numbers):
    """The rows with these numbers, in words."""
    numbers = [str(number) for number in numbers]
    if len(numbers) == 1:
        return "row " + numbers[0]
    return "rows " + ", ".join(numbers[:-1]) + " and " + numbers[-1]


def circuits_of(entry):
    """Each record found, in the order of rows, with the numbers of its rows."""
    records = {}
    for number, row in enumerate(entry.rows, 1):
        if row.answer.word == "found":
            records.setdefault(row.answer.record, []).append(number)
    return records


def comparison(printed, entry):
    """Our figure for a printed count, and how the two stand."""
    [row] = [row for row in entry.rows if (row.m, row.free, row.prices) == (printed.m, 1, printed.prices)]
    answer = row.answer
    if answer.word == "late":
        return "", "not answered"
    if answer.word == "none":
        return "none", "never realized" if never(entry, row) else f"not realized within {LIMIT} gates"
    less = printed.count - answer.cost
    if less < 0:
        why = "so few gates do not realize this table" if printed.prices == GATES else f"at most {LIMIT} gates here"
        if printed.m:
            why += ", with the ancilla at 0 in the end"
        return str(answer.cost), f"higher by {-less}: {why}"
    return str(answer.cost), f"lower by {less}" if less else "equal"


def printed_lines(entry):
    counts = printed_for(entry.names)
    if not counts:
        return ["Neither paper prints a count for it.", ""]
    lines = ["| printed in | for | found by | ancillas | measure | printed | minimised | ours | ours is |",
             "|---|---|---|---|---|---|---|---|---|"]
    for one in counts:
        ours, standing = comparison(one, entry)
        cells = [one.place, one.name, one.by, str(one.m), MEASURES[one.prices], str(one.count), one.minimised, ours, standing]
        lines.append("| " + " | ".join(cells) + " |")
    return lines + [""]


def place_of(name):
    if name in PLACES:
        return PLACES[name]
    if name in jobs.THREE_BITS:
        return "ours"
    row, _, number = name.partition("/")
    return f"003 Table {number or 'C1'}, {row}"


def section(entry):
    records = circuits_of(entry)
    letters = {record: "ABCDEFGHIJKL"[i] for i, record in enumerate(records)}
    places = "; ".join(f"{name}: {place_of(name)}" if len(entry.names) > 1 else place_of(name) for name in entry.names)
    lines = [f"### {title(entry)}", "", f"Table `{entry.digits}`, {entry.parity}. {places[0].upper() + places[1:]}.", ""]
    column = "ancillas | " if has_ancilla(entry) else ""
    count = 8 + has_ancilla(entry)
    lines += [f"| row | {column}layout | prices | gates | cost | depth | circuit | theorem |", "|" + "---|" * count]
    lines += [row_line(number, entry, row, letters) for number, row in enumerate(entry.rows, 1)]
    for record, numbers in records.items():
        lines += ["", f"{letters[record]}, `{record.hex().upper()}`, {listed(numbers)}:", "", "```text", *drawing(record), "```"]
    lines += ["", "The commands, by row:", "", "```bash"]
    lines += [f"{command_of(row.job)}  # {number}" for number, row in enumerate(entry.rows, 1)]
    return lines + ["```", ""] + printed_lines(entry)


def title(entry):
    return ", ".join(entry.names)


def anchor(text):
    return re.sub(r"[^\w\- ]", "", text.lower()).replace(" ", "-")


def overview(groups):
    every = [(free, prices) for free in range(2) for prices in PRICES]
    lines = ["| S-box | " + " | ".join(f"{LAYOUTS[free]} {price_text(prices)}" for free, prices in every) + " |",
             "|---|" + "---|" * len(every)]
    for entries in groups.values():
        for entry in entries:
            for m in sorted({row.m for row in entry.rows}):
                name = f"[{title(entry)}](#{anchor(title(entry))})" + (", one ancilla" if m else "")
                answers = {(row.free, row.prices): row.answer for row in entry.rows if row.m == m}
                cells = [short(answers[pair]) if pair in answers else "" for pair in every]
                lines.append(f"| {name} | " + " | ".join(cells) + " |")
    return lines + [""]


def short(answer):
    return {"found": str(answer.cost), "none": "none", "late": "-"}[answer.word]


def wanted(only, group, names):
    return not only or group in only or any(name in only for name in names)


def page(groups, command):
    late = sum(row.answer.word == "late" for entries in groups.values() for entry in entries for row in entry.rows)
    head = HEAD.format(limit=LIMIT, durations=", ".join(map(str, DURATIONS)), again=AGAIN, late=LATE if late else "", command=command)
    lines = [head, *overview(groups)]
    for group, entries in groups.items():
        heading, _, note = GROUPS[group]
        lines += [f"## {heading}", "", note, ""]
        for entry in entries:
            lines += section(entry)
    return "\n".join(lines).rstrip("\n") + "\n"


def write_pages(program, only, caps, out):
    """Searches for one S-box after the other, and writes the page after each."""
    groups = {}
    command = " ".join(["python3 tools/catalogue.py crates", os.path.join("docs", os.path.basename(out))] + [f"--only {name}" for name in only])
    for group, (_, tables, _) in GROUPS.items():
        for digits, names in jobs.by_table(tables).items():
            if wanted(only, group, names):
                groups.setdefault(group, []).append(entry_of(program, names, digits, group, caps))
                with open(out, "w") as file:
                    file.write(page(groups, command))


def main():
    parser = argparse.ArgumentParser(description="Writes a page of facts from what the proved program prints.")
    parser.add_argument("crates", help="the folder of crates, with main and gazbolk built")
    parser.add_argument("out", help="the page")
    parser.add_argument("--cap", type=int, default=600, help="processor seconds for a job without an ancilla")
    parser.add_argument("--ancilla-cap", type=int, default=240, help="processor seconds for a job with one")
    parser.add_argument("--only", action="append", default=[], help="an S-box, or a group: " + ", ".join(GROUPS))
    args = parser.parse_args()
    unknown = [name for name in args.only if name not in GROUPS and name not in jobs.TABLES]
    if unknown:
        sys.exit(f"no S-box or group of this name: {', '.join(unknown)}")
    with tempfile.TemporaryDirectory() as folder:
        write_pages(Program(args.crates, folder), args.only, (args.cap, args.ancilla_cap), args.out)


if __name__ == "__main__":
    main()
