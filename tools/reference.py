"""A slow, plain reading of documents 01 and 02, kept apart from the proved code.

The functions below are written from the papers alone and do the obvious thing
at every turn, so that a reader can hold them against the papers in one sitting.
Words: a layout is the paper's placing, a care mask its wanted-bits mask, to
realize a table is to meet it, and to verify a circuit is to judge it.
"""

from typing import NamedTuple

GATES_AT_MOST = 12
# The lengths of a job and the n that goes with each. The second and the last
# are the longer jobs of document 02, with prices and durations for four kinds.
DATA_WIRES = {20: 3, 22: 3, 28: 4, 30: 4}
LONGER = (22, 30)
PLAIN_LAYOUT = {3: 0x18, 4: 0x1B}


def bit(value, i):
    return (value >> i) & 1


# ---- gates ----------------------------------------------------------------

def target_of(gate):
    """The wire that the gate may flip: the top three bits of its byte."""
    return gate >> 5


def controls_of(gate):
    """The wires that decide whether it flips: ones among the low five bits."""
    return [wire for wire in range(5) if bit(gate, wire)]


def lawful(gate, wires, most=2):
    """Whether the byte names a gate of a circuit with that many wires, where a
    gate may have at most that many controls."""
    target, controls = target_of(gate), controls_of(gate)
    return (target < wires
            and all(control < wires for control in controls)
            and target not in controls
            and len(controls) <= most)


def kind_of(gate):
    """0 for a NOT, 1 for a CNOT, 2 for a Toffoli, 3 for three controls."""
    return len(controls_of(gate))


def gate_table(wires, most=2):
    """All lawful gate bytes, rising."""
    return [gate for gate in range(256) if lawful(gate, wires, most)]


def step(gate, value):
    """The wires' value after one gate."""
    if all(bit(value, control) for control in controls_of(gate)):
        return value ^ (1 << target_of(gate))
    return value


def run(gates, value):
    """The wires' value after a whole list, first gate first."""
    for gate in gates:
        value = step(gate, value)
    return value


def undo(gates, value):
    """The same list, last gate first."""
    return run(reversed(gates), value)


# ---- measures -------------------------------------------------------------

class Measures(NamedTuple):
    gates: int
    cost: int
    depth: int


def ready_by(gates, duration):
    """For each of five wires, the time from which it is idle for good; each
    gate's duration is given by its byte."""
    ready = [0] * 5
    for gate in gates:
        touched = [target_of(gate)] + controls_of(gate)
        end = max(ready[wire] for wire in touched) + duration[gate]
        for wire in touched:
            ready[wire] = end
    return ready


def by_kind(gates, weights):
    """The weight of each gate byte, where weights go by kind, the NOT's first."""
    return {gate: weights[kind_of(gate)] for gate in gates}


def ready_times(gates, durations):
    return ready_by(gates, by_kind(gates, durations))


def ready_words(gates, durations):
    """How the test programs print the ready times of five wires."""
    return " ".join(["ready"] + [str(time) for time in ready_times(gates, durations)])


def measures_by(gates, price, duration):
    """Prices and durations by gate byte."""
    return Measures(len(gates), sum(price[gate] for gate in gates), max(ready_by(gates, duration)))


def measures_of(gates, prices, durations):
    """Prices and durations by kind, the NOT's first."""
    return measures_by(gates, by_kind(gates, prices), by_kind(gates, durations))


# ---- layouts --------------------------------------------------------------

def layout_wires(layout):
    """The four 2-bit fields, highest first: the wires of outputs 0, 1, 2, 3."""
    return [(layout >> shift) & 3 for shift in (6, 4, 2, 0)]


def layout_sound(layout, n):
    """The first n fields name each data wire once; a spare field is zero."""
    fields = layout_wires(layout)
    return sorted(fields[:n]) == list(range(n)) and not any(fields[n:])


def layouts(n):
    """Every sound layout byte, rising."""
    return [layout for layout in range(256) if layout_sound(layout, n)]


# ---- records --------------------------------------------------------------

class Job(NamedTuple):
    n: int
    m: int
    free: bool        # any sound layout will do; otherwise only the plain one
    limits: Measures
    prices: tuple
    durations: tuple
    rows: list        # one pair a row: care mask, value
    longer: bool      # three controls are lawful


class Circuit(NamedTuple):
    n: int
    m: int
    marked: bool      # it may hold gates of three controls
    layout: int
    gates: list


def split_job(job):
    """Prices, durations and rows of a job of one of the four lengths."""
    if len(job) in LONGER:
        return job[6:10], job[10:14], job[14:]
    return job[6:9], job[9:12], job[12:]


def read_job(job):
    """The fields of a job that has passed `check_job`."""
    prices, durations, rows = split_job(job)
    return Job(job[0] >> 5, (job[0] >> 3) & 3, bool(bit(job[0], 2)),
               Measures(job[1], 256 * job[2] + job[3], 256 * job[4] + job[5]),
               tuple(prices), tuple(durations),
               [(row >> 4, row & 15) for row in rows], len(job) in LONGER)


def read_circuit(circuit):
    """The fields of a circuit that has passed `check_circuit`."""
    return Circuit(circuit[0] >> 5, (circuit[0] >> 3) & 3, bool(bit(circuit[0], 0)),
                   circuit[1], list(circuit[3:]))


def row_sound(row, n):
    care, value = row >> 4, row & 15
    return value & ~care == 0 and care < 2 ** n and value < 2 ** n


def check_job(job):
    """The code of the first rule that a job breaks, 0 for a sound one."""
    if len(job) not in DATA_WIRES:
        return 1
    n = job[0] >> 5
    if n != DATA_WIRES[len(job)]:
        return 2
    _, durations, rows = split_job(job)
    if (job[0] >> 3) & 3 > 1 or job[0] & 3 != 0:
        return 3
    if job[1] > GATES_AT_MOST:
        return 4
    if min(durations) < 1:
        return 5
    if not all(row_sound(row, n) for row in rows):
        return 6
    return 0


def check_circuit(circuit):
    """The code of the first rule that a circuit breaks, 0 for a sound one."""
    if not 3 <= len(circuit) <= 15:
        return 7
    n, m = circuit[0] >> 5, (circuit[0] >> 3) & 3
    if n not in (3, 4) or m > 1 or circuit[0] & 6 != 0:
        return 8
    if not layout_sound(circuit[1], n):
        return 9
    if circuit[2] != len(circuit) - 3:
        return 10
    most = 3 if bit(circuit[0], 0) else 2
    if not all(lawful(gate, n + m, most) for gate in circuit[3:]):
        return 21
    return 0


# ---- the calls ------------------------------------------------------------
# Each gives a pair: the refusal code or 0, and the result where it is 0.

def run_call(circuit, value, along):
    """`along` is `run` for forwards, `undo` for backwards."""
    code = check_circuit(circuit)
    if code:
        return code, None
    read = read_circuit(circuit)
    if value >= 2 ** (read.n + read.m):
        return 20, None
    return 0, along(read.gates, value)


def check_pair(job, circuit):
    """The rules that measuring and verifying share."""
    code = check_job(job) or check_circuit(circuit)
    if code:
        return code
    asked, given = read_job(job), read_circuit(circuit)
    if (asked.n, asked.m) != (given.n, given.m):
        return 12
    return 28 if given.marked and not asked.longer else 0


def measure_call(job, circuit):
    code = check_pair(job, circuit)
    if code:
        return code, None
    asked, given = read_job(job), read_circuit(circuit)
    return 0, measures_of(given.gates, asked.prices, asked.durations)


def agrees(gates, layout, rows):
    """Whether every output bit that some row cares about ends as it asks.
    Row x starts all wires at x, which leaves an ancilla at 0."""
    wires = layout_wires(layout)
    return all(bit(run(gates, x), wires[j]) == bit(value, j)
               for x, (care, value) in enumerate(rows)
               for j in range(4) if bit(care, j))


def clean(gates, n):
    """Whether the ancilla, wire n, is back at 0 after every row, also after
    those that care about nothing."""
    return all(bit(run(gates, x), n) == 0 for x in range(2 ** n))


def verify_call(job, circuit):
    code, measured = measure_call(job, circuit)
    if code:
        return code, None
    return verify_rest(read_job(job), read_circuit(circuit), measured)


def verify_rest(asked, given, measured):
    """The rules of verifying that follow those of measuring."""
    if not asked.free and given.layout != PLAIN_LAYOUT[asked.n]:
        return 15, None
    if not agrees(given.gates, given.layout, asked.rows):
        return 16, None
    if not clean(given.gates, asked.n):
        return 24, None
    for code, got, limit in zip((17, 18, 19), measured, asked.limits):
        if got > limit:
            return code, None
    return 0, measured


def inversions(values):
    """How many pairs of rows have the larger value in the earlier row."""
    return sum(values[i] > values[j]
               for j in range(len(values)) for i in range(j))


def parity_call(job):
    code = check_job(job)
    if code:
        return code, None
    asked = read_job(job)
    size = 2 ** asked.n
    values = [value for _, value in asked.rows]
    if (any(care != size - 1 for care, _ in asked.rows)
            or sorted(values) != list(range(size))):
        return 0, "neither"
    return 0, "odd" if inversions(values) % 2 else "even"


# ---- with a library -------------------------------------------------------
# Document 02's gate table of a caller: three bytes an entry, gate, price, duration.

LIBRARY_AT_MOST = 225


def entries_of(library):
    return [tuple(library[at:at + 3]) for at in range(0, len(library), 3)]


def check_library(job, library):
    """The code of the first rule that a library breaks for a sound job, or 0."""
    if len(library) > LIBRARY_AT_MOST or len(library) % 3 != 0:
        return 29
    asked, last = read_job(job), -1
    for gate, _, duration in entries_of(library):
        if (not lawful(gate, asked.n + asked.m, 3 if asked.longer else 2)
                or duration == 0 or gate <= last):
            return 30
        last = gate
    return 0


def verify_with_call(job, library, circuit):
    code = check_job(job) or check_library(job, library) or check_pair(job, circuit)
    if code:
        return code, None
    asked, given = read_job(job), read_circuit(circuit)
    price = {gate: price for gate, price, _ in entries_of(library)}
    duration = {gate: duration for gate, _, duration in entries_of(library)}
    if any(gate not in price for gate in given.gates):
        return 31, None
    return verify_rest(asked, given, measures_by(given.gates, price, duration))


def search_with_call(job, library, room):
    """Every list of the library's gates up to the limit, with every layout:
    the code, or the record that comes first."""
    code = check_job(job) or check_library(job, library)
    if code:
        return code, None
    if room < 15:
        return 13, None
    asked = read_job(job)
    entries = entries_of(library)
    price = {gate: price for gate, price, _ in entries}
    duration = {gate: duration for gate, _, duration in entries}
    allowed = layouts(asked.n) if asked.free else [PLAIN_LAYOUT[asked.n]]
    best, lists = None, [[]]
    for count in range(asked.limits.gates + 1):
        for gates in lists:
            measured = measures_by(gates, price, duration)
            if any(got > limit for got, limit in zip(measured, asked.limits)) or not clean(gates, asked.n):
                continue
            for layout in allowed:
                key = (measured.cost, count, measured.depth, layout, gates)
                if (best is None or key < best) and agrees(gates, layout, asked.rows):
                    best = key
        lists = [gates + [gate] for gates in lists for gate, _, _ in entries]
    if best is None:
        return 14, None
    head = asked.n << 5 | asked.m << 3 | asked.longer
    return 0, bytes([head, best[3], best[1]] + best[4])
