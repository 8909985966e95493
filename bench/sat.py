"""The question "is there a circuit of at most K gates?", or "and of at most so much cost?", for a SAT solver, as a CNF.

A CNF is a list of clauses, a clause a list of literals: a variable, or minus it. Variables:
 - one for each position and lawful gate, and one for the position left idle: exactly one is on
   (idle positions come last, so K positions hold at most K gates);
 - one for each position, row and wire: the wire's value before that position, and at the end;
 - helpers: for each position which wire is the target and which are controls, and in each row
   whether a control is 0 and whether the target flips;
 - free layout: one for each output and data wire, a one-to-one choice.
The first values are the row's bits, and 0 for the ancilla, which ends at 0 in every row. Of two
neighbouring gates that commute the first has the lower byte (a circuit of fewest gates has such
an order, and no gate twice in a row), which is the only symmetry broken.
With `direct` the helpers and the order are left out, and each gate says itself what it does to
each wire: the first encoding that comes to mind.
With a cost, a NOT and a CNOT have one price and a Toffoli a price that is no lower: then t Toffolis leave room for so
many gates in all, and a unary count of the Toffolis puts every position past that to idle.
"""


def lawful_gates(wires):
    def lawful(byte):
        target, controls = byte >> 5, byte & 31
        in_range = target < wires and controls >> wires == 0
        return in_range and not controls >> target & 1 and bin(controls).count("1") <= 2

    return [byte for byte in range(256) if lawful(byte)]


def commute(a, b):
    """Neither gate's target is a control of the other."""
    return not (a & 31) >> (b >> 5) & 1 and not (b & 31) >> (a >> 5) & 1


class Question:
    """At most `positions` gates for the table of a job's row bytes (care mask, value); with `cost`, a limit and the prices of
    a light gate and of a Toffoli, at most so much cost too."""

    def __init__(self, n, m, free, rows, positions, direct=False, cost=None):
        self.n, self.free, self.rows, self.direct = n, free, rows, direct
        self.wires = n + m
        self.gates = lawful_gates(self.wires)
        self.variables, self.clauses = 0, []
        self.values = [[self.fresh(self.wires) for _ in rows] for _ in range(positions + 1)]
        self.choices = [self.fresh(len(self.gates)) for _ in range(positions)]
        self.idle = self.fresh(positions)
        self.start()
        for position in range(positions):
            self.choose(position)
            (self.step_directly if direct else self.step)(position)
        if cost:
            self.limit_cost(*cost)
        self.end()

    def fresh(self, count):
        self.variables += count
        return list(range(self.variables - count + 1, self.variables + 1))

    def say(self, *clause):
        self.clauses.append(clause)

    def exactly_one(self, literals):
        self.say(*literals)
        for i, a in enumerate(literals):
            for b in literals[:i]:
                self.say(-a, -b)

    def any_of(self, literals):
        """A new variable that is on exactly when one of the literals is."""
        (either,) = self.fresh(1)
        self.say(-either, *literals)
        for literal in literals:
            self.say(either, -literal)
        return either

    def start(self):
        for x, values in enumerate(self.values[0]):
            for wire, value in enumerate(values):
                self.say(value if x >> wire & 1 else -value)

    def choose(self, position):
        self.exactly_one([self.idle[position]] + self.choices[position])
        if position == 0:
            return
        self.say(-self.idle[position - 1], self.idle[position])
        if self.direct:
            return
        for a, first in zip(self.gates, self.choices[position - 1]):
            for b, second in zip(self.gates, self.choices[position]):
                if b <= a and commute(a, b):
                    self.say(-first, -second)

    def step_directly(self, position):
        chosen = [(None, self.idle[position])] + list(zip(self.gates, self.choices[position]))
        for before, after in zip(self.values[position], self.values[position + 1]):
            for gate, choice in chosen:
                for wire, (old, new) in enumerate(zip(before, after)):
                    if gate is None or gate >> 5 != wire:
                        self.say(-choice, -old, new)
                        self.say(-choice, old, -new)
                        continue
                    controls = [before[i] for i in range(self.wires) if gate >> i & 1]
                    for control in controls:
                        self.say(-choice, control, -old, new)
                        self.say(-choice, control, old, -new)
                    off = [-control for control in controls]
                    self.say(-choice, *off, old, new)
                    self.say(-choice, *off, -old, -new)

    def step(self, position):
        chosen = list(zip(self.gates, self.choices[position]))
        targets = [self.any_of([v for g, v in chosen if g >> 5 == i]) for i in range(self.wires)]
        controls = [self.any_of([v for g, v in chosen if g >> i & 1]) for i in range(self.wires)]
        for before, after in zip(self.values[position], self.values[position + 1]):
            blocks = self.fresh(self.wires)  # wire i is a control and 0
            for block, control, value in zip(blocks, controls, before):
                self.say(-block, control)
                self.say(-block, -value)
                self.say(block, -control, value)
            held = self.any_of(blocks)
            for target, old, new in zip(targets, before, after):
                for kept in (target, -held):
                    self.say(kept, -old, new)
                    self.say(kept, old, -new)
                self.say(-target, held, old, new)
                self.say(-target, held, -old, -new)

    def limit_cost(self, limit, light, heavy):
        """t Toffolis among g gates cost light * g + (heavy - light) * t."""
        assert 0 < light <= heavy
        positions = len(self.choices)
        heavies = [self.any_of([v for g, v in zip(self.gates, row) if bin(g & 31).count("1") == 2]) for row in self.choices]
        at_least = []  # at_least[t - 1]: t of the positions so far hold a Toffoli
        for one in heavies:
            counts = self.fresh(len(at_least) + 1)
            for t, count in enumerate(counts):
                if t < len(at_least):
                    self.say(-at_least[t], count)
                self.say(*([-at_least[t - 1]] if t else []), -one, count)
            at_least = counts
        for t in range(positions + 1):
            left = limit - (heavy - light) * t
            most = left // light if left >= 0 else -1
            has = [-at_least[t - 1]] if t else []
            if most < t:
                self.say(*has)
            elif most < positions:
                self.say(*has, self.idle[most])

    def end(self):
        n = self.n
        if self.free:
            places = [self.fresh(n) for _ in range(n)]
            for j in range(n):
                self.exactly_one(places[j])
                self.exactly_one([places[i][j] for i in range(n)])
        for values, row in zip(self.values[-1], self.rows):
            for ancilla in values[n:]:
                self.say(-ancilla)
            for j in (j for j in range(n) if row >> (4 + j) & 1):
                for wire in range(n) if self.free else [j]:
                    literal = values[wire] if row >> j & 1 else -values[wire]
                    self.say(*([-places[j][wire]] if self.free else []), literal)

    def dimacs(self):
        lines = [f"p cnf {self.variables} {len(self.clauses)}"]
        lines += [" ".join(map(str, clause)) + " 0" for clause in self.clauses]
        return "\n".join(lines).encode() + b"\n"

    def circuit(self, output):
        """The gate bytes that the solver's `v` lines name."""
        lines = (line[1:].split() for line in output.splitlines() if line.startswith("v"))
        on = {int(word) for line in lines for word in line}
        return [gate for row in self.choices for gate, v in zip(self.gates, row) if v in on]


def realizes(n, free, rows, gates):
    """Whether the gate list meets the table and leaves the ancilla at 0, with some layout if free."""
    ends = []
    for value in range(1 << n):
        for gate in gates:
            if value & gate & 31 == gate & 31:
                value ^= 1 << (gate >> 5)
        ends.append(value)

    def place(j, used):
        """Whether the outputs from j on can have wires that aren't used."""
        def holds(wire):
            return all(not row >> (4 + j) & 1 or end >> wire & 1 == row >> j & 1 for end, row in zip(ends, rows))

        wires = [wire for wire in (range(n) if free else [j]) if wire not in used] if j < n else []
        return j == n or any(holds(wire) and place(j + 1, used | {wire}) for wire in wires)

    return all(end >> n == 0 for end in ends) and place(0, frozenset())
