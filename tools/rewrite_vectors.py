#!/usr/bin/env python3
"""Writes lists of gates for the call that rewrites them, and adds the lines that they must print to those of the test program.

usage: rewrite_vectors.py DATA_FILE STDOUT_FILE

    rewrite WWKKNNCCTT GATES LLLL      a list of LLLL bytes, GATES over and over (for `-` all 0), on WW wires with a window of KK gates, at
                                       the prices NN, CC and TT of a NOT, a CNOT and a Toffoli. Prints `gates COUNT` or `refused CODE`, and
                                       the whole list

The model below is kept apart from the proved code and does the obvious thing: it starts from the left each time, and knows the answer to a
window from going through every list of no more gates. STDOUT_FILE holds the lines of the calls before; lines from the first heading of this
file on are replaced.
"""
import argparse
import random

FIRST = "# rewriting: no gate, fewer than the window, one window"
# what the program prints after its calls: the lines of `main` and of `gazbolk search` for the files empty, four and long, as document 01 has
# them, and the sentence of refusal 1
LENGTH = "the job is not 20, 22, 28 or 30 bytes long"
LAST = [
    "# main, gazbolk search: no input at all; four data wires and an ancilla; a sound job with one byte more",
    "refused 1",
    "refused 1",
    LENGTH,
    "found 3 15 21 881B03837483",
    "found 3 15 21 881B03837483",
    "refused 1",
    "refused 1",
    LENGTH,
]
EXAMPLES = {3: [0x00, 0x02, 0x04, 0x06, 0x20, 0x21, 0x24, 0x25, 0x40, 0x41, 0x42, 0x43]}


def lawful(wires, gate):
    target, mask = gate >> 5, gate & 31
    return target < wires and mask < 1 << wires and not mask >> target & 1 and bin(mask).count("1") <= 2


def applied(gate, value):
    target, mask = gate >> 5, gate & 31
    return value ^ (1 << target) if value & mask == mask else value


def price(prices, gate):
    return prices[bin(gate & 31).count("1")]


def held(gate, times):
    """The time at which each wire comes free after one gate more that takes 1."""
    wires = [gate >> 5] + [w for w in range(5) if gate >> w & 1]
    end = 1 + max(times[w] for w in wires)
    return tuple(end if w in wires else t for w, t in enumerate(times))


class Answers:
    """The search's answer to every window: the first list by cost, gates, depth and bytes, for each thing that lists of at most so many
    gates do to the values."""

    def __init__(self, wires, window, prices):
        self.wires, self.prices, self.best = wires, prices, {}
        gates = [g for g in range(256) if lawful(wires, g)]
        tables = {g: [applied(g, v) for v in range(1 << wires)] for g in gates}
        layer = [((), tuple(range(1 << wires)), 0, (0,) * 5)]
        for length in range(window + 1):
            later = []
            for bytes_, does, cost, times in layer:
                key = (cost, length, max(times), bytes_)
                if does not in self.best or key < self.best[does]:
                    self.best[does] = key
                if length < window:
                    later += [(bytes_ + (g,), tuple(tables[g][v] for v in does), cost + price(prices, g), held(g, times)) for g in gates]
            layer = later

    def __call__(self, gates):
        does = list(range(1 << self.wires))
        for gate in gates:
            does = [applied(gate, v) for v in does]
        cost, _, _, bytes_ = self.best[tuple(does)]
        return list(bytes_) if cost < sum(price(self.prices, g) for g in gates) else None


def rewritten(answers, window, gates):
    """The list when no window yields any more."""
    known = {}
    while True:
        for i in range(len(gates) - window + 1):
            part = tuple(gates[i:i + window])
            if part not in known:
                known[part] = answers(part)
            if known[part] is not None:
                gates = gates[:i] + known[part] + gates[i + window:]
                break
        else:
            return gates


def code_of(wires, window, gates):
    if wires not in (3, 4) or not 2 <= window <= 4:
        return 32
    if len(gates) > 4096:
        return 33
    return 0 if all(lawful(wires, g) for g in gates) else 34


def word(bytes_):
    return bytes(bytes_).hex().upper() or "-"


class Vectors:
    def __init__(self):
        self.answers, self.calls, self.lines = {}, [], []

    def heading(self, text):
        line = text if text.startswith("#") else "# " + text
        self.calls.append(line)
        self.lines.append(line)

    def ask(self, wires, window, prices, gates, size=None, want=None):
        size = len(gates) if size is None else size
        whole = [gates[i % len(gates)] if gates else 0 for i in range(size)]
        code = code_of(wires, window, whole)
        assert want is None or want == code, (wires, window, word(gates), code)
        if code:
            line = "refused %d %s" % (code, word(whole))
        else:
            setting = (wires, window, tuple(prices))
            if setting not in self.answers:
                self.answers[setting] = Answers(*setting)
            new = rewritten(self.answers[setting], window, whole)
            self.check(setting, whole, new)
            line = "gates %d %s" % (len(new), word(new + [0] * (size - len(new))))
        self.calls.append("rewrite %s %s %04X" % (word([wires, window, *prices]), word(gates), size))
        self.lines.append(line)

    @staticmethod
    def check(setting, old, new):
        """What document 02 promises, of the model too."""
        wires, window, prices = setting
        for v in range(1 << wires):
            a = b = v
            for g in old:
                a = applied(g, a)
            for g in new:
                b = applied(g, b)
            assert a == b
        assert sum(price(prices, g) for g in new) <= sum(price(prices, g) for g in old)
        assert len(old) >= window or new == old


def gates_of(wires):
    return [g for g in range(256) if lawful(wires, g)]


def write(v):
    rng = random.Random(12)
    three, four = gates_of(3), gates_of(4)
    assert three == EXAMPLES[3]
    v.heading(FIRST)
    for wires, window in ((3, 2), (3, 3), (3, 4), (4, 2), (4, 3), (4, 4)):
        v.ask(wires, window, (1, 1, 5), [], want=0)
        for size in range(1, window):
            v.ask(wires, window, (1, 1, 5), [0x40] * size, want=0)
        for size in (window, window + 1):
            v.ask(wires, window, (1, 1, 5), [0x40] * size, want=0)
    v.heading("a gate twice, three CNOTs for an exchange, a Toffoli that two of them make, and what moves to the left")
    v.ask(3, 2, (1, 1, 5), [0x43, 0x43])
    v.ask(3, 2, (1, 1, 5), [0x00, 0x43, 0x43, 0x00])
    v.ask(3, 3, (1, 1, 5), [0x21, 0x02, 0x21, 0x21, 0x02, 0x21])
    v.ask(3, 4, (1, 1, 5), [0x43, 0x20, 0x43, 0x20])
    v.ask(3, 4, (1, 1, 5), [0x40, 0x43, 0x20, 0x43, 0x20, 0x40])
    v.ask(4, 4, (1, 1, 5), [0x61, 0x43, 0x61, 0x43])
    v.ask(3, 3, (1, 1, 5), [0x41, 0x20, 0x41, 0x02, 0x20, 0x06, 0x21, 0x06])
    v.heading("prices of 0: nothing is cheaper than nothing, and gates that cost nothing stay")
    for prices in ((0, 0, 0), (0, 0, 5), (0, 5, 0), (5, 0, 0), (0, 1, 1), (255, 255, 255), (255, 0, 1)):
        for window in (2, 3, 4):
            v.ask(3, window, prices, [rng.choice(three) for _ in range(24)], want=0)
        v.ask(4, 2, prices, [rng.choice(four) for _ in range(24)], want=0)
        v.ask(4, 3, prices, [rng.choice(four) for _ in range(24)], want=0)
    v.heading("windows 0, 1 and 5, wires 0, 2 and 5, alone and with each later rule broken: 32")
    good, bad = [0x43, 0x43], [0x43, 0x22]
    for wires, window in ((3, 0), (3, 1), (3, 5), (3, 255), (4, 1), (4, 5), (0, 2), (2, 2), (2, 4), (5, 2), (5, 4), (255, 3), (2, 1), (5, 5)):
        v.ask(wires, window, (1, 1, 5), good, want=32)
        v.ask(wires, window, (1, 1, 5), bad, want=32)
        v.ask(wires, window, (1, 1, 5), [], want=32)
    v.ask(2, 2, (1, 1, 5), [0x00], 4097, want=32)
    v.ask(3, 5, (1, 1, 5), [0x22], 4097, want=32)
    v.heading("unlawful gates, first, last and alone, and three controls: 34")
    for gate in (0x22, 0x60, 0x08, 0x10, 0x80, 0xE0, 0x07, 0x47, 0x01, 0xFF):
        v.ask(3, 2, (1, 1, 5), [gate], want=34)
        v.ask(3, 4, (1, 1, 5), [gate, 0x43, 0x43], want=34)
        v.ask(3, 3, (1, 1, 5), [0x43, 0x43, gate], want=34)
    for gate in (0x67, 0x0E, 0x2D, 0x4B, 0x80, 0x10, 0x68, 0x33):
        v.ask(4, 2, (1, 1, 5), [gate], want=34)
        v.ask(4, 4, (1, 1, 5), [0x61, 0x61, gate], want=34)
    v.ask(4, 2, (1, 1, 5), [0x60, 0x60], want=0)
    v.heading("4,096 gates and 4,097; 33 before 34")
    v.ask(3, 2, (1, 1, 5), [0x43], 4096, want=0)
    v.ask(3, 2, (1, 1, 5), [0x43], 4095, want=0)
    v.ask(3, 2, (1, 1, 5), [0x43], 4097, want=33)
    v.ask(3, 4, (1, 1, 5), [0x22], 4097, want=33)
    v.ask(3, 4, (1, 1, 5), [0x43] * 40 + [0x22], 4096, want=34)
    v.ask(4, 4, (255, 255, 255), [0x61], 4096, want=0)
    v.ask(3, 3, (1, 2, 7), [rng.choice(three) for _ in range(97)], 4096, want=0)
    v.heading("random lists of 0 to 60 gates on three wires")
    for i in range(180):
        window = 2 + i % 3
        prices = ((1, 1, 5), (1, 1, 1), (3, 2, 7), (200, 1, 250), (1, 2, 0))[i // 3 % 5]
        v.ask(3, window, prices, [rng.choice(three) for _ in range(rng.randrange(61))], want=0)
    v.heading("random lists of 0 to 60 gates on four wires")
    for i in range(120):
        window = 2 + i % 3
        prices = ((1, 1, 5), (1, 1, 1), (4, 1, 9))[i // 3 % 3]
        v.ask(4, window, prices, [rng.choice(four) for _ in range(rng.randrange(61))], want=0)
    v.heading("on few of the gates, so that much goes")
    for i in range(60):
        wires = 3 + i % 2
        some = rng.sample(three if wires == 3 else four, 4)
        v.ask(wires, 2 + i // 2 % 3, (1, 1, 5), [rng.choice(some) for _ in range(rng.randrange(61))], want=0)
    v.heading("a list, an unlawful gate in it, and a buffer with the list over and over")
    for i in range(12):
        gates = [rng.choice(four) for _ in range(20)]
        v.ask(4, 4, (1, 1, 5), gates, 20 + 7 * i, want=0)
        gates[rng.randrange(20)] = 0x67
        v.ask(4, 4, (1, 1, 5), gates, want=34)


def main():
    parser = argparse.ArgumentParser()
    parser.add_argument("data")
    parser.add_argument("stdout")
    given = parser.parse_args()
    v = Vectors()
    write(v)
    with open(given.stdout) as file:
        lines = file.read().split("\n")
    kept = lines[:lines.index(FIRST)] if FIRST in lines else lines[:-1]
    with open(given.data, "w") as file:
        file.write("\n".join(v.calls) + "\n")
    with open(given.stdout, "w") as file:
        file.write("\n".join(kept + v.lines + LAST) + "\n")


if __name__ == "__main__":
    main()
