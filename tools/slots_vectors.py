#!/usr/bin/env python3
"""Scripts for the scheduler, jobs for the program `slots`, and what each must print: python3 tools/slots_vectors.py

A model of its own, from the papers' words alone: every candidate is listed and tried one after the other, with no rule of the search.
Writes crates/slots_vectors/data/script and stdout, crates/slots/data/jobs and stdout.
A record of a script has 40 bytes: 1, slot, length, 0, job (a post); 2, 0, count (turns); 3, slot, room (a collect)."""
import itertools
import os

HERE = os.path.dirname(os.path.dirname(os.path.abspath(__file__)))


def controls(gate):
    return [w for w in range(5) if gate >> w & 1]


def gates_for(wires, most):
    found = []
    for b in range(256):
        cs = controls(b % 32)
        if b // 32 < wires and all(c < wires for c in cs) and b // 32 not in cs and len(cs) <= most:
            found.append(b)
    return found


def layouts_for(n, free):
    found = []
    for order in itertools.permutations(range(n)):
        fields = list(order) + [0] * (4 - n)
        found.append(fields[0] * 64 + fields[1] * 16 + fields[2] * 4 + fields[3])
    found.sort()
    return found if free else found[:1]


class Job:
    def __init__(self, data):
        self.data, self.longer = data, len(data) in (22, 30)
        self.n, self.m, self.free = data[0] >> 5, data[0] >> 3 & 3, data[0] >> 2 & 1
        kinds = 4 if self.longer else 3
        self.prices, self.durations = data[6:6 + kinds], data[6 + kinds:6 + 2 * kinds]
        self.rows = data[6 + 2 * kinds:]
        self.limit, self.most_cost, self.most_depth = data[1], data[2] * 256 + data[3], data[4] * 256 + data[5]

    def candidates(self):
        gates = gates_for(self.n + self.m, 3 if self.longer else 2)
        for length in range(self.limit + 1):
            for gate_list in itertools.product(gates, repeat=length):
                for layout in layouts_for(self.n, self.free):
                    yield gate_list, layout

    def measures(self, gate_list):
        free, cost = [0] * 5, 0
        for g in gate_list:
            used = controls(g % 32) + [g // 32]
            end = max(free[w] for w in used) + self.durations[len(used) - 1]
            for w in used:
                free[w] = end
            cost += self.prices[len(used) - 1]
        return cost, max(free), free

    def meets(self, gate_list, layout):
        for x in range(2 ** self.n):
            v = x
            for g in gate_list:
                if all(v >> c & 1 for c in controls(g % 32)):
                    v ^= 1 << g // 32
            if v >> self.n & 1:
                return False
            for j in range(self.n):
                if self.rows[x] >> 4 + j & 1 and v >> (layout >> 6 - 2 * j & 3) & 1 != self.rows[x] >> j & 1:
                    return False
        return True

    def key(self, gate_list, layout):
        cost, depth, _ = self.measures(gate_list)
        return cost, len(gate_list), depth, layout, gate_list

    def good(self, gate_list, layout):
        cost, depth, _ = self.measures(gate_list)
        return cost <= self.most_cost and depth <= self.most_depth and self.meets(gate_list, layout)

    def answer(self, best):
        if best is None:
            return ['refused 14']
        gate_list, layout = best
        cost, depth, free = self.measures(gate_list)
        record = bytes([self.n << 5 | self.m << 3 | int(self.longer), layout, len(gate_list)]) + bytes(gate_list)
        return [f'found {len(gate_list)} {cost} {depth} {record.hex().upper()}', 'ready ' + ' '.join(map(str, free))]


def job_code(data):
    if len(data) not in (20, 22, 28, 30):
        return 1
    if (data[0] >> 5, len(data)) not in ((3, 20), (3, 22), (4, 28), (4, 30)):
        return 2
    if data[0] >> 3 & 3 > 1 or data[0] & 3:
        return 3
    if data[1] > 12:
        return 4
    job = Job(data)
    if 0 in job.durations:
        return 5
    for row in job.rows:
        care, value = row >> 4, row & 15
        if value & ~care or care >> job.n:
            return 6
    return 0


class Slots:
    def __init__(self):
        self.slots, self.last = [None] * 8, 7

    def post(self, i, data):
        if i > 7:
            return 35
        if self.slots[i] is not None:
            return 36
        code = job_code(data)
        if code == 0:
            job = Job(data)
            self.slots[i] = {'job': job, 'left': list(job.candidates()), 'best': None}
        return code

    def turn(self):
        for k in range(1, 9):
            i = (self.last + k) % 8
            slot = self.slots[i]
            if slot is not None and slot['left']:
                tried = slot['left'].pop(0)
                job, best = slot['job'], slot['best']
                if job.good(*tried) and (best is None or job.key(*tried) < job.key(*best)):
                    slot['best'] = tried
                self.last = i
                return i
        return None

    def collect(self, i, room):
        if i > 7:
            return ['refused 35']
        slot = self.slots[i]
        if slot is None or slot['left']:
            return ['refused 37']
        if room < 15:
            return ['refused 13']
        self.slots[i] = None
        return slot['job'].answer(slot['best'])


def job(n, rows, limit, m=0, free=0, prices=(1, 1, 5), durations=(1, 1, 7), cost=65535, depth=65535, care=None):
    mask = (2 ** n - 1 if care is None else care) << 4
    head = [n << 5 | m << 3 | free << 2, limit, cost >> 8, cost & 255, depth >> 8, depth & 255]
    return bytes(head + list(prices) + list(durations) + [mask | r for r in rows])


SWAP = [0, 2, 1, 3, 4, 6, 5, 7]            # bits 0 and 1 exchanged
SAME = list(range(8))
SAME4 = list(range(16))
TOFFOLI = [0, 1, 2, 7, 4, 5, 6, 3]
CNOT = [0, 3, 2, 1, 4, 7, 6, 5]


class Script:
    def __init__(self):
        self.model, self.bytes, self.lines = Slots(), b'', []

    def record(self, *head, data=b''):
        self.bytes += (bytes(list(head) + [0] * (4 - len(head))) + data).ljust(40, b'\0')

    def post(self, i, data):
        self.record(1, i, len(data), data=data)
        code = self.model.post(i, data)
        self.lines.append('accepted' if code == 0 else f'refused {code}')

    def turns(self, count):
        while count:
            some = min(count, 255)
            self.record(2, 0, some)
            served = [self.model.turn() for _ in range(some)]
            self.lines.append('turns' + ''.join(' -' if i is None else f' {i}' for i in served))
            count -= some

    def collect(self, i, room=15):
        self.record(3, i, room)
        self.lines += self.model.collect(i, room)


def script():
    s = Script()
    s.turns(2)                                       # nothing working
    s.collect(0), s.collect(7), s.collect(8), s.collect(255, 0)
    s.collect(0, 14)                                 # an empty slot and no room: 37 before 13
    s.post(8, job(3, SWAP, 0)), s.post(8, b''), s.post(3, b''), s.post(3, job(3, SWAP, 13))
    s.post(3, job(3, SAME, 0))                       # one candidate: finished by its first turn
    s.post(3, b'')                                   # 36 before 1
    s.turns(2)
    s.post(3, job(3, SAME, 0)), s.collect(3, 14), s.collect(3, 14), s.collect(3), s.collect(3)
    # eight at once: limits 0 to 1, free layouts, none, ties, both lengths of n = 3, an ancilla, n = 4
    s.post(0, job(3, TOFFOLI, 1)), s.post(1, job(3, SWAP, 0, free=1)), s.post(2, job(3, SWAP, 1))
    s.post(3, job(3, [0] * 8, 1, care=0)), s.post(4, job(3, CNOT, 1, prices=(1, 1, 5, 9), durations=(1, 1, 7, 9)))
    s.post(5, job(3, SAME, 1, m=1)), s.post(6, job(4, SAME4, 1)), s.post(7, job(4, [1 ^ x for x in range(16)], 1, prices=(0, 0, 0, 0), durations=(1, 1, 1, 1)))
    s.post(0, job(3, SAME, 0)), s.collect(6)
    s.collect(6, 14)                                 # a working slot and no room: 37 before 13
    for _ in range(30):
        s.turns(8)
        for i in range(8):
            s.collect(i, 15 + i % 3)
    s.turns(1)
    # one alone beside empty slots, and a slot used again while others work
    s.post(5, job(3, SWAP, 1, free=1)), s.turns(7), s.post(2, job(3, TOFFOLI, 1, cost=4)), s.turns(9), s.post(6, job(3, TOFFOLI, 1, depth=7))
    s.turns(40), s.collect(2), s.collect(6), s.post(2, job(3, CNOT, 1, prices=(0, 0, 0))), s.turns(60)
    s.collect(5), s.collect(2), s.collect(6), s.turns(60), s.collect(5), s.collect(2), s.collect(6)
    # limit 2, where a longer list is cheaper and where two lists tie
    s.post(4, job(3, [3 ^ x for x in range(8)], 2, depth=1)), s.turns(157), s.collect(4)
    s.post(1, job(3, [1 ^ x for x in range(8)], 2, prices=(5, 0, 9))), s.turns(156), s.collect(1), s.turns(1), s.collect(1)
    s.post(0, job(3, [0, 0, 0, 0, 0, 0, 0, 0], 2, m=1, care=1)), s.turns(813), s.collect(0)
    return s


def jobs():
    return [
        job(3, TOFFOLI, 1), job(3, SWAP, 1), job(3, SAME, 0), job(3, SWAP, 0, free=1), job(3, SAME, 13), job(4, SAME4, 1), job(3, CNOT, 2),
        job(3, [0] * 8, 0, care=0), job(3, [3 ^ x for x in range(8)], 2), job(4, [1 ^ x for x in range(16)], 1), job(3, CNOT, 1, durations=(1, 0, 1)),
        job(3, TOFFOLI, 1, cost=4),
    ]


def worked(todo):
    """The program's own rule: a freed slot gets the next job, from it on upwards; slots 0 to 7 first."""
    model, lines, owners, turns, nxt, free = Slots(), [], {}, 0, 0, 0
    while True:
        if free < 8 and nxt < len(todo):
            code = model.post(free, todo[nxt])
            if code == 36:
                free += 1
            elif code == 0:
                owners[free], nxt, free = nxt, nxt + 1, free + 1
            else:
                lines.append(f'job {nxt + 1} turn {turns}: refused {code}')
                nxt += 1
            continue
        i = model.turn()
        if i is None:
            return lines
        turns += 1
        told = model.collect(i, 15)
        if told != ['refused 37']:
            lines.append(f'job {owners[i] + 1} turn {turns}: {told[0]}')
            free = i


def write(path, data):
    with open(os.path.join(HERE, path), 'wb') as f:
        f.write(data)


def main():
    s = script()
    write('crates/slots_vectors/data/script', s.bytes)
    write('crates/slots_vectors/stdout', ('\n'.join(s.lines) + '\n').encode())
    write('crates/slots/data/jobs', b''.join(jobs()))
    write('crates/slots/stdout', ('\n'.join(worked(jobs())) + '\n').encode())


if __name__ == '__main__':
    main()
