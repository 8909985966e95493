#!/usr/bin/env python3
"""Runs several searches on the same random small jobs and compares their lines.

usage: compare.py [MAIN_BINARY] [--count N] [--seed N] [--deep]
       compare.py GAZBOLK --libraries [--count N] [--seed N]

With MAIN_BINARY (the proved program): that program, plain.rs at --rules full, and brute.rs.
Every second job has a gate limit beyond brute.rs, which sits out. Without: plain.rs at every
level (base, bounds, full, max, and the last two with the reach filters forced on small jobs) and brute.rs; with
--deep the gate limits are larger and the base level is the measure instead of brute.rs. With --libraries:
`gazbolk search JOB LIBRARY` and tools/reference.py, on jobs of at most 3 gates with small libraries.

The jobs: 3 and 4 data wires, with and without ancilla, both layouts, gates of at most two controls
and (every second job) of three, care masks of all shapes, prices from 0, tight cost and depth
limits (also just at the answer's measures, or one below), and a few spoiled ones. rustc -O compiles into ../target. Prints each difference with its job,
then the counts; the exit code is 1 if there was a difference.
"""
import argparse
import os
import random
import subprocess
import sys
import tempfile

HERE = os.path.dirname(os.path.abspath(__file__))
sys.path.insert(0, os.path.join(os.path.dirname(HERE), "tools"))
import reference  # noqa: E402

OUT = os.path.join(os.path.dirname(HERE), "target")
LEVELS = ["base", "bounds", "full", "full --reach 0,2", "max", "max --reach 0,1", "max --reach 0,2", "max --reach 0,3"]
# Greatest gate limit by number of wires, and its weights from 0 up.
LIMITS = {3: [1, 2, 4, 8, 8, 2], 4: [1, 3, 6, 12, 1], 5: [1, 3, 8, 4]}
LIBRARY_LIMITS = {wires: [1, 2, 4, 4] for wires in (3, 4, 5)}
DEEP_LIMITS = {3: [0, 0, 0, 0, 0, 3, 3, 1], 4: [0, 0, 0, 0, 4, 3, 1], 5: [0, 0, 0, 2, 2]}


def compile_program(name):
    os.makedirs(OUT, exist_ok=True)
    path = os.path.join(OUT, name)
    source = os.path.join(HERE, name + ".rs")
    if not os.path.exists(path) or os.path.getmtime(path) < os.path.getmtime(source):
        subprocess.run(["rustc", "-O", "-o", path, source], check=True)
    return path


def line_of(command, job):
    run = subprocess.run(command, input=job, stdout=subprocess.PIPE, check=True)
    return run.stdout.decode()


def random_gate(rng, wires, most):
    target = rng.randrange(wires)
    others = [i for i in range(wires) if i != target]
    controls = rng.sample(others, min(rng.choice([0, 1, 1, 2, 2, most]), len(others)))
    return target, sum(1 << i for i in controls)


def random_values(rng, n, m, length, most):
    """Values of a random circuit's outputs, or of no circuit in particular."""
    style = rng.random()
    if style < 0.08:
        return [rng.randrange(1 << n) for _ in range(1 << n)]
    if style < 0.13:
        return rng.sample(range(1 << n), 1 << n)
    gates = [random_gate(rng, n + m, most) for _ in range(length)]
    if m == 1 and length >= 2 and style < 0.4:  # a product on the ancilla, its use, the product again
        a, b, target = rng.sample(range(n), 3)
        c = rng.choice([i for i in range(n) if i != target])
        made = (n, 1 << a | 1 << b)
        gates[:3] = [made, (target, 1 << n | 1 << c), made][:length]
    wires = list(range(n))
    if rng.random() < 0.5:
        rng.shuffle(wires)
    values = []
    for x in range(1 << n):
        value = x
        for target, controls in gates:
            if value & controls == controls:
                value ^= 1 << target
        values.append(sum((value >> wires[j] & 1) << j for j in range(n)))
    return values


def random_masks(rng, n):
    rows, full = 1 << n, (1 << n) - 1
    style = rng.randrange(10)
    if style <= 1 or style >= 8:
        return [full] * rows
    if style == 2:  # whole rows unwanted
        part = rng.choice([0.5, 0.8, 0.9])
        return [full if rng.random() < part else 0 for _ in range(rows)]
    if style == 3:  # whole outputs unwanted
        return [rng.randrange(1 << n)] * rows
    if style == 4:  # few bits unwanted
        return [full & ~(1 << rng.randrange(n)) if rng.random() < 0.3 else full for _ in range(rows)]
    if style == 5:  # few bits wanted
        return [1 << rng.randrange(n) if rng.random() < 0.3 else 0 for _ in range(rows)]
    if style == 6 and rng.random() < 0.1:
        return [0] * rows
    return [rng.randrange(1 << n) for _ in range(rows)]


def random_prices(rng, kinds):
    style = rng.randrange(6)
    if style == 0:
        return [1, 1, 5, 9][:kinds]
    if style == 1:
        return [rng.randrange(3)] * kinds
    if style == 2:
        return [rng.randrange(2) for _ in range(kinds)]
    if style == 3:
        return [rng.choice([0, 1, 100, 254, 255]) for _ in range(kinds)]
    return [rng.randrange(6) for _ in range(kinds)]


def random_durations(rng, kinds):
    style = rng.randrange(4)
    if style == 0:
        return [1, 1, 7, 11][:kinds]
    if style == 1:
        return [rng.choice([1, 2, 254, 255]) for _ in range(kinds)]
    return [rng.randrange(1, 5) for _ in range(kinds)]


def random_limit(rng, greatest):
    """None in particular (three in five), or a tight one."""
    if rng.random() < 0.6:
        return 0xFFFF
    return rng.randrange(greatest + 2)


def random_job(rng, limits, most=None):
    n, m, free = rng.choice([3, 4]), rng.randrange(2), rng.randrange(2)
    most = most or rng.choice([2, 3])  # controls of a gate; with 3 the job is a longer one
    weights = limits[n + m]
    limit = rng.choices(range(len(weights)), weights)[0]
    prices, durations = random_prices(rng, most + 1), random_durations(rng, most + 1)
    values = random_values(rng, n, m, rng.choice([limit, limit, limit + 1, rng.randrange(limit + 1)]), most)
    rows = [mask << 4 | value & mask for mask, value in zip(random_masks(rng, n), values)]
    cost = random_limit(rng, limit * max(prices))
    depth = random_limit(rng, limit * max(durations))
    head = [n << 5 | m << 3 | free << 2, limit, cost >> 8, cost & 255, depth >> 8, depth & 255]
    return bytes(head + prices + durations + rows)


def spoiled(rng, job):
    job = bytearray(job)
    style = rng.randrange(3)
    if style == 0:
        return bytes(job[: rng.randrange(len(job))])
    if style == 1:
        return bytes(job) + bytes(rng.randrange(256) for _ in range(rng.randrange(1, 10)))
    for _ in range(rng.randrange(1, 3)):
        job[rng.choice([0, 0, 1, 9, 10, 11, rng.randrange(12, len(job))])] = rng.randrange(256)
    if len(job) > 1 and job[1] <= 12:
        job[1] = min(job[1], 2)
    return bytes(job)


def tightened(rng, job, found):
    """The same job with limits at or one below the measures of its answer."""
    gates, cost, depth = (int(word) for word in found.split()[1:4])
    job = bytearray(job)
    which = rng.randrange(1, 8)
    if which & 1 and gates:
        job[1] = gates - rng.randrange(2)
    if which & 2 and cost:
        job[2:4] = (cost - rng.randrange(2)).to_bytes(2, "big")
    if which & 4 and depth:
        job[4:6] = (depth - rng.randrange(2)).to_bytes(2, "big")
    return bytes(job)


def random_jobs(rng, count, deep):
    """Job, and whether brute.rs is too slow for it. The answer is sent in: every second job or
    so that has one comes again with tightened limits."""
    made = 0
    while made < count:
        job = random_job(rng, DEEP_LIMITS if deep(made) else LIMITS)
        if rng.random() < 0.05:
            job = spoiled(rng, job)
        line = yield job, deep(made)
        made += 1
        if made < count and line.startswith("found") and rng.random() < 0.6:
            yield tightened(rng, job, line), deep(made - 1)
            made += 1


def random_library(rng, job):
    """A few gates that are lawful for a sound job, rising, each with a price and a duration of its own; sometimes spoiled."""
    asked = reference.read_job(job)
    lawful = reference.gate_table(asked.n + asked.m, 3 if asked.longer else 2)
    prices, durations = [0, 1, 1, 2, 5, 255], [1, 1, 2, 7, 255]
    gates = sorted(rng.sample(lawful, rng.randrange(8)))
    library = bytearray(byte for gate in gates for byte in (gate, rng.choice(prices), rng.choice(durations)))
    if library and rng.random() < 0.1:
        library[rng.randrange(len(library))] = rng.choice([0, rng.randrange(256)])
    if rng.random() < 0.05:
        library += bytes(rng.choice([1, 2, 3, 226]))
    return bytes(library)


def library_pair(rng):
    """A job and a library. Half of the tables come from the library's own gates, so that there is something to find."""
    job = random_job(rng, LIBRARY_LIMITS)
    library = random_library(rng, job)
    asked = reference.read_job(job)
    if reference.check_library(job, library) == 0 and library and rng.random() < 0.5:
        own = [entry[0] for entry in reference.entries_of(library)]
        gates = [rng.choice(own) for _ in range(asked.limits.gates)]
        least = rng.choice([0, 2 ** asked.n - 1])  # care masks as they are, or full
        cares = [care | least for care, _ in asked.rows]
        rows = [care << 4 | reference.run(gates, x) & care for x, care in enumerate(cares)]
        job = job[:-len(rows)] + bytes(rows)
    return (spoiled(rng, job) if rng.random() < 0.05 else job), library


def reference_line(job, library):
    """The first line that `gazbolk search` has to print, by the model that tries every list."""
    code, record = reference.search_with_call(job, library, 15)
    if code:
        return f"refused {code}"
    price, duration = ({entry[0]: entry[i] for entry in reference.entries_of(library)} for i in (1, 2))
    measures = reference.measures_by(reference.read_circuit(record).gates, price, duration)
    return "found {} {} {} {}".format(*measures, record.hex().upper())


def compare_libraries(gazbolk, count, seed):
    """Prints each difference, then the counts; the number of differences."""
    rng, counts, differ = random.Random(seed), {}, 0
    with tempfile.TemporaryDirectory() as folder:
        paths = [os.path.join(folder, name) for name in ("job", "library")]
        for _ in range(count):
            pair = library_pair(rng)
            for path, content in zip(paths, pair):
                with open(path, "wb") as file:
                    file.write(content)
            line = line_of([gazbolk, "search"] + paths, b"").split("\n")[0]
            expected = reference_line(*pair)
            counts[kind_of(expected)] = counts.get(kind_of(expected), 0) + 1
            if line != expected:
                differ += 1
                print("DIFFERENCE", *(content.hex().upper() for content in pair))
                print("   ", line, "from", gazbolk)
                print("   ", expected, "from reference.py", flush=True)
    print(f"seed {seed}: {count} jobs with libraries, {count - differ} agree, {differ} differ")
    print(", ".join(f"{word}: {counts[word]}" for word in sorted(counts)))
    return differ


def kind_of(line):
    words = line.split()
    if words[0] == "found":
        return f"found {words[1]} gates"
    return "none" if words[1] == "14" else f"refused {words[1]}"


def main():
    parser = argparse.ArgumentParser(description="Several searches on the same random small jobs.")
    parser.add_argument("main_binary", nargs="?", help="the proved program; without it, all levels of plain.rs")
    parser.add_argument("--count", type=int, default=2000, help="number of jobs")
    parser.add_argument("--seed", type=int, default=1)
    parser.add_argument("--deep", action="store_true", help="larger gate limits, no brute.rs (without MAIN_BINARY)")
    parser.add_argument("--libraries", action="store_true", help="MAIN_BINARY is gazbolk: searches with a library, and the model")
    args = parser.parse_args()
    if args.libraries:
        if not args.main_binary:
            parser.error("--libraries needs the program gazbolk")
        sys.exit(1 if compare_libraries(os.path.abspath(args.main_binary), args.count, args.seed) else 0)
    plain, brute = compile_program("plain"), [compile_program("brute")]
    if args.main_binary:
        programs = [[os.path.abspath(args.main_binary)], [plain, "--rules", "full"]]
    else:
        programs = [[plain, "--rules"] + level.split() for level in LEVELS]
    jobs = random_jobs(random.Random(args.seed), args.count, lambda i: args.deep or args.main_binary and i % 2 == 1)
    counts, agree, tried, line = {}, 0, 0, None
    for _ in range(args.count):
        job, deep = jobs.send(line)
        used = programs if deep else [brute] + programs
        lines = [line_of(program, job).strip() for program in used]
        line = lines[0]
        counts[kind_of(line)] = counts.get(kind_of(line), 0) + 1
        tried += not deep
        agree += len(set(lines)) == 1
        if len(set(lines)) > 1:
            print("DIFFERENCE", job.hex().upper())
            for program, one in zip(used, lines):
                print("   ", one, "from", " ".join(program), flush=True)
    found = sum(count for word, count in counts.items() if word.startswith("found"))
    print(f"seed {args.seed}: {args.count} jobs, {agree} agree, {args.count - agree} differ; "
          f"found {found}, none {counts.get('none', 0)}, ill-formed {args.count - found - counts.get('none', 0)}")
    print(f"programs: {len(programs)} on all jobs, and brute.rs on {tried}")
    print(", ".join(f"{word}: {counts[word]}" for word in sorted(counts)))
    sys.exit(0 if agree == args.count else 1)


if __name__ == "__main__":
    os.nice(10)
    main()
