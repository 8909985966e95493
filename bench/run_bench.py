#!/usr/bin/env python3
"""The proved search, the plain one and a SAT solver side by side: one table, one run, one core.

usage: run_bench.py MAIN_BINARY [--rules base|bounds|full|max] [--sboxes] [--related] [--no-sat] [--direct]
                    [--cap SECONDS] [--repeat N] [--only TEXT] [--target FOLDER]

MAIN_BINARY is the proved program (`crates/main/out/main`), or `-` for the others alone. plain.rs is
compiled with `rustc -O` into --target (default: a temporary folder). All programs get the
same job on standard input, one after the other, pinned to one core. Seconds are processor
time (user and system) of the whole process, the least of --repeat runs; a program that takes
longer than --cap (wall clock) is ended and shows `> CAP`. The exit code is 1 if two answers
differ.

Job sets: the default has jobs of 3, 4 and 5 wires within reach of the base rules, some of them longer ones; --sboxes has
the S-boxes of ciphers in the source documents 002 and 003 (fixed and free layout, prices 1,1,1 and 1,1,5, limit 12, and
some with an ancilla), --related those of 003's Tables 6 to 9 and D2 in the same way. Both have plain.rs at --rules full,
a cap of 20 seconds, and cadical, if it is installed, on the questions of sat.py.
"""
import argparse
import collections
import os
import shutil
import subprocess
import sys
import tempfile
import threading

import sat

HERE = os.path.dirname(os.path.abspath(__file__))
sys.path.insert(0, os.path.join(os.path.dirname(HERE), "tools"))
from jobs import LONG, RELATED, SBOXES, after, by_table, job, sbox  # noqa: E402

WITH_ANCILLA = [("GIFT", 12), ("inverse", 9), ("inverse", 10), ("inverse", 11)]  # and their gate limits; free layout
UNIT = (1, 1, 1)
LIMIT = 12
WIDTH = 27  # of a job's name
# What a program wrote, its processor seconds, and whether the cap ended it.
Run = collections.namedtuple("Run", "output seconds capped")


def some(values, limit, outputs, **fields):
    """A job that wants the same outputs in every row: no limit on cost and depth."""
    return job(values, limit, masks=[outputs] * len(values), **fields)


def small_jobs():
    """Found and infeasible jobs; the infeasible ones make the search try all that B1 leaves."""
    hardest = [5, 1, 4, 2, 6, 7, 3, 0]  # needs 8 gates with fixed layout
    seven = [0x0A, 0x49, 0x21, 0x66, 0x2C, 0x41, 0x63]
    product_3 = [x & x >> 1 & 1 for x in range(8)]  # not balanced: no wire can hold it
    product_4 = [x & x >> 1 & x >> 2 & x >> 3 & 1 for x in range(16)]
    exchange = list(range(7)) + [15] + list(range(8, 15)) + [7]
    yield "W=3 limit 8, 8 gates", job(hardest, 8)
    yield "W=3 limit 8, same, free", job(hardest, 8, free=1)
    yield "W=3 limit 8, two outputs", some(product_3, 8, 3)
    for limit in (4, 5, 6, 7):
        yield f"W=4 limit {limit}, {limit} gates", job(after(seven[:limit], 4), limit)
        yield f"W=4 limit {limit}, PRESENT free", job(sbox("PRESENT"), limit, free=1)
        yield f"W=4 limit {limit}, two outputs", some(product_4, limit, 3)
    for limit in (3, 4):
        yield f"W=5 limit {limit}, rows 7/15", job(exchange, limit, m=1)
        yield f"W=5 limit {limit}, same, free", job(exchange, limit, m=1, free=1)
        yield f"W=5 limit {limit}, one output", some(product_4, limit, 1, m=1)
    for limit in (5, 6, 7):  # of longer jobs: gates of three controls too
        yield f"W=4 longer {limit}, rows 0/1", job([1, 0] + list(range(2, 16)), limit, **LONG)
    for limit in (2, 3):
        yield f"W=5 longer {limit}, rows 0/1", job([1, 0] + list(range(2, 16)), limit, m=1, **LONG)
    yield "W=4 longer 8, UBLOCK", job(sbox("UBLOCK"), 8, **LONG)


def sbox_jobs(tables, with_ancilla):
    """Name of the job and its bytes. A table with several names comes once."""
    plain = [(names[0], LIMIT, 0, free) for names in by_table(tables).values() for free in (0, 1)]
    for name, limit, m, free in plain + [(name, limit, 1, 1) for name, limit in with_ancilla]:
        for prices in (UNIT, (1, 1, 5)):
            words = [name] + ["m=1", str(limit)] * m + ["free" if free else "fixed", ",".join(map(str, prices))]
            yield " ".join(words), job(sbox(name), limit, m=m, free=free, prices=prices)


def timed(command, text, cap, codes=(0,)):
    process = subprocess.Popen(command, stdin=subprocess.PIPE, stdout=subprocess.PIPE)
    capped = threading.Event()

    def end():
        capped.set()
        process.kill()

    timer = threading.Timer(cap, end)
    timer.start()
    try:
        process.stdin.write(text)
        process.stdin.close()
    except BrokenPipeError:  # ended before it had read everything
        pass
    output = process.stdout.read().decode().strip()
    _, status, usage = os.wait4(process.pid, 0)
    timer.cancel()
    process.returncode = os.waitstatus_to_exitcode(status)
    process.stdout.close()
    if not capped.is_set() and process.returncode not in codes:
        sys.exit(f"{command} ended with code {process.returncode}")
    return Run(output, usage.ru_utime + usage.ru_stime, capped.is_set())


def best_of(command, text, cap, repeat, codes=(0,)):
    runs = [timed(command, text, cap, codes)]
    while len(runs) < repeat and not runs[0].capped:
        runs.append(timed(command, text, cap, codes))
    outputs = {run.output for run in runs if not run.capped}
    if len(outputs) > 1:
        sys.exit(f"{command} gave several answers to one job: {outputs}")
    return min(runs, key=lambda run: (run.capped, run.seconds))


def seconds_text(run, cap):
    if run is None:
        return "-"
    return f"> {cap:g}" if run.capped else f"{run.seconds:.3f}"


def ratio_text(over, under):
    """The ratio of two sums of seconds; a bound where one of them was capped."""
    if not over or not under or None in over + under:
        return "-"
    open_above, open_below = (any(run.capped for run in runs) for runs in (over, under))
    above, below = (sum(run.seconds for run in runs) for runs in (over, under))
    if open_above and open_below or below <= 0.002:
        return "-"
    return f"{'>= ' if open_above else '<= ' if open_below else ''}{above / below:.{1 if above > below else 3}f}"


def answer_text(runs):
    lines = sorted({run.output for run in runs if not run.capped})
    text = " | ".join(lines) if lines else "(none in time)"
    return "DIFFERENT: " + text if len(lines) > 1 else text


def table(columns, jobs, cap, repeat):
    """Prints the table; columns are (name, command), the last one the rival. True if all agree."""
    names = "".join(f"{name:>10}" for name, _ in columns)
    print(f"{'job':{WIDTH}}{names}{'ratio':>9}  answer")
    agreed = True
    for name, record in jobs:
        runs = [best_of(command, record, cap, repeat) for _, command in columns]
        times = "".join(f"{seconds_text(run, cap):>10}" for run in runs)
        answer = answer_text(runs)
        agreed = agreed and "DIFFERENT" not in answer
        print(f"{name:{WIDTH}}{times}{ratio_text(runs[:-1], runs[-1:]):>9}  {answer}", flush=True)
    return agreed


def questions(record, line, direct):
    """The two questions for the solver, and whether each should be answered yes: at prices 1,1,1 "at most K gates?" and "at most
    K - 1?", where the line says K; at others "within the gate limit, at most C?" and "at most C - 1?", where it says the cost C.
    For the line "none" only whether the gate limit is enough."""
    n, m, free, rows, limit = record[0] >> 5, record[0] >> 3 & 3, record[0] >> 2 & 1, record[12:], record[1]
    prices = tuple(record[6:9])

    def question(most, cost=None):
        return sat.Question(n, m, free, rows, most, direct, cost)

    if not line.startswith("found"):
        return [None, (question(limit), False)]
    gates, cost = map(int, line.split()[1:3])
    if prices == UNIT:
        return [(question(gates), True), (question(gates - 1), False) if gates else None]
    return [(question(limit, (most, prices[0], prices[2])), most == cost) if most >= 0 else None for most in (cost, cost - 1)]


def sat_pair(solver, direct, record, line, cap, repeat):
    """The solver's runs on both questions, and what is wrong with its answers ("" if nothing)."""
    runs, wrong = [], ""
    for asked in questions(record, line, direct):
        if not asked:
            runs.append(None)
            continue
        question, enough = asked
        run = best_of([solver, "-q"], question.dimacs(), cap, repeat, codes=(10, 20))
        runs.append(run)
        if run.capped:
            continue
        yes = "s SATISFIABLE" in run.output
        if yes != enough:
            wrong = f"SAT says {'yes' if yes else 'no'}"
        elif yes and not sat.realizes(question.n, question.free, question.rows, question.circuit(run.output)):
            wrong = "SAT: the circuit doesn't realize the table"
    return runs, wrong


def sbox_table(proved, plain, solver, direct, jobs, cap, repeat):
    """Prints the table of the S-boxes; a missing program is None. True if all agree."""
    print(f"{'job':{WIDTH}}{'proved':>10}{'plain':>10}{'ratio':>9}{'sat yes':>10}{'sat no':>10}{'sat/proved':>11}  answer")
    agreed = True
    for name, record in jobs:
        runs = [best_of(command, record, cap, repeat) if command else None for command in (proved, plain)]
        ended = [run for run in runs if run and not run.capped]
        pair, wrong = sat_pair(solver, direct, record, ended[0].output, cap, repeat) if solver and ended else ([], "")
        answer = " ".join(filter(None, [answer_text(ended), wrong]))
        agreed = agreed and not wrong and "DIFFERENT" not in answer
        times = [seconds_text(run, cap) for run in runs + (pair or [None, None])]
        known = [run for run in pair if run]
        print(f"{name:{WIDTH}}{times[0]:>10}{times[1]:>10}{ratio_text(runs[:1], runs[1:]):>9}"
              f"{times[2]:>10}{times[3]:>10}{ratio_text(known, runs[:1]):>11}  {answer}", flush=True)
    return agreed


SBOX_HEADER = """\
proved, plain: the proved program and plain.rs at --rules {rules}; ratio: the first over the second.
sat yes, sat no: cadical on two questions, whose numbers it is told from the answer in the same row. At prices 1,1,1: is there a
circuit of at most K gates, and of at most K - 1, where K is the least number of gates? At others: is there one within the gate limit
that costs at most C, and at most C - 1, where C is the least cost? For "none": is there one within the gate limit?
The CNF is sat.py's {encoding} encoding; its making isn't counted. sat/proved: both questions together over proved.
>= or <=: one side was ended at the cap (wall clock), and the ratio is a bound from the seconds it had used."""


def main():
    parser = argparse.ArgumentParser(description="The proved search, the plain one and a SAT solver side by side.")
    parser.add_argument("main_binary", help="the proved program, or - for the others alone")
    parser.add_argument("--rules", choices=["base", "bounds", "full", "max"], default="full", help="of plain.rs; full has the rules of the program")
    parser.add_argument("--sboxes", action="store_true", help="the S-boxes of ciphers in 002 and 003 at limit 12")
    parser.add_argument("--related", action="store_true", help="the S-boxes of 003's Tables 6 to 9 and D2 at limit 12")
    parser.add_argument("--no-sat", action="store_true", help="leave the SAT solver out")
    parser.add_argument("--direct", action="store_true", help="the direct SAT encoding instead of the strong one")
    parser.add_argument("--cap", type=float, help="seconds for a job and program: 60, with --sboxes or --related 20")
    parser.add_argument("--repeat", type=int, default=1, help="runs of each; the least time counts")
    parser.add_argument("--only", default="", help="only the jobs whose name holds this text")
    parser.add_argument("--target", help="folder for the compiled plain.rs")
    args = parser.parse_args()
    rules = args.rules
    boxes = args.sboxes or args.related
    cap = args.cap or (20 if boxes else 60)
    if hasattr(os, "sched_setaffinity"):
        os.sched_setaffinity(0, {max(os.sched_getaffinity(0))})
    with tempfile.TemporaryDirectory() as folder:
        plain = os.path.join(args.target or folder, "plain")
        os.makedirs(os.path.dirname(plain), exist_ok=True)
        subprocess.run(["rustc", "-O", "-o", plain, os.path.join(HERE, "plain.rs")], check=True)
        plain = [plain, "--rules", rules]
        proved = None if args.main_binary == "-" else [os.path.abspath(args.main_binary)]
        print(f"processor seconds, one core, least of {args.repeat}; plain.rs at --rules {rules}; cap {cap:g} s")
        if boxes:
            solver = None if args.no_sat else shutil.which("cadical")
            print(SBOX_HEADER.format(rules=rules, encoding="direct" if args.direct else "strong"))
            print("" if solver else "No SAT solver in this run.\n", flush=True)
            entries = list(sbox_jobs(SBOXES, WITH_ANCILLA)) if args.sboxes else []
            entries += list(sbox_jobs(RELATED, [])) if args.related else []
            jobs = [entry for entry in entries if args.only in entry[0]]
            agreed = sbox_table(proved, plain, solver, args.direct, jobs, cap, args.repeat)
        else:
            columns = ([("proved", proved)] if proved else []) + [("plain", plain)]
            jobs = [entry for entry in small_jobs() if args.only in entry[0]]
            agreed = table(columns, jobs, cap, args.repeat)
    sys.exit(0 if agreed else 1)


if __name__ == "__main__":
    main()
