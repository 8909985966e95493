#!/usr/bin/env python3
"""Which wrong searches do the vectors tell from the right one?

usage: mutants.py DATA_FILE [--pick JOBS] [--seed N]

Each mutant is bench/brute.rs with one edit. Runs every mutant on the jobs of DATA_FILE that
brute.rs answers quickly and prints how many of them show the mutant. With --pick, tries that
many random jobs (of bench/compare.py) too and prints for each mutant some that show it.
"""
import argparse
import os
import random
import subprocess
import sys
import time

ROOT = os.path.dirname(os.path.dirname(os.path.abspath(__file__)))
sys.path.insert(0, os.path.join(ROOT, "bench"))
import compare  # noqa: E402

MUTANTS = {
    "key without depth": ("depth(job, list), layout, list.clone());\n", "0, layout, list.clone());\n"),
    "gates before cost": ("key < *best.as_ref().unwrap()",
                          "{ let b = best.as_ref().unwrap(); (key.1, key.0, key.2, key.3, &key.4) < (b.1, b.0, b.2, b.3, &b.4) }"),
    "depth before gates": ("key < *best.as_ref().unwrap()",
                           "{ let b = best.as_ref().unwrap(); (key.0, key.2, key.1, key.3, &key.4) < (b.0, b.2, b.1, b.3, &b.4) }"),
    "depth before cost": ("key < *best.as_ref().unwrap()",
                          "{ let b = best.as_ref().unwrap(); (key.2, key.0, key.1, key.3, &key.4) < (b.2, b.0, b.1, b.3, &b.4) }"),
    "layout before depth": ("key < *best.as_ref().unwrap()",
                            "{ let b = best.as_ref().unwrap(); (key.0, key.1, key.3, key.2, &key.4) < (b.0, b.1, b.3, b.2, &b.4) }"),
    "bytes before layout": ("key < *best.as_ref().unwrap()",
                            "{ let b = best.as_ref().unwrap(); (key.0, key.1, key.2, &key.4, key.3) < (b.0, b.1, b.2, &b.4, b.3) }"),
    "bytes before depth": ("key < *best.as_ref().unwrap()",
                           "{ let b = best.as_ref().unwrap(); (key.0, key.1, &key.4, key.2, key.3) < (b.0, b.1, &b.4, b.2, b.3) }"),
    "greatest bytes": ("key < *best.as_ref().unwrap()",
                       "{ let b = best.as_ref().unwrap(); (key.0, key.1, key.2, key.3, &b.4) < (b.0, b.1, b.2, b.3, &key.4) }"),
    "bytes from right to left": ("key < *best.as_ref().unwrap()",
                                 "{ let b = best.as_ref().unwrap(); let r = |k: &Key| (k.0, k.1, k.2, k.3, k.4.iter().rev().cloned().collect::<Vec<u8>>()); r(&key) < r(b) }"),
    "greatest layout": ("key < *best.as_ref().unwrap()",
                        "{ let b = best.as_ref().unwrap(); (key.0, key.1, key.2, b.3, &key.4) < (b.0, b.1, b.2, key.3, &b.4) }"),
    "first of equals lost": ("key < *best.as_ref().unwrap()",
                             "{ let b = best.as_ref().unwrap(); (key.0, key.1, key.2) <= (b.0, b.1, b.2) }"),
    "cost limit strict": ("key.0 <= job.cost_limit", "key.0 < job.cost_limit"),
    "cost limit ignored": ("key.0 <= job.cost_limit", "true"),
    "depth limit strict": ("key.2 <= job.depth_limit", "key.2 < job.depth_limit"),
    "depth limit ignored": ("&& key.2 <= job.depth_limit", ""),
    "gate limit strict": ("list.len() < job.gate_limit", "list.len() + 1 < job.gate_limit"),
    "gate limit one more": ("list.len() < job.gate_limit", "list.len() < job.gate_limit + 1"),
    "depth is the sum": ("ready[i] = start + job.durations[kind(gate)];\n            }\n        }\n    }\n    *ready.iter().max().unwrap()",
                         "ready[i] = start + job.durations[kind(gate)];\n            }\n        }\n    }\n    list.iter().map(|&gate| job.durations[kind(gate)]).sum()"),
    "controls not held": ("if wires >> i & 1 == 1 {\n                ready", "if gate >> 5 == i as u8 {\n                ready"),
    "controls not waited for": ("(0..5).filter(|i| wires >> i & 1 == 1)", "(0..5).filter(|i| (gate >> 5) as usize == *i)"),
    "durations swapped": ("durations: durations.iter()", "durations: [durations[1], durations[0]].iter().chain(&durations[2..])"),
    "durations swapped (2)": ("durations: durations.iter()", "durations: [durations[0], durations[2], durations[1]].iter().chain(&durations[3..])"),
    "prices swapped": ("prices: prices.iter()", "prices: [prices[1], prices[0]].iter().chain(&prices[2..])"),
    "prices swapped (2)": ("prices: prices.iter()", "prices: [prices[0], prices[2], prices[1]].iter().chain(&prices[3..])"),
    "third price for three controls": ("job.prices[kind(gate)]", "job.prices[kind(gate).min(2)]"),
    "third duration for three controls": ("ready[i] = start + job.durations[kind(gate)]", "ready[i] = start + job.durations[kind(gate).min(2)]"),
    "cost limit low byte first": ("b[2] as u32 * 256 + b[3] as u32", "b[3] as u32 * 256 + b[2] as u32"),
    "depth limit low byte first": ("b[4] as u32 * 256 + b[5] as u32", "b[5] as u32 * 256 + b[4] as u32"),
    "cost limit low byte only": ("b[2] as u32 * 256 + b[3] as u32", "b[3] as u32"),
    "depth limit low byte only": ("b[4] as u32 * 256 + b[5] as u32", "b[5] as u32"),
    "unwanted row keeps its number": ("let wanted = row >> (4 + j) & 1 == 1;",
                                      "let wanted = row >> 4 != 0 && row >> (4 + j) & 1 == 1; if row >> 4 == 0 && ends[x] >> wire(layout, j) & 1 != x as u8 >> j & 1 { return false; }"),
    "unwanted bits must be 0": ("let wanted = row >> (4 + j) & 1 == 1;", "let wanted = true;"),
    "row 0 not asked": ("job.rows.iter().enumerate().all", "job.rows.iter().enumerate().skip(1).all"),
    "last row not asked": ("job.rows.iter().enumerate().all", "job.rows.iter().enumerate().take(job.rows.len() - 1).all"),
    "bit 0 not asked": ("(0..job.n).all", "(1..job.n).all"),
    "last bit not asked": ("(0..job.n).all", "(0..job.n - 1).all"),
    "outputs share a wire": ("named == (1 << n) - 1 && (n == 4", "named < 1 << n && (n == 4"),
    "layout always free": ("(job.free || l == plain)", "true"),
    "layout never free": ("(job.free || l == plain)", "l == plain"),
    "layout fields from the low end": ("layout >> (6 - 2 * j) & 3", "layout >> (2 * j) & 3"),
    "layout inverted": ("ends[x] >> wire(layout, j) & 1 == row >> j & 1",
                        "ends[x] >> (0..job.n).find(|&i| wire(layout, i) == j).unwrap() & 1 == row >> j & 1"),
    "ancilla dirty": ("if agrees(job, &ends, layout) && clean(job, &ends) {", "if agrees(job, &ends, layout) {"),
    "ancilla starts at 1": ("run(list, x as u8)", "run(list, x as u8 | job.m << job.n)"),
    "ancilla missing": ("lawful(g, job.n + job.m, ", "lawful(g, job.n, "),
    "ancilla always there": ("lawful(g, job.n + job.m, ", "lawful(g, job.n + 1, "),
    "first gate skipped": ("for &gate in gates {", "for &gate in &gates[1..] {"),
    "last gate skipped": ("for &gate in gates {", "for &gate in &gates[..gates.len() - 1] {"),
    "four controls": ("kind(gate) < kinds", "kind(gate) <= kinds && (kinds == 4 || kind(gate) < 3)"),
    "three controls in no job": ("kind(gate) < kinds", "kind(gate) < 3"),
    "no Toffoli": ("kind(gate) < kinds", "kind(gate) < kinds && kind(gate) != 2"),
    "no NOT": ("kind(gate) < kinds", "kind(gate) < kinds && kind(gate) != 0"),
    "target among controls": (" && controls >> target & 1 == 0", ""),
    "any control": ("value & (gate & 31) == gate & 31", "value & (gate & 31) != 0 || gate & 31 == 0"),
    "list run backwards": ("for &gate in list {\n        if", "for &gate in list.iter().rev() {\n        if"),
    "first gate run only": ("for &gate in list {\n        if", "for &gate in list.iter().take(1) {\n        if"),
    "stops at the first list": ("if list.len() < job.gate_limit {", "if list.len() < job.gate_limit && best.is_none() {"),
    "odd tables infeasible": ("    let mut best = None;\n    extend(",
                              "    let v: Vec<u8> = job.rows.iter().map(|r| r & 15).collect();\n    let odd = (0..v.len()).map(|y| (0..y).filter(|&x| v[x] > v[y]).count()).sum::<usize>() % 2 == 1;\n    if odd && job.m == 0 && job.rows.iter().all(|r| r >> 4 == (1 << job.n) - 1) { return \"refused 14\".to_string(); }\n    let mut best = None;\n    extend("),
    "odd tables infeasible (m = 1)": ("    let mut best = None;\n    extend(",
                              "    let v: Vec<u8> = job.rows.iter().map(|r| r & 15).collect();\n    let odd = (0..v.len()).map(|y| (0..y).filter(|&x| v[x] > v[y]).count()).sum::<usize>() % 2 == 1;\n    if odd && job.n == 4 && job.rows.iter().all(|r| r >> 4 == 15) { return \"refused 14\".to_string(); }\n    let mut best = None;\n    extend("),
    "odd tables infeasible (longer jobs)": ("    let mut best = None;\n    extend(",
                              "    let v: Vec<u8> = job.rows.iter().map(|r| r & 15).collect();\n    let odd = (0..v.len()).map(|y| (0..y).filter(|&x| v[x] > v[y]).count()).sum::<usize>() % 2 == 1;\n    if odd && job.n == 4 && job.m == 0 && job.kinds == 4 && job.rows.iter().all(|r| r >> 4 == 15) { return \"refused 14\".to_string(); }\n    let mut best = None;\n    extend("),
    "odd tables infeasible (any mask)": ("    let mut best = None;\n    extend(",
                              "    let v: Vec<u8> = job.rows.iter().map(|r| r & 15).collect();\n    let odd = (0..v.len()).map(|y| (0..y).filter(|&x| v[x] > v[y]).count()).sum::<usize>() % 2 == 1;\n    if odd && job.n == 4 && job.m == 0 { return \"refused 14\".to_string(); }\n    let mut best = None;\n    extend("),
    "check 1: 28 and 30 only": ("![20, 22, 28, 30].contains", "![28, 30].contains"),
    "check 1: 20 and 28 only": ("![20, 22, 28, 30].contains", "![20, 28].contains"),
    "check 1: up to 30": ("![20, 22, 28, 30].contains(&b.len())", "b.len() < 20 || b.len() > 30"),
    "check 2: length not asked": ("!(n == 3 && b.len() < 28 || n == 4 && b.len() >= 28)", "n != 3 && n != 4"),
    "check 3: m up to 2": ("m > 1 ||", "m > 2 ||"),
    "check 3: low bits not asked": ("m > 1 || b[0] & 3 != 0", "m > 1"),
    "check 3: one low bit": ("b[0] & 3 != 0", "b[0] & 1 != 0"),
    "check 3: other low bit": ("b[0] & 3 != 0", "b[0] & 2 != 0"),
    "check 4: 13 allowed": ("b[1] > 12", "b[1] > 13"),
    "check 4: 12 refused": ("b[1] > 12", "b[1] > 11"),
    "check 5: first only": ("durations.contains(&0)", "durations[0] == 0"),
    "check 5: not the last": ("durations.contains(&0)", "durations[..kinds - 1].contains(&0)"),
    "check 5: not the fourth": ("durations.contains(&0)", "durations[..3].contains(&0)"),
    "check 5: not the middle": ("durations.contains(&0)", "durations[0] == 0 || durations[2..].contains(&0)"),
    "check 5: prices": ("durations.contains(&0)", "prices.contains(&0)"),
    "check 6: bit 3 not asked": ("|| mask >= 1 << n", ""),
    "check 6: value not asked": ("value & !mask != 0 ||", ""),
    "check 6: last row not asked": ("for &row in rows {", "for &row in &rows[..rows.len() - 1] {"),
    "check 6: first row not asked": ("for &row in rows {", "for &row in &rows[1..] {"),
    "check 6: unwanted row refused": ("|| mask >= 1 << n", "|| mask >= 1 << n || mask == 0"),
    "record byte 0 without m": ("job.n << 5 | job.m << 3", "job.n << 5"),
    "record byte 0 without the mark": ("(job.kinds == 4) as u8", "0"),
    "the mark for three controls only": ("(job.kinds == 4) as u8", "list.iter().any(|&gate| kind(gate) == 3) as u8"),
}


def build(name, source):
    folder = os.path.join(ROOT, "target", "mutants")
    os.makedirs(folder, exist_ok=True)
    path = os.path.join(folder, "".join(c if c.isalnum() else "_" for c in name))
    if os.path.exists(path + ".rs") and os.path.exists(path):
        with open(path + ".rs") as file:
            if file.read() == source:
                return path
    with open(path + ".rs", "w") as file:
        file.write(source)
    subprocess.run(["rustc", "-O", "-A", "warnings", "-o", path, path + ".rs"], check=True)
    return path


def line_of(program, job):
    try:
        run = subprocess.run([program], input=job, capture_output=True, timeout=20)
        return run.stdout.decode() or "panic"
    except subprocess.TimeoutExpired:
        return "too slow"


def main():
    parser = argparse.ArgumentParser()
    parser.add_argument("data")
    parser.add_argument("--pick", type=int, default=0)
    parser.add_argument("--seed", type=int, default=77)
    parser.add_argument("--only", default="")
    parser.add_argument("--slow", type=float, default=0.06)
    args = parser.parse_args()
    os.nice(10)
    with open(os.path.join(ROOT, "bench", "brute.rs")) as file:
        right = file.read()
    brute = build("right", right)
    jobs = []
    with open(args.data) as file:
        for call in file.read().splitlines():
            record = "" if call.startswith("#") or call.split()[1] == "-" else call.split()[1]
            if record and (len(record) not in (56, 60) or int(record[2:4], 16) <= 4 or int(record[2:4], 16) > 12) \
                    and not (len(record) in (40, 44) and 6 < int(record[2:4], 16) <= 12):
                jobs.append(bytes.fromhex(record))
    expected = []
    for record in dict.fromkeys(jobs):
        start = time.perf_counter()
        line = line_of(brute, record)
        if time.perf_counter() - start < args.slow:
            expected.append((record, line))
    rng = random.Random(args.seed)
    extra = []
    for _ in range(args.pick):
        record = compare.random_job(rng, {3: [0, 1, 3, 3], 4: [0, 1, 3, 1], 5: [0, 1, 3]})
        extra.append((record, line_of(brute, record)))
    print(f"{len(expected)} jobs of the file")
    for name, (old, new) in MUTANTS.items():
        assert right.count(old) == 1, name
        if args.only and name not in args.only.split(","):
            continue
        mutant = build(name, right.replace(old, new))
        shown = sum(line_of(mutant, record) != line for record, line in expected)
        print(f"{shown:4d}  {name}", flush=True)
        if args.pick and shown < 3:
            picked = [(r, l) for r, l in extra if line_of(mutant, r) != l]
            for record, line in sorted(picked, key=lambda pair: len(pair[0]))[:4]:
                print("        ", record.hex().upper(), line.strip())


if __name__ == "__main__":
    main()
