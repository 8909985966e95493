//! The plainest exhaustive search of document 01: every list of lawful gates up to the
//! gate limit, with every allowed layout, row by row, the ancilla back at 0 in each of them. No bounds, no incumbent cuts, no
//! parity: the source of expected values. A job of 22 or 30 bytes has four kinds of gates, and a mark in its
//! answers. Reads a job from standard input and prints the line that `main` prints. Build: rustc -O brute.rs
use std::io::Read;

/// Cost, gates, depth, layout byte, gate bytes: compared in this order.
type Key = (u32, usize, u32, u8, Vec<u8>);

struct Job {
    n: u8,
    m: u8,
    free: bool,
    gate_limit: usize,
    cost_limit: u32,
    depth_limit: u32,
    kinds: usize, // 3, or 4 where gates of three controls are lawful
    prices: Vec<u32>,
    durations: Vec<u32>,
    rows: Vec<u8>, // care mask in the high four bits, value in the low four
}

/// The job's checks in document 01's order: the number of the first one broken, or the job.
fn read_job(b: &[u8]) -> Result<Job, u8> {
    if ![20, 22, 28, 30].contains(&b.len()) {
        return Err(1);
    }
    let (n, m, free) = (b[0] >> 5, b[0] >> 3 & 3, b[0] >> 2 & 1 == 1);
    if !(n == 3 && b.len() < 28 || n == 4 && b.len() >= 28) {
        return Err(2);
    }
    if m > 1 || b[0] & 3 != 0 {
        return Err(3);
    }
    if b[1] > 12 {
        return Err(4);
    }
    let kinds = if b.len() == 22 || b.len() == 30 { 4 } else { 3 };
    let (prices, rest) = b[6..].split_at(kinds);
    let (durations, rows) = rest.split_at(kinds);
    if durations.contains(&0) {
        return Err(5);
    }
    for &row in rows {
        let (mask, value) = (row >> 4, row & 15);
        if value & !mask != 0 || mask >= 1 << n {
            return Err(6);
        }
    }
    Ok(Job {
        n,
        m,
        free,
        gate_limit: b[1] as usize,
        cost_limit: b[2] as u32 * 256 + b[3] as u32,
        depth_limit: b[4] as u32 * 256 + b[5] as u32,
        kinds,
        prices: prices.iter().map(|&p| p as u32).collect(),
        durations: durations.iter().map(|&d| d as u32).collect(),
        rows: rows.to_vec(),
    })
}

fn lawful(gate: u8, w: u8, kinds: usize) -> bool {
    let (target, controls) = (gate >> 5, gate & 31);
    target < w && controls >> w == 0 && controls >> target & 1 == 0 && kind(gate) < kinds
}

/// The wire of output bit j: the layout's fields stand from the high end down.
fn wire(layout: u8, j: u8) -> u8 {
    layout >> (6 - 2 * j) & 3
}

fn layout_in_order(layout: u8, n: u8) -> bool {
    let mut named = 0;
    for j in 0..n {
        named |= 1 << wire(layout, j);
    }
    named == (1 << n) - 1 && (n == 4 || wire(layout, 3) == 0)
}

fn run(list: &[u8], start: u8) -> u8 {
    let mut value = start;
    for &gate in list {
        if value & (gate & 31) == gate & 31 {
            value ^= 1 << (gate >> 5);
        }
    }
    value
}

fn kind(gate: u8) -> usize {
    (gate & 31).count_ones() as usize
}

fn depth(job: &Job, list: &[u8]) -> u32 {
    let mut ready = [0; 5];
    for &gate in list {
        let wires = (gate & 31) | 1 << (gate >> 5);
        let start = (0..5).filter(|i| wires >> i & 1 == 1).map(|i| ready[i]).max().unwrap();
        for i in 0..5 {
            if wires >> i & 1 == 1 {
                ready[i] = start + job.durations[kind(gate)];
            }
        }
    }
    *ready.iter().max().unwrap()
}

fn agrees(job: &Job, ends: &[u8; 16], layout: u8) -> bool {
    job.rows.iter().enumerate().all(|(x, row)| {
        (0..job.n).all(|j| {
            let wanted = row >> (4 + j) & 1 == 1;
            !wanted || ends[x] >> wire(layout, j) & 1 == row >> j & 1
        })
    })
}

/// Whether the ancilla, wire n, ends at 0 for every row, unwanted ones too.
fn clean(job: &Job, ends: &[u8; 16]) -> bool {
    (0..job.rows.len()).all(|x| ends[x] >> job.n & 1 == 0)
}

/// Offers this list with every allowed layout, then every longer list within the limit.
fn extend(job: &Job, gates: &[u8], layouts: &[u8], list: &mut Vec<u8>, best: &mut Option<Key>) {
    let mut ends = [0; 16];
    for x in 0..job.rows.len() {
        ends[x] = run(list, x as u8);
    }
    for &layout in layouts {
        if agrees(job, &ends, layout) && clean(job, &ends) {
            let cost = list.iter().map(|&gate| job.prices[kind(gate)]).sum();
            let key: Key = (cost, list.len(), depth(job, list), layout, list.clone());
            let within = key.0 <= job.cost_limit && key.2 <= job.depth_limit;
            if within && (best.is_none() || key < *best.as_ref().unwrap()) {
                *best = Some(key);
            }
        }
    }
    if list.len() < job.gate_limit {
        for &gate in gates {
            list.push(gate);
            extend(job, gates, layouts, list, best);
            list.pop();
        }
    }
}

fn answer(bytes: &[u8]) -> String {
    let job = match read_job(bytes) {
        Err(number) => return format!("refused {number}"),
        Ok(job) => job,
    };
    let gates: Vec<u8> = (0..=255).filter(|&g| lawful(g, job.n + job.m, job.kinds)).collect();
    let plain = if job.n == 3 { 0x18 } else { 0x1B };
    let allowed = |l: u8| layout_in_order(l, job.n) && (job.free || l == plain);
    let layouts: Vec<u8> = (0..=255).filter(|&l| allowed(l)).collect();
    let mut best = None;
    extend(&job, &gates, &layouts, &mut Vec::new(), &mut best);
    match best {
        None => "refused 14".to_string(),
        Some((cost, count, depth, layout, list)) => {
            let mark = (job.kinds == 4) as u8;
            let mut record = vec![job.n << 5 | job.m << 3 | mark, layout, count as u8];
            record.extend(list);
            let hex: String = record.iter().map(|byte| format!("{byte:02X}")).collect();
            format!("found {count} {cost} {depth} {hex}")
        }
    }
}

fn main() {
    let mut bytes = Vec::new();
    let _ = std::io::stdin().lock().take(31).read_to_end(&mut bytes);
    println!("{}", answer(&bytes));
}
