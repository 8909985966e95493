//! A fast search for document 01's cheapest circuit, in plain Rust and without proofs: the
//! rival of the proved program. Reads a job from standard input and prints the line that
//! `main` prints. Build: rustc -O plain.rs
//! Run: plain [--rules base|bounds|full|max] [--stats] [--reach FROM,RADIUS]
//!
//! A state holds one column per wire; bit x of a column is the wire's value in row x.
//! The levels of rules:
//!   base  one depth-first search with cuts: cost above the limit or the best; cost equal to
//!         the best and more gates; ready times above the depth limit; B1 on outputs.
//!   bounds  F (the least number of gates first, and its best list), then I1 and I2 (deepening on
//!         cost, then on gates, below that list's cost). In a run: cost and gates against the run's
//!         and the best's, the depth limit, B3, B1 on outputs, and B1 and B2 in one test before
//!         each gate.
//!   full  the rules of the proved program: F, I1 and I2 as above; in a run those of max without
//!         E1's exact cost.
//!   max   I1, I2, F only for equal prices, B1 on outputs and wires, B2, B3, E1, N1, N2, N3, B4
//!         and B5 (m = 0).
//! An odd table on four wires is infeasible (parity) at every level, before any search; so not in a
//! job of 22 or 30 bytes, whose gates may have three controls. A heavy gate below has two or more.
//! The rules:
//!   B1  outputs that no wire matches (or wires that match no output) want a gate each, and so
//!       does an ancilla that is not at 0;
//!   B2  where all gates to come are wanted so, the next one gives a wire its output, or the
//!       ancilla its 0;
//!   B3  affine span: the heavy gates still needed, and the most gates that the budget allows;
//!   B4  a lossy set of the states within some gates of the target;
//!   B5  the same of these states less one wire, and less two;
//!   E1  a run looks only at lists of exactly its cost and its gates;
//!   N1  no gate that changes nothing;
//!   N2  no gate twice with only gates between that commute with it;
//!   N3  gates on disjoint wires in byte order.
use std::io::Read;

const ONES: usize = 5; // the column of an absent control
type Columns = [u16; 8]; // five wires, ONES, and two more so that an index & 7 is in bounds
const MAX_COST: usize = 12 * 255;
/// From how many gates on a run fills the reach filters, and to which radius. The option
/// --reach puts one pair in their place, so that small jobs can test the filters too.
const REACH_PLAN: [(usize, usize); 2] = [(7, 4), (11, 5)];

#[derive(Clone, Copy)]
enum Rules {
    Base,
    Bounds,
    Full,
    Max,
}

struct Options {
    rules: Rules,
    stats: bool,
    reach_plan: Vec<(usize, usize)>,
}

// ---------------------------------------------------------------------------- the job

#[derive(Clone, Copy)]
struct Gate {
    byte: u8,
    target: usize,
    controls: [usize; 3], // ONES where absent
    kind: usize,
    wires: u8,
}

struct Layout {
    byte: u8,
    wires: [usize; 4],
}

struct Job {
    n: usize,
    m: usize,
    free: bool,
    gate_limit: usize,
    cost_limit: u32,
    depth_limit: u16,
    controls: usize, // the most that a gate may have
    prices: [u32; 4],
    durations: [u16; 4],
    target: [u16; 4],   // wanted value of each output, as a column
    care: [u16; 4],     // care mask of each output, as a column
    rows: u16,          // one bit a row
    full_rows: u16,     // the rows whose care mask is full
    gates: Vec<Gate>,   // in rising byte order
    gates_on: Vec<Vec<Gate>>, // the same, by target
    layouts: Vec<Layout>,
}

/// How many kinds of gates a job has prices for.
fn kinds(b: &[u8]) -> usize {
    if b.len() == 22 || b.len() == 30 { 4 } else { 3 }
}

fn refusal(b: &[u8]) -> u8 {
    let row_ok = |row: u8| row & 15 & !(row >> 4) == 0 && (row >> 4) >> (b[0] >> 5) == 0;
    let (times, rows) = (6 + kinds(b), 6 + 2 * kinds(b));
    if ![20, 22, 28, 30].contains(&b.len()) {
        1
    } else if (1 << (b[0] >> 5)) + rows != b.len() {
        2
    } else if b[0] & 0x13 != 0 {
        3
    } else if b[1] > 12 {
        4
    } else if b[times..rows].contains(&0) {
        5
    } else if !b[rows..].iter().all(|&row| row_ok(row)) {
        6
    } else {
        0
    }
}

fn gate_of(byte: u8) -> Gate {
    let mask = byte & 31;
    let mut controls = [ONES; 3];
    for (slot, wire) in (0..5).filter(|i| mask >> i & 1 == 1).enumerate() {
        controls[slot] = wire; // gates of more controls are sieved out before
    }
    let target = (byte >> 5) as usize;
    Gate { byte, target, controls, kind: mask.count_ones() as usize, wires: mask | 1 << target }
}

fn gates_of(w: usize, most: usize) -> Vec<Gate> {
    let lawful = |byte: &u8| {
        let (target, mask) = (byte >> 5, byte & 31);
        (target as usize) < w && mask >> w == 0 && mask >> target & 1 == 0 && mask.count_ones() as usize <= most
    };
    (0..=255).filter(lawful).map(gate_of).collect()
}

fn gates_on(target: usize, w: usize, most: usize) -> Vec<Gate> {
    gates_of(w, most).into_iter().filter(|gate| gate.target == target).collect()
}

fn layouts_of(n: usize, free: bool) -> Vec<Layout> {
    let mut layouts = Vec::new();
    for byte in 0..=255u8 {
        let wires = [byte >> 6, byte >> 4 & 3, byte >> 2 & 3, byte & 3].map(|i| i as usize);
        let named = wires[..n].iter().fold(0, |set, i| set | 1 << i);
        let plain = (0..n).all(|j| wires[j] == j);
        if named == (1 << n) - 1 && (n == 4 || wires[3] == 0) && (free || plain) {
            layouts.push(Layout { byte, wires });
        }
    }
    layouts
}

fn job_of(b: &[u8]) -> Job {
    let (n, m, free) = ((b[0] >> 5) as usize, (b[0] >> 3 & 3) as usize, b[0] >> 2 & 1 == 1);
    let controls = kinds(b) - 1;
    let mut job = Job {
        n,
        m,
        free,
        gate_limit: b[1] as usize,
        cost_limit: u16::from_be_bytes([b[2], b[3]]) as u32,
        depth_limit: u16::from_be_bytes([b[4], b[5]]),
        controls,
        prices: std::array::from_fn(|i| if i <= controls { b[6 + i] as u32 } else { 0 }),
        durations: std::array::from_fn(|i| if i <= controls { b[7 + controls + i] as u16 } else { 0 }),
        target: [0; 4],
        care: [0; 4],
        rows: ((1u32 << (1 << n)) - 1) as u16,
        full_rows: 0,
        gates: gates_of(n + m, controls),
        gates_on: (0..n + m).map(|t| gates_on(t, n + m, controls)).collect(),
        layouts: layouts_of(n, free),
    };
    for (x, &row) in b[6 + 2 * kinds(b)..].iter().enumerate() {
        for j in 0..n {
            job.target[j] |= ((row >> j & 1) as u16) << x;
            job.care[j] |= ((row >> (4 + j) & 1) as u16) << x;
        }
    }
    job.full_rows = job.care[..n].iter().fold(job.rows, |all, mask| all & mask);
    job
}

/// Whether the table is an odd permutation of all its rows.
fn odd(job: &Job) -> bool {
    let rows = 1 << job.n;
    let value = |x: usize| (0..job.n).fold(0, |v, j| v | (job.target[j] >> x & 1) << j);
    let values: Vec<u16> = (0..rows).map(value).collect();
    let seen = values.iter().fold(0u16, |set, v| set | 1 << v);
    let inversions: usize =
        (0..rows).map(|y| (0..y).filter(|&x| values[x] > values[y]).count()).sum();
    job.full_rows == job.rows && seen == job.rows && inversions % 2 == 1
}

// ---------------------------------------------------------------------------- states

#[derive(Clone, Copy)]
struct State {
    columns: Columns,
    ready: [u16; 8], // that of ONES stays 0
    depth: u16,
    matched: [u8; 4], // for each data wire the outputs that it could be now, one bit each
}

impl Job {
    /// The outputs that this column could be, on data wire i.
    #[inline(always)]
    fn matches<const N: usize, const FREE: bool>(&self, i: usize, column: u16) -> u8 {
        let same = |j: usize| (((column ^ self.target[j]) & self.care[j] == 0) as u8) << j;
        if FREE {
            let mut set = 0;
            for j in 0..N {
                set |= same(j);
            }
            set
        } else {
            same(i)
        }
    }

    fn start<const N: usize, const FREE: bool>(&self) -> State {
        let mut columns = [0xAAAA, 0xCCCC, 0xF0F0, 0xFF00, 0, 0xFFFF, 0, 0].map(|c: u16| c & self.rows);
        if N == 3 {
            columns[3] = 0;
        }
        let mut state = State { columns, ready: [0; 8], depth: 0, matched: [0; 4] };
        for i in 0..N {
            state.matched[i] = self.matches::<N, FREE>(i, columns[i]);
        }
        state
    }

    /// The first layout in byte order that makes this state realize the table.
    fn layout_for(&self, matched: &[u8; 4]) -> Option<u8> {
        let fits = |l: &&Layout| (0..self.n).all(|j| matched[l.wires[j]] >> j & 1 == 1);
        self.layouts.iter().find(fits).map(|l| l.byte)
    }

    /// Occupies the gate's wires for its duration.
    #[inline(always)]
    fn schedule<const K: usize>(&self, state: &mut State, gate: &Gate) {
        let (t, wires) = (gate.target & 7, gate.controls.map(|c| c & 7));
        let r = &mut state.ready;
        let free = wires[..K].iter().fold(r[t], |time, &c| time.max(r[c]));
        let end = free + self.durations[gate.kind];
        r[t] = end;
        for &c in &wires[..K] {
            r[c] = end;
        }
        r[ONES] = 0;
        state.depth = state.depth.max(end);
    }

    /// B3: dim(V + T) - dim V on the fully wanted rows, by elimination.
    fn span_gap<const N: usize>(&self, columns: &Columns) -> u32 {
        let mut basis = [0u16; 12];
        let mut dim = 0;
        let rows = self.full_rows;
        let mut insert = |column: u16| {
            let mut x = column & rows;
            for b in &basis[..dim] {
                x = x.min(x ^ b);
            }
            basis[dim] = x;
            dim += (x != 0) as usize;
            (x != 0) as u32
        };
        for &column in columns {
            insert(column);
        }
        (0..N).map(|j| insert(self.target[j])).sum()
    }
}

/// What the gate adds to its target's column.
#[inline(always)]
fn product<const K: usize>(columns: &Columns, gate: &Gate) -> u16 {
    gate.controls[1..K].iter().fold(columns[gate.controls[0] & 7], |rows, &c| rows & columns[c & 7])
}

/// The number of ones of a set of outputs (rustc -O alone has no instruction for it).
#[inline(always)]
fn ones(set: u8) -> u32 {
    (0x4332_3221_3221_2110u64 >> (4 * (set & 15)) & 7) as u32
}

#[inline(always)]
fn unmatched_outputs<const N: usize>(matched: &[u8; 4]) -> u32 {
    N as u32 - ones(matched[0] | matched[1] | matched[2] | matched[3])
}

/// 1 where the ancilla, wire N, is not at 0 in some row.
#[inline(always)]
fn dirty<const N: usize>(columns: &Columns) -> u32 {
    (columns[N] != 0) as u32
}

#[inline(always)]
fn unmatched_wires<const N: usize>(matched: &[u8; 4]) -> u32 {
    (0..N).map(|i| (matched[i] == 0) as u32).sum()
}

/// For each wire the outputs that the other data wires could be (an ancilla: all of them).
#[inline(always)]
fn others<const N: usize>(matched: &[u8; 4]) -> [u8; 5] {
    std::array::from_fn(|t| (0..N).filter(|&i| i != t).fold(0, |set, i| set | matched[i]))
}

/// For each wire the number of other data wires that match no output.
#[inline(always)]
fn others_unmatched<const N: usize>(matched: &[u8; 4]) -> [u32; 5] {
    std::array::from_fn(|t| (0..N).filter(|&i| i != t).map(|i| (matched[i] == 0) as u32).sum())
}

/// Cost, gates, depth, layout byte, gate bytes: compared in this order.
type Key = (u32, usize, u16, u8, Vec<u8>);

fn keep(best: &mut Option<Key>, key: Key) {
    if best.as_ref().map_or(true, |old| key < *old) {
        *best = Some(key);
    }
}

// ---------------------------------------------------------------------------- base rules

struct Base<'a> {
    job: &'a Job,
    path: [u8; 12],
    best: Option<Key>,
    best_cost: u32, // the best's, or the limit's
    best_gates: usize,
    nodes: u64,
}

impl Base<'_> {
    fn search<const N: usize, const FREE: bool, const K: usize>(&mut self, r: usize, len: usize, s: &State, cost: u32) {
        self.nodes += 1;
        if unmatched_outputs::<N>(&s.matched) + dirty::<N>(&s.columns) == 0 {
            if let Some(layout) = self.job.layout_for(&s.matched) {
                keep(&mut self.best, (cost, len, s.depth, layout, self.path[..len].to_vec()));
                let best = self.best.as_ref().unwrap();
                (self.best_cost, self.best_gates) = (best.0, best.1);
            }
        }
        if r == 0 {
            return;
        }
        let job = self.job;
        let others = others::<N>(&s.matched);
        for gate in &job.gates {
            let cost = cost + job.prices[gate.kind];
            if cost > self.best_cost || cost == self.best_cost && len + 1 > self.best_gates {
                continue;
            }
            let t = gate.target;
            let column = s.columns[t & 7] ^ product::<K>(&s.columns, gate);
            let matched = if t < N { job.matches::<N, FREE>(t, column) } else { 0 };
            let mut child = *s;
            child.columns[t & 7] = column;
            if N as u32 - ones(others[t] | matched) + dirty::<N>(&child.columns) > r as u32 - 1 {
                continue;
            }
            if t < N {
                child.matched[t] = matched;
            }
            job.schedule::<K>(&mut child, gate);
            if child.depth > job.depth_limit {
                continue;
            }
            self.path[len] = gate.byte;
            self.search::<N, FREE, K>(r - 1, len + 1, &child, cost);
        }
    }
}

fn solve_base<const N: usize, const FREE: bool, const K: usize>(job: &Job) -> (Option<Key>, u64) {
    let mut base = Base {
        job,
        path: [0; 12],
        best: None,
        best_cost: job.cost_limit,
        best_gates: 12,
        nodes: 0,
    };
    base.search::<N, FREE, K>(job.gate_limit, 0, &job.start::<N, FREE>(), 0);
    (base.best, base.nodes)
}

// ---------------------------------------------------------------------------- bounds

/// Runs of the deepening: the best list of at most so many gates and at most so much cost.
struct Bounds<'a> {
    job: &'a Job,
    extra: u32,          // what a heavy gate costs above the least price; 0: B3 is of no use
    affordable: Vec<u8>, // by budget: the greatest number of gates at the least price
    path: [u8; 12],
    best: Option<Key>,
    best_cost: u32, // the best's, or the run's
    best_gates: usize,
    nodes: u64,
}

impl Bounds<'_> {
    /// B3: the greatest number of gates still to come, or None to cut.
    #[inline(always)]
    fn to_come(&self, r: usize, budget: u32, rho: u32) -> Option<usize> {
        let needed = rho * self.extra;
        if needed > budget {
            return None;
        }
        let gates = r.min(self.affordable[(budget - needed) as usize] as usize);
        (rho as usize <= gates).then_some(gates)
    }

    fn offer(&mut self, s: &State, len: usize, cost: u32) {
        if let Some(layout) = self.job.layout_for(&s.matched) {
            keep(&mut self.best, (cost, len, s.depth, layout, self.path[..len].to_vec()));
            let best = self.best.as_ref().unwrap();
            (self.best_cost, self.best_gates) = (best.0, best.1);
        }
    }

    fn search<const N: usize, const FREE: bool, const K: usize>(&mut self, r: usize, len: usize, s: &State, cost: u32, rho: u32) {
        self.nodes += 1;
        if cost > self.best_cost || cost == self.best_cost && len > self.best_gates {
            return;
        }
        let dirt = dirty::<N>(&s.columns);
        let unmatched = (unmatched_outputs::<N>(&s.matched) + dirt) as usize;
        if unmatched == 0 {
            self.offer(s, len, cost);
        }
        let job = self.job;
        let budget = self.best_cost - cost;
        let Some(r_eff) = self.to_come(r, budget, rho) else { return };
        if r_eff == 0 || unmatched > r_eff {
            return;
        }
        // For each kind of gate: the greatest number of gates after it, or -1.
        let after: [i32; 4] = std::array::from_fn(|kind| {
            if kind > K {
                return -1;
            }
            let rho = rho.saturating_sub((kind >= 2) as u32);
            let after = budget.checked_sub(job.prices[kind]).and_then(|b| self.to_come(r - 1, b, rho));
            after.map_or(-1, |gates| gates as i32)
        });
        let others = others::<N>(&s.matched);
        for (t, gates) in job.gates_on.iter().enumerate() {
            // B1 and B2 before a gate on wire t: of the outputs that no other data wire matches,
            // one at most can end on t, and each of the rest takes a gate on another wire. If
            // that leaves room for this gate only, it gives t an output of these for good. So it
            // is with the ancilla, wire N, where it is not at 0 or t itself.
            let open = !others[t] & ((1 << N) - 1);
            let needed = (ones(open) + if t == N { 1 } else { dirt }) as usize;
            if needed > r_eff {
                continue;
            }
            let last = needed == r_eff;
            let care = if t < N { job.care[t] } else { job.rows };
            let wrong = if t < N { (s.columns[t] ^ job.target[t]) & care } else { s.columns[t & 7] };
            for gate in gates {
                let product = product::<K>(&s.columns, gate);
                if last && (!FREE || t == N) && product & care != wrong {
                    continue; // for a data wire the same test as the one below, sooner
                }
                let column = s.columns[t & 7] ^ product;
                let matched = if t < N { job.matches::<N, FREE>(t, column) } else { 0 };
                if last && t < N && open & matched == 0 {
                    continue;
                }
                let left = if t == N { (column != 0) as u32 } else { dirt };
                let unmatched = (ones(open & !matched) + left) as i32;
                if unmatched > after[gate.kind & 3] {
                    continue;
                }
                let mut child = *s;
                child.columns[t & 7] = column;
                if t < N {
                    child.matched[t] = matched;
                }
                job.schedule::<K>(&mut child, gate);
                if child.depth > job.depth_limit {
                    continue;
                }
                let cost = cost + job.prices[gate.kind];
                let mut rho = rho;
                if self.extra > 0 && gate.kind >= 2 && cost <= self.best_cost {
                    rho = job.span_gap::<N>(&child.columns);
                    let gates = self.to_come(r - 1, self.best_cost - cost, rho);
                    if gates.map_or(true, |gates| unmatched > gates as i32) {
                        continue;
                    }
                }
                self.path[len] = gate.byte;
                self.search::<N, FREE, K>(r - 1, len + 1, &child, cost, rho);
            }
        }
    }

    fn run<const N: usize, const FREE: bool, const K: usize>(&mut self, gates: usize, cost: u32, rho: u32) -> bool {
        self.best = None;
        (self.best_cost, self.best_gates) = (cost, gates);
        self.search::<N, FREE, K>(gates, 0, &self.job.start::<N, FREE>(), 0, rho);
        self.best.is_some()
    }
}

/// Cost and number of heavy gates of every list of so many gates, by the numbers of its kinds.
fn each_bill(job: &Job, gates: usize, mut bill: impl FnMut(usize, usize)) {
    let p = job.prices.map(|p| p as usize);
    for a in 0..=gates {
        for b in 0..=gates - a {
            let heavy = gates - a - b;
            for d in 0..=if job.controls == 3 { heavy } else { 0 } {
                bill(a * p[0] + b * p[1] + (heavy - d) * p[2] + d * p[3], heavy);
            }
        }
    }
}

/// I1: whether some list within the gate limit has this cost, for each cost.
fn sums(job: &Job) -> Vec<bool> {
    let mut sums = vec![false; MAX_COST + 1];
    for gates in 0..=job.gate_limit {
        each_bill(job, gates, |cost, _| sums[cost] = true);
    }
    sums
}

fn solve_bounds<const N: usize, const FREE: bool, const K: usize>(job: &Job) -> (Option<Key>, u64) {
    let low = *job.prices[..=K].iter().min().unwrap() as usize;
    let mut full = Bounds {
        job,
        extra: job.prices[2..=K].iter().min().unwrap() - low as u32,
        affordable: (0..=MAX_COST).map(|b| if low == 0 { 12 } else { 12.min(b / low) as u8 }).collect(),
        path: [0; 12],
        best: None,
        best_cost: 0,
        best_gates: 0,
        nodes: 0,
    };
    let rho = if full.extra > 0 { job.span_gap::<N>(&job.start::<N, FREE>().columns) } else { 0 };
    let limit = job.cost_limit.min(MAX_COST as u32);
    // F: the least number of gates within all limits, and the best list of so many.
    let Some(least) = (0..=job.gate_limit).find(|&gates| full.run::<N, FREE, K>(gates, limit, rho)) else {
        return (None, full.nodes);
    };
    let first = full.best.take().unwrap();
    // I1, I2: every lower cost, and for each the numbers of gates from the least one on.
    let sums = sums(job);
    for cost in (0..first.0).filter(|&cost| sums[cost as usize]) {
        let Some(most) = full.to_come(job.gate_limit, cost, rho) else { continue };
        if (least..=most).any(|gates| full.run::<N, FREE, K>(gates, cost, rho)) {
            return (full.best, full.nodes);
        }
    }
    (Some(first), full.nodes)
}

// ---------------------------------------------------------------------------- reach filters

/// B4 and B5: a lossy set of the states within `radius` gates of the target, whole, without
/// one wire and without two. Only fully wanted rows enter the hash. A state is two bits of one
/// word, and the set is as large as that of the proved program.
struct Reach {
    radius: usize,
    set: Vec<u64>,
}

/// A data wire's share of the hash; wires are alike when the layout is free.
#[inline(always)]
fn share<const FREE: bool>(wire: usize, column: u16) -> u64 {
    let tag = if FREE { 1 } else { wire as u64 + 1 };
    let x = (tag << 16 | column as u64).wrapping_mul(0x9E37_79B9_7F4A_7C15);
    (x ^ x >> 29).wrapping_mul(0xBF58_476D_1CE4_E5B9)
}

impl Reach {
    fn new(radius: usize) -> Reach {
        Reach { radius, set: vec![0; if radius <= 4 { 1 << 18 } else { 3 << 18 }] }
    }

    /// The word of a hash and its two bits in it.
    #[inline(always)]
    fn place(&self, hash: u64) -> (usize, u64) {
        let x = (hash.wrapping_mul(0x94D0_49BB_1331_11EB) >> 32) * (self.set.len() as u64 * 64);
        ((x >> 38) as usize, 1 << (x >> 32 & 63) | 1 << (x >> 26 & 63))
    }

    #[inline(always)]
    fn add(&mut self, hash: u64) {
        let (word, bits) = self.place(hash);
        self.set[word] |= bits;
    }

    #[inline(always)]
    fn has(&self, hash: u64) -> bool {
        let (word, bits) = self.place(hash);
        self.set[word] & bits == bits
    }

    /// What leaves out wire `but`, the last gate's target, is in already.
    fn fill<const N: usize, const FREE: bool, const K: usize>(&mut self, gates: &[Gate], columns: &Columns, but: usize, k: usize) {
        let shares: [u64; N] = std::array::from_fn(|i| share::<FREE>(i, columns[i]));
        let hash = shares.iter().fold(0u64, |h, s| h.wrapping_add(*s));
        self.add(hash);
        for t in (0..N).filter(|&t| t != but) {
            let less = hash.wrapping_sub(shares[t]);
            self.add(less);
            for u in (0..t).filter(|&u| u != but) {
                self.add(less.wrapping_sub(shares[u]));
            }
        }
        if k > 0 {
            for gate in gates {
                let mut next = *columns;
                next[gate.target & 7] ^= product::<K>(columns, gate);
                self.fill::<N, FREE, K>(gates, &next, gate.target, k - 1);
            }
        }
    }
}

// ---------------------------------------------------------------------------- max rules

/// Runs of the deepening: the best list of exactly `gates` gates and cost exactly `cost` (F:
/// of cost at most `cost`).
struct Max<'a> {
    job: &'a Job,
    use_span: bool,       // B3 is of use: a heavy gate costs more than some other gate
    possible: Vec<Vec<u16>>, // E1: [gates][budget], bit t: some list with t heavy gates
    commute: Vec<Gates>,  // N2, N3: by gate
    disjoint: Vec<Gates>,
    reach: Option<Reach>,
    reach_plan: &'a [(usize, usize)],
    path: [u8; 12],
    best: Option<Key>,
    best_depth: u16, // the best's, or the limit's
    exactly: bool,   // E1 on cost: all lists of a run cost the same, so that depth decides
    allowance: u32,  // the run's cost
    nodes: u64,
}

/// A set of gates, by their places in the table of at most 75.
type Gates = u128;

/// What a node passes down beside the state.
#[derive(Clone, Copy)]
struct Node {
    r: usize,
    budget: u32,
    rho: u32, // B3: heavy gates still needed
    sleep: Gates,
    cancel: Gates,
    targets: u8, // B5: the next gate's targets
}

impl Max<'_> {
    /// Whether the gates still to come can be this many and cost this much (E1).
    #[inline(always)]
    fn possible(&self, r: usize, budget: u32, rho: u32) -> bool {
        self.possible[r][(budget as usize).min(MAX_COST)] >> rho != 0
    }

    /// B2, where every gate still to come must be the only write to a wire that is wrong: can
    /// the next gate give some wire i the value of an output j that it doesn't match now?
    /// Only unmatched wires (outputs) count if these alone make up the gates to come.
    fn fixable<const N: usize, const FREE: bool, const K: usize>(&self, s: &State, gates: usize) -> bool {
        let job = self.job;
        let w = N + job.m;
        let dirt = dirty::<N>(&s.columns);
        let by_wires = (unmatched_wires::<N>(&s.matched) + dirt) as usize == gates;
        let by_outputs = (unmatched_outputs::<N>(&s.matched) + dirt) as usize == gates;
        let any = s.matched[0] | s.matched[1] | s.matched[2] | s.matched[3];
        let data = (0..N).filter(|&i| !by_wires || s.matched[i] == 0);
        for i in data.chain((N..w).filter(|_| dirt == 1)) {
            let mut products = [s.columns[ONES]; 16];
            let mut count = 1;
            for a in (0..w).filter(|&a| a != i) {
                products[count] = s.columns[a];
                count += 1;
                for b in (0..a).filter(|&b| b != i) {
                    products[count] = s.columns[a] & s.columns[b];
                    count += 1;
                    for c in (0..if K == 3 { b } else { 0 }).filter(|&c| c != i) {
                        products[count] = s.columns[a] & s.columns[b] & s.columns[c];
                        count += 1;
                    }
                }
            }
            if i == N {
                if products[..count].contains(&s.columns[N]) {
                    return true;
                }
                continue;
            }
            for j in if FREE { 0..N } else { i..i + 1 } {
                let wrong = (s.columns[i] ^ job.target[j]) & job.care[j];
                let skip = wrong == 0 || by_outputs && any >> j & 1 == 1;
                if !skip && products[..count].iter().any(|p| p & job.care[j] == wrong) {
                    return true;
                }
            }
        }
        false
    }

    fn offer(&mut self, s: &State, len: usize, cost: u32) {
        if let Some(layout) = self.job.layout_for(&s.matched) {
            keep(&mut self.best, (cost, len, s.depth, layout, self.path[..len].to_vec()));
            if self.exactly {
                self.best_depth = self.best.as_ref().unwrap().2;
            }
        }
    }

    fn search<const N: usize, const FREE: bool, const K: usize>(&mut self, len: usize, s: &State, node: Node) {
        self.nodes += 1;
        if !self.exactly && self.best.as_ref().map_or(false, |best| self.allowance - node.budget > best.0) {
            return;
        }
        let dirt = dirty::<N>(&s.columns);
        let wrong = unmatched_outputs::<N>(&s.matched).max(unmatched_wires::<N>(&s.matched)) + dirt;
        let wrong = wrong as usize;
        if node.r == 0 {
            if wrong == 0 {
                self.offer(s, len, self.allowance - node.budget);
            }
            return;
        }
        if wrong > node.r || wrong == node.r && !self.fixable::<N, FREE, K>(s, node.r) {
            return;
        }
        let job = self.job;
        let mut targets = node.targets;
        let mut next_targets = [0xFF; 5];
        let mut hash = 0u64;
        let mut near = false;
        if let Some(reach) = &self.reach {
            let shares: [u64; N] =
                std::array::from_fn(|i| share::<FREE>(i, s.columns[i] & job.full_rows));
            hash = shares.iter().fold(0u64, |h, x| h.wrapping_add(*x));
            near = node.r - 1 <= reach.radius;
            if node.r - 1 <= reach.radius + 1 {
                for t in (0..N).filter(|t| node.targets >> t & 1 == 1) {
                    let less = hash.wrapping_sub(shares[t]);
                    let own = reach.has(less);
                    let mut set = (own as u8) << t;
                    if !near {
                        for u in (0..N).filter(|&u| u != t) {
                            let pair = less.wrapping_sub(shares[u]);
                            set |= (reach.has(pair) as u8) << u;
                        }
                        next_targets[t] = set;
                    }
                    if set == 0 {
                        targets &= !(1 << t);
                    }
                }
            }
        }
        let asleep = node.sleep | node.cancel;
        let others = others::<N>(&s.matched);
        let idle = others_unmatched::<N>(&s.matched);
        for (g, gate) in job.gates.iter().enumerate() {
            let t = gate.target;
            let price = job.prices[gate.kind];
            if price > node.budget || asleep >> g & 1 == 1 || targets >> t & 1 == 0 {
                continue;
            }
            let product = product::<K>(&s.columns, gate);
            if product == 0 {
                continue;
            }
            let column = s.columns[t & 7] ^ product;
            let matched = if t < N { job.matches::<N, FREE>(t, column) } else { 0 };
            let outputs = N as u32 - ones(others[t] | matched);
            let wires = idle[t] + (t < N && matched == 0) as u32;
            let left = if t == N { (column != 0) as u32 } else { dirt };
            let wrong = (outputs.max(wires) + left) as usize;
            if wrong > node.r - 1 {
                continue;
            }
            let mut child = *s;
            child.columns[t & 7] = column;
            if t < N {
                child.matched[t] = matched;
            }
            if near {
                let reach = self.reach.as_ref().unwrap();
                let rows = job.full_rows;
                let hash = hash
                    .wrapping_sub(share::<FREE>(t, s.columns[t] & rows))
                    .wrapping_add(share::<FREE>(t, child.columns[t] & rows));
                if !reach.has(hash) {
                    continue;
                }
            }
            job.schedule::<K>(&mut child, gate);
            if child.depth > self.best_depth {
                continue;
            }
            let mut next = Node { r: node.r - 1, budget: node.budget - price, targets: 0xFF, ..node };
            if self.use_span && gate.kind >= 2 {
                if !self.possible(next.r, next.budget, node.rho.saturating_sub(1)) {
                    continue;
                }
                next.rho = job.span_gap::<N>(&child.columns);
            }
            if !self.possible(next.r, next.budget, next.rho) {
                continue;
            }
            let below = (1 << g) - 1;
            next.sleep = node.sleep & self.disjoint[g] | self.disjoint[g] & below;
            next.cancel = node.cancel & self.commute[g] | 1 << g;
            next.targets = next_targets[t];
            self.path[len] = gate.byte;
            self.search::<N, FREE, K>(len + 1, &child, next);
        }
    }

    /// Fills the reach filters if runs of this many gates gain by it.
    fn widen_reach<const N: usize, const FREE: bool, const K: usize>(&mut self, gates: usize) {
        for &(from, radius) in self.reach_plan {
            if gates >= from && self.reach.as_ref().map_or(true, |r| r.radius < radius) {
                let [a, b, c, d] = self.job.target;
                let target = [a, b, c, d, 0, 0xFFFF, 0, 0].map(|column| column & self.job.full_rows);
                let mut reach = Reach::new(radius);
                reach.fill::<N, FREE, K>(&self.job.gates, &target, N, radius);
                self.reach = Some(reach);
            }
        }
    }

    fn run<const N: usize, const FREE: bool, const K: usize>(&mut self, gates: usize, cost: u32) -> bool {
        let job = self.job;
        let start = job.start::<N, FREE>();
        self.best = None;
        self.best_depth = job.depth_limit;
        self.allowance = cost;
        let rho = if self.use_span { job.span_gap::<N>(&start.columns) } else { 0 };
        if !self.possible(gates, cost, rho) {
            return false;
        }
        if job.m == 0 && job.full_rows != 0 {
            self.widen_reach::<N, FREE, K>(gates);
        }
        let node = Node { r: gates, budget: cost, rho, sleep: 0, cancel: 0, targets: 0xFF };
        self.search::<N, FREE, K>(0, &start, node);
        self.best.is_some()
    }

    /// E1's table for lists of exactly this cost, or of at most this cost.
    fn fill_possible(&mut self, exactly: bool) {
        self.possible = vec![vec![0; MAX_COST + 1]; 13];
        for r in 0..=12 {
            each_bill(self.job, r, |cost, heavy| self.possible[r][cost] |= 1 << heavy);
            for budget in (1..=MAX_COST).filter(|_| !exactly) {
                self.possible[r][budget] |= self.possible[r][budget - 1];
            }
        }
    }
}

fn sets_of(gates: &[Gate], related: impl Fn(&Gate, &Gate) -> bool) -> Vec<Gates> {
    let set = |g: &Gate| {
        gates.iter().enumerate().filter(|(_, h)| related(g, h)).fold(0, |set, (i, _)| set | 1 << i)
    };
    gates.iter().map(set).collect()
}

fn new_max<'a, const K: usize>(job: &'a Job, reach_plan: &'a [(usize, usize)]) -> Max<'a> {
    let heavy = *job.prices[2..=K].iter().min().unwrap();
    let controls = |g: &Gate| g.wires & !(1 << g.target);
    Max {
        job,
        use_span: heavy > job.prices[0].min(job.prices[1]),
        possible: Vec::new(),
        commute: sets_of(&job.gates, |g, h| {
            controls(g) >> h.target & 1 == 0 && controls(h) >> g.target & 1 == 0
        }),
        disjoint: sets_of(&job.gates, |g, h| g.wires & h.wires == 0),
        reach: None,
        reach_plan,
        path: [0; 12],
        best: None,
        best_depth: 0,
        exactly: true,
        allowance: 0,
        nodes: 0,
    }
}

fn solve_full<const N: usize, const FREE: bool, const K: usize>(
    job: &Job,
    reach_plan: &[(usize, usize)],
) -> (Option<Key>, u64) {
    let mut max = new_max::<K>(job, reach_plan);
    max.exactly = false;
    max.fill_possible(false);
    let limit = job.cost_limit.min(MAX_COST as u32);
    // F: the least number of gates within all limits, and the best list of so many.
    let Some(least) = (0..=job.gate_limit).find(|&gates| max.run::<N, FREE, K>(gates, limit)) else {
        return (None, max.nodes);
    };
    let first = max.best.take().unwrap();
    // I1, I2: every lower cost, and for each the numbers of gates from the least one on.
    let sums = sums(job);
    for cost in (0..first.0).filter(|&cost| sums[cost as usize]) {
        if (least..=job.gate_limit).any(|gates| max.run::<N, FREE, K>(gates, cost)) {
            return (max.best, max.nodes);
        }
    }
    (Some(first), max.nodes)
}

fn solve_max<const N: usize, const FREE: bool, const K: usize>(
    job: &Job,
    reach_plan: &[(usize, usize)],
) -> (Option<Key>, u64) {
    let heavy = *job.prices[2..=K].iter().min().unwrap();
    let mut max = new_max::<K>(job, reach_plan);
    let limit = job.cost_limit.min(MAX_COST as u32);
    if job.prices[..=K].iter().all(|&p| p == heavy) {
        // F: the least number of gates within all limits is the answer's.
        max.fill_possible(false);
        let _ = (0..=job.gate_limit).find(|&gates| max.run::<N, FREE, K>(gates, limit));
        return (max.best, max.nodes);
    }
    max.fill_possible(true);
    for cost in 0..=limit {
        for gates in 0..=job.gate_limit {
            if max.possible[gates][cost as usize] != 0 && max.run::<N, FREE, K>(gates, cost) {
                return (max.best, max.nodes);
            }
        }
    }
    (None, max.nodes)
}

// ---------------------------------------------------------------------------- the line

fn solve<const N: usize, const FREE: bool, const K: usize>(job: &Job, options: &Options) -> (Option<Key>, u64) {
    match options.rules {
        Rules::Base => solve_base::<N, FREE, K>(job),
        Rules::Bounds => solve_bounds::<N, FREE, K>(job),
        Rules::Full => solve_full::<N, FREE, K>(job, &options.reach_plan),
        Rules::Max => solve_max::<N, FREE, K>(job, &options.reach_plan),
    }
}

fn answer(bytes: &[u8], options: &Options) -> (String, u64) {
    let number = refusal(bytes);
    if number != 0 {
        return (format!("refused {number}"), 0);
    }
    let job = job_of(bytes);
    let (best, nodes) = match (job.n, job.free, job.controls) {
        (4, _, 2) if job.m == 0 && odd(&job) => (None, 0),
        (3, false, 2) => solve::<3, false, 2>(&job, options),
        (3, true, 2) => solve::<3, true, 2>(&job, options),
        (_, false, 2) => solve::<4, false, 2>(&job, options),
        (_, true, 2) => solve::<4, true, 2>(&job, options),
        (3, false, _) => solve::<3, false, 3>(&job, options),
        (3, true, _) => solve::<3, true, 3>(&job, options),
        (_, false, _) => solve::<4, false, 3>(&job, options),
        (_, true, _) => solve::<4, true, 3>(&job, options),
    };
    let line = match best {
        None => "refused 14".to_string(),
        Some((cost, count, depth, layout, list)) => {
            let mark = (job.controls == 3) as usize;
            let mut record = vec![(job.n << 5 | job.m << 3 | mark) as u8, layout, count as u8];
            record.extend(list);
            let hex: String = record.iter().map(|byte| format!("{byte:02X}")).collect();
            format!("found {count} {cost} {depth} {hex}")
        }
    };
    (line, nodes)
}

fn options_of(mut args: impl Iterator<Item = String>) -> Option<Options> {
    let reach_plan = REACH_PLAN.to_vec();
    let mut options = Options { rules: Rules::Base, stats: false, reach_plan };
    while let Some(arg) = args.next() {
        match arg.as_str() {
            "--stats" => options.stats = true,
            "--rules" => {
                options.rules = match args.next()?.as_str() {
                    "base" => Rules::Base,
                    "bounds" => Rules::Bounds,
                    "full" => Rules::Full,
                    "max" => Rules::Max,
                    _ => return None,
                }
            }
            "--reach" => {
                let value = args.next()?;
                let (from, radius) = value.split_once(',')?;
                options.reach_plan = vec![(from.parse().ok()?, radius.parse().ok()?)];
            }
            _ => return None,
        }
    }
    Some(options)
}

fn main() {
    let Some(options) = options_of(std::env::args().skip(1)) else {
        eprintln!("usage: plain [--rules base|bounds|full|max] [--stats] [--reach FROM,RADIUS] < job");
        std::process::exit(2);
    };
    let mut bytes = Vec::new();
    let _ = std::io::stdin().lock().take(31).read_to_end(&mut bytes);
    let (line, nodes) = answer(&bytes, &options);
    println!("{line}");
    if options.stats {
        eprintln!("nodes {nodes}");
    }
}
