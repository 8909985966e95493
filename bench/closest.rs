//! The closest circuit in plain Rust, by the rules that the program has: one more miss allowed in each turn, columns of bits, the
//! misses that must stay where few gates are left, needless gates, the limits, and the best so far. Reads a job from standard
//! input and prints `misses NUMBER` and the circuit's line, as `gazbolk closest` does. Build: rustc -O closest.rs
use std::io::Read;

#[derive(Clone, Copy)]
struct Task {
    n: usize,
    free: bool,
    gate_limit: usize,
    cost_limit: u32,
    depth_limit: u32,
    care: [u16; 4],
    value: [u16; 4],
}

#[derive(Clone, Copy)]
struct Gate {
    byte: u8,
    price: u32,
    duration: u32,
}

#[derive(Clone, Copy)]
struct Node {
    columns: [u16; 5],
    times: [u32; 5],
    cost: u32,
    path: [u8; 12],
    len: usize,
    sleep: [u32; 5],  // gates that could have come earlier, by target and controls
    cancel: [u32; 5], // gates that would undo an earlier one
}

/// Cost, gates, depth, layout, bytes: compared in this order.
type Key = (u32, usize, u32, u8, [u8; 12]);

struct Search {
    task: Task,
    gates: Vec<Gate>,
    layouts: Vec<u8>,
    apart: Vec<[u32; 5]>,   // for each gate byte, those with no wire in common
    below: Vec<[u32; 5]>,   // of these, the ones with a lesser byte
    commute: Vec<[u32; 5]>, // those that commute
    misses: u32,
    best: Option<Key>,
}

fn missed(task: &Task, column: u16, j: usize) -> u32 {
    ((column ^ task.value[j]) & task.care[j]).count_ones()
}

fn wire(layout: u8, j: usize) -> usize {
    (layout >> (6 - 2 * j) & 3) as usize
}

/// The fewest misses once up to `left` more gates came.
fn at_least(task: &Task, columns: &[u16; 5], left: usize) -> u32 {
    if left >= 4 {
        return 0;
    }
    let mut least = [0u32; 4];
    for j in 0..task.n {
        least[j] = if task.free {
            (0..task.n).map(|w| missed(task, columns[w], j)).min().unwrap()
        } else {
            missed(task, columns[j], j)
        };
    }
    least.sort_unstable();
    least[..4 - left].iter().sum()
}

fn firing(columns: &[u16; 5], controls: u8) -> u16 {
    (0..5).filter(|w| controls >> w & 1 == 1).fold(0xFFFF, |all, w| all & columns[w])
}

impl Search {
    fn consider(&mut self, s: &Node, depth: u32) {
        let task = self.task;
        let rows = if task.n == 3 { 0xFF } else { 0xFFFF };
        if self.misses < at_least(&task, &s.columns, 0) || s.columns[task.n] & rows != 0 {
            return;
        }
        for &layout in &self.layouts {
            let misses: u32 = (0..task.n).map(|j| missed(&task, s.columns[wire(layout, j)], j)).sum();
            if misses <= self.misses && s.cost <= task.cost_limit && depth <= task.depth_limit {
                let key = (s.cost, s.len, depth, layout, s.path);
                if self.best.map_or(true, |best| key < best) {
                    self.best = Some(key);
                }
            }
        }
    }

    fn dear(&self, cost: u32, len: usize) -> bool {
        cost > self.task.cost_limit || self.best.map_or(false, |best| best.0 < cost || best.0 == cost && best.1 < len)
    }

    fn dfs(&mut self, s: &Node, remaining: usize) {
        let depth = *s.times.iter().max().unwrap();
        self.consider(s, depth);
        if remaining == 0 {
            return;
        }
        for i in 0..self.gates.len() {
            let gate = self.gates[i];
            let (target, controls) = ((gate.byte >> 5) as usize, gate.byte & 31);
            let mark = 1u32 << controls;
            if (s.sleep[target] | s.cancel[target]) & mark != 0 {
                continue;
            }
            let fired = firing(&s.columns, controls);
            if fired == 0 {
                continue;
            }
            let cost = s.cost + gate.price;
            if self.dear(cost, s.len + 1) {
                continue;
            }
            let mut columns = s.columns;
            columns[target] ^= fired;
            if self.misses < at_least(&self.task, &columns, remaining - 1) {
                continue;
            }
            let touched = |w: &usize| *w == target || controls >> w & 1 == 1;
            let end = (0..5).filter(touched).map(|w| s.times[w]).max().unwrap() + gate.duration;
            if end > self.task.depth_limit {
                continue;
            }
            let mut next = *s;
            next.columns = columns;
            (0..5).filter(touched).for_each(|w| next.times[w] = end);
            next.cost = cost;
            next.path[s.len] = gate.byte;
            next.len += 1;
            let byte = gate.byte as usize;
            for w in 0..5 {
                next.sleep[w] = s.sleep[w] & self.apart[byte][w] | self.below[byte][w];
                next.cancel[w] = s.cancel[w] & self.commute[byte][w];
            }
            next.cancel[target] |= mark;
            self.dfs(&next, remaining - 1);
        }
    }
}

fn main() {
    let mut b = Vec::new();
    std::io::stdin().read_to_end(&mut b).unwrap();
    let long = b.len() == 22 || b.len() == 30;
    let (n, m, free) = ((b[0] >> 5) as usize, (b[0] >> 3 & 3) as usize, b[0] >> 2 & 1 == 1);
    let kinds = if long { 4 } else { 3 };
    let (prices, rest) = b[6..].split_at(kinds);
    let (durations, rows) = rest.split_at(kinds);
    let mut task = Task {
        n,
        free,
        gate_limit: b[1] as usize,
        cost_limit: b[2] as u32 * 256 + b[3] as u32,
        depth_limit: b[4] as u32 * 256 + b[5] as u32,
        care: [0; 4],
        value: [0; 4],
    };
    for (x, row) in rows.iter().enumerate() {
        for j in 0..4 {
            task.care[j] |= ((row >> 4 >> j & 1) as u16) << x;
            task.value[j] |= ((row >> j & 1) as u16) << x;
        }
    }
    let lawful = |g: u8| {
        let (target, controls) = ((g >> 5) as usize, g & 31);
        target < n + m && controls < 1 << (n + m) && controls >> target & 1 == 0 && (controls.count_ones() as usize) < kinds
    };
    let bytes: Vec<u8> = (0..=255).filter(|&g| lawful(g)).collect();
    let gates = bytes.iter().map(|&byte| {
        let kind = (byte & 31).count_ones() as usize;
        Gate { byte, price: prices[kind] as u32, duration: durations[kind] as u32 }
    });
    let wires = |g: u8| g & 31 | 1 << (g >> 5);
    let marks = |g: u8, test: &dyn Fn(u8) -> bool| {
        let mut words = [0u32; 5];
        if bytes.contains(&g) {
            bytes.iter().filter(|&&h| test(h)).for_each(|&h| words[(h >> 5) as usize] |= 1 << (h & 31));
        }
        words
    };
    let mut layouts: Vec<u8> = vec![if n == 3 { 0x18 } else { 0x1B }];
    if free {
        layouts = (0..=255u8)
            .filter(|&p| {
                let named = (0..n).fold(0, |all, j| all | 1 << wire(p, j));
                named == (1 << n) - 1 && (n == 4 || p & 3 == 0)
            })
            .collect();
    }
    let mut search = Search {
        task,
        gates: gates.collect(),
        layouts,
        apart: (0..=255).map(|g| marks(g, &|h| wires(g) & wires(h) == 0)).collect(),
        below: (0..=255).map(|g| marks(g, &|h| wires(g) & wires(h) == 0 && h < g)).collect(),
        commute: (0..=255).map(|g| marks(g, &|h| h & 31 & 1 << (g >> 5) == 0 && g & 31 & 1 << (h >> 5) == 0)).collect(),
        misses: 0,
        best: None,
    };
    let root = Node { columns: [0xAAAA, 0xCCCC, 0xF0F0, 0xFF00, 0], times: [0; 5], cost: 0, path: [0; 12], len: 0, sleep: [0; 5], cancel: [0; 5] };
    while search.best.is_none() {
        search.dfs(&root, task.gate_limit);
        search.misses += 1;
    }
    let (cost, len, depth, layout, path) = search.best.unwrap();
    let record: String = [(n << 5 | m << 3 | long as usize) as u8, layout, len as u8].iter().chain(&path[..len]).map(|x| format!("{x:02X}")).collect();
    println!("misses {}\nfound {len} {cost} {depth} {record}", search.misses - 1);
}
