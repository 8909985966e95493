// A plain version of `gazbolk rewrite`, to measure the program against: rustc -O rewrite.rs; rewrite FILE [--restart]
// Each window is searched by depth first over columns, with two cuts: the cost has to stay below the window's, and no more wires may be wrong
// than gates are left. With --restart the scan begins anew after each replacement. Prints what the program prints, and the seconds to stderr.
use std::time::Instant;

struct Search {
    wires: usize,
    gates: Vec<u8>,
    prices: [u32; 3],
    wanted: [u16; 4],
    best: Option<(u32, usize, u32, Vec<u8>)>,
    below: u32,
    looked: u64,
}

fn price(prices: &[u32; 3], gate: u8) -> u32 {
    prices[(gate & 31).count_ones() as usize]
}

fn stepped(gate: u8, columns: &[u16; 4], all: u16) -> [u16; 4] {
    let mut fires = all;
    for w in 0..4 {
        if gate >> w & 1 == 1 {
            fires &= columns[w];
        }
    }
    let mut next = *columns;
    next[(gate >> 5) as usize] ^= fires;
    next
}

fn start(wires: usize) -> ([u16; 4], u16) {
    let all = if wires == 4 { 0xFFFF } else { 0xFF };
    let mut columns = [0u16; 4];
    for w in 0..wires {
        for x in 0..1usize << wires {
            columns[w] |= ((x >> w & 1) as u16) << x;
        }
    }
    (columns, all)
}

fn held(gate: u8, times: &[u32; 4]) -> [u32; 4] {
    let target = (gate >> 5) as usize;
    let on = |w: usize| w == target || gate >> w & 1 == 1;
    let end = 1 + (0..4).filter(|&w| on(w)).map(|w| times[w]).max().unwrap();
    let mut next = *times;
    for w in 0..4 {
        if on(w) {
            next[w] = end;
        }
    }
    next
}

impl Search {
    fn go(&mut self, columns: [u16; 4], times: [u32; 4], cost: u32, path: &mut Vec<u8>, left: usize, all: u16) {
        let wrong = (0..self.wires).filter(|&w| columns[w] != self.wanted[w]).count();
        if wrong > left || cost >= self.below && self.best.is_none() {
            return;
        }
        if let Some(b) = &self.best {
            if cost > b.0 {
                return;
            }
        }
        self.looked += 1;
        if wrong == 0 && cost < self.below {
            let key = (cost, path.len(), *times.iter().max().unwrap(), path.clone());
            if self.best.as_ref().map_or(true, |b| key < *b) {
                self.best = Some(key);
            }
        }
        if left == 0 {
            return;
        }
        for i in 0..self.gates.len() {
            let g = self.gates[i];
            path.push(g);
            let p = price(&self.prices, g);
            self.go(stepped(g, &columns, all), held(g, &times), cost + p, path, left - 1, all);
            path.pop();
        }
    }
}

fn lawful(wires: usize, gate: u8) -> bool {
    let (target, mask) = ((gate >> 5) as usize, gate & 31);
    target < wires && mask < 1 << wires && mask >> target & 1 == 0 && mask.count_ones() <= 2
}

fn main() {
    let words: Vec<String> = std::env::args().collect();
    let file = std::fs::read(&words[1]).expect("a file");
    let restart = words.iter().any(|w| w == "--restart");
    let (wires, window) = (file[0] as usize, file[1] as usize);
    let prices = [file[2] as u32, file[3] as u32, file[4] as u32];
    let mut list = file[5..].to_vec();
    let all_cost = |l: &[u8]| l.iter().map(|&g| price(&prices, g)).sum::<u32>();
    println!("before {} {}", list.len(), all_cost(&list));
    let gates: Vec<u8> = (0..=255).filter(|&g| lawful(wires, g)).collect();
    let begin = Instant::now();
    let (mut i, mut windows, mut looked) = (0, 0u64, 0u64);
    while i + window <= list.len() {
        let part = list[i..i + window].to_vec();
        let (first, all) = start(wires);
        let mut wanted = first;
        for &g in &part {
            wanted = stepped(g, &wanted, all);
        }
        let mut s = Search { wires, gates: gates.clone(), prices, wanted, best: None, below: all_cost(&part), looked: 0 };
        s.go(first, [0; 4], 0, &mut Vec::new(), window, all);
        windows += 1;
        looked += s.looked;
        if let Some(b) = s.best {
            list.splice(i..i + window, b.3);
            i = if restart { 0 } else { (i + 1).saturating_sub(window) };
        } else {
            i += 1;
        }
    }
    eprintln!("{:.3} seconds, {} windows, {} lists", begin.elapsed().as_secs_f64(), windows, looked);
    println!("after {} {}", list.len(), all_cost(&list));
    println!("{}", list.iter().map(|g| format!("{:02X}", g)).collect::<String>());
}
