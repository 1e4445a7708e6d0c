//! The rod, the game of life and the search that `tools/bench` times on workers, with rayon: as many blocks, and two buffers. It
//! prints what `by_hand.rs` prints.
use rayon::prelude::*;
use std::sync::atomic::{AtomicBool, AtomicI64, Ordering::Relaxed};

fn rod(supersteps: usize) -> Vec<i64> {
    let mut cells = vec![0i64; 4096];
    cells[0] = 1_000_000_000_000;
    let mut next = cells.clone();
    for _ in 0..supersteps {
        next[1..4095].par_chunks_mut(89).enumerate().for_each(|(block, part)| {
            let from = &cells[block * 89..block * 89 + part.len() + 2];
            for (cell, three) in part.iter_mut().zip(from.windows(3)) {
                *cell = three[0].wrapping_add(three[2]).wrapping_add(three[1]).wrapping_add(three[1]) / 4;
            }
        });
        std::mem::swap(&mut cells, &mut next);
    }
    cells
}

const WIDTH: usize = 512;

/// A row of the game of life from three rows: first the sums of columns, then those of three columns.
fn live(to: &mut [i64], above: &[i64], own: &[i64], below: &[i64]) {
    let mut sums = [0i64; WIDTH + 2];
    for (sum, ((above, own), below)) in sums[1..=WIDTH].iter_mut().zip(above.iter().zip(own).zip(below)) {
        *sum = above + own + below;
    }
    for ((cell, own), three) in to.iter_mut().zip(own).zip(sums.windows(3)) {
        let around = three[0] + three[1] + three[2];
        *cell = i64::from(around == 3) | i64::from(around == 4) & own;
    }
}

fn life(supersteps: usize) -> Vec<i64> {
    let mut cells = vec![0i64; WIDTH * WIDTH];
    for place in [130_817, 130_818, 131_328, 131_329, 131_841] {
        cells[place] = 1;
    }
    let mut next = cells.clone();
    let empty = [0i64; WIDTH];
    for _ in 0..supersteps {
        next.par_chunks_mut(WIDTH * 32).enumerate().for_each(|(block, part)| {
            let at = |row: usize| if row < WIDTH { &cells[row * WIDTH..(row + 1) * WIDTH] } else { &empty };
            for (row, line) in part.chunks_exact_mut(WIDTH).enumerate() {
                let row = block * 32 + row;
                live(line, at(row.wrapping_sub(1)), at(row), at(row + 1));
            }
        });
        std::mem::swap(&mut cells, &mut next);
    }
    cells
}

fn search(nodes: usize) -> Vec<i64> {
    let distances: Vec<AtomicI64> = (0..nodes).map(|node| AtomicI64::new(if node == 0 { 0 } else { -1 })).collect();
    let found = AtomicBool::new(true);
    let mut now = 0;
    while found.swap(false, Relaxed) {
        (0..20).into_par_iter().for_each(|block| {
            for node in nodes * block / 20..nodes * (block + 1) / 20 {
                if distances[node].load(Relaxed) != now {
                    continue;
                }
                for neighbour in [(2 * node + 1) % nodes, (3 * node + 7) % nodes] {
                    if distances[neighbour].load(Relaxed) == -1 {
                        distances[neighbour].store(now + 1, Relaxed);
                        found.store(true, Relaxed);
                    }
                }
            }
        });
        now += 1;
    }
    distances.into_iter().map(AtomicI64::into_inner).collect()
}

fn main() {
    let words: Vec<String> = std::env::args().collect();
    let number = |i: usize| words[i].parse::<usize>().unwrap();
    let threads = rayon::ThreadPoolBuilder::new().num_threads(number(3)).build().unwrap();
    let cells = threads.install(|| match words[1].as_str() {
        "rod" => rod(number(2)),
        "life" => life(number(2)),
        "search" => search(number(2)),
        other => panic!("no such job: {other}"),
    });
    println!("{} {} {}", cells[10], cells[70], cells.iter().filter(|cell| **cell != 0).count());
}
