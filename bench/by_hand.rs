//! The work of the jobs that `tools/bench` times, written by hand as fast as it goes: plain loops over slices, no allocation for a task or
//! a superstep, and threads that live through all supersteps and meet at a barrier that spins before it lets others run. It prints what
//! `bsp run` prints for the job, so that the script can compare them. By `meet` threads only meet at `std::sync::Barrier`, and it prints
//! how many nanoseconds that took. Each function says at its head what it keeps of what `bsp` promises.
use std::arch::asm;
use std::cell::UnsafeCell;
use std::fmt::Write;
use std::hint::{black_box, spin_loop};
use std::ops::Range;
use std::sync::Barrier;
use std::sync::atomic::{AtomicI32, AtomicU32, AtomicUsize, Ordering::*};
use std::time::Instant;

const TASKS: usize = 4096;

fn record(out: &mut String, phase: usize, parties: usize, left: usize, spawned: usize) {
    writeln!(out, "phase {phase} parties {parties} left {left} spawned {spawned}").unwrap();
}

fn finish(mut out: String, array: &[i64], ended: usize) -> String {
    out.push_str("array a");
    for value in array {
        write!(out, " {value}").unwrap();
    }
    writeln!(out, "\nended {ended}").unwrap();
    out
}

/// The records of tasks that all sync so often, and then stop.
fn records(steps: usize) -> String {
    let mut out = String::new();
    for step in 0..=steps {
        record(&mut out, step, TASKS, if step == steps { TASKS } else { 0 }, 0);
    }
    out
}

/// Where threads meet: whoever comes last lets all go on.
struct Meeting {
    parties: usize,
    arrived: AtomicUsize,
    round: AtomicUsize,
}

impl Meeting {
    fn new(parties: usize) -> Meeting {
        Meeting { parties, arrived: AtomicUsize::new(0), round: AtomicUsize::new(0) }
    }

    fn wait(&self) {
        let round = self.round.load(Acquire);
        if self.arrived.fetch_add(1, AcqRel) + 1 == self.parties {
            self.arrived.store(0, Relaxed);
            self.round.store(round + 1, Release);
            return;
        }
        let mut looks = 0;
        while self.round.load(Acquire) == round {
            looks += 1;
            if looks < 4000 { spin_loop() } else { std::thread::yield_now() }
        }
    }
}

/// Two buffers that threads share. In each superstep all read one of them, and each thread writes its own part of the other.
struct Buffers {
    cells: [UnsafeCell<Vec<i64>>; 2],
}

// SAFETY: between two meetings of all threads, nobody writes the buffer that is read, and the parts of the other don't overlap.
unsafe impl Sync for Buffers {}

impl Buffers {
    fn new(cells: Vec<i64>) -> Buffers {
        Buffers { cells: [UnsafeCell::new(cells.clone()), UnsafeCell::new(cells)] }
    }

    fn read(&self, superstep: usize) -> &[i64] {
        // SAFETY: as said above
        unsafe { &*self.cells[superstep % 2].get() }
    }

    #[allow(clippy::mut_from_ref)]
    fn write(&self, superstep: usize, part: Range<usize>) -> &mut [i64] {
        // SAFETY: as said above; no reference to the whole buffer is made
        unsafe {
            let cells = (*self.cells[(superstep + 1) % 2].get()).as_mut_ptr();
            std::slice::from_raw_parts_mut(cells.add(part.start), part.len())
        }
    }
}

/// Runs `work` on threads, each with its number.
fn on_threads(threads: usize, work: impl Fn(usize) + Sync) {
    let work = &work;
    std::thread::scope(|scope| {
        for thread in 1..threads {
            scope.spawn(move || work(thread));
        }
        work(0);
    });
}

/// The part of `all` things that the thread of this number has.
fn part(all: usize, thread: usize, threads: usize) -> Range<usize> {
    all * thread / threads..all * (thread + 1) / threads
}

/// A task of the ring: the cell to which it puts, and its turns.
struct Shift {
    to: u32,
    turn: u32,
}

/// Keeps a task's own values and that all tasks read before any put lands; no log, since each cell is put once: two buffers.
fn ring(steps: usize) -> String {
    let mut cells: Vec<i64> = (0..TASKS as i64).collect();
    let mut next = cells.clone();
    let mut tasks: Vec<Shift> = (0..TASKS).map(|arg| Shift { to: ((arg + 1) % TASKS) as u32, turn: 0 }).collect();
    for _ in 0..steps {
        for (task, cell) in tasks.iter_mut().zip(&cells) {
            next[task.to as usize] = *cell;
            task.turn += 1;
        }
        std::mem::swap(&mut cells, &mut next);
    }
    assert!(tasks.iter().all(|task| task.turn as usize == steps));
    finish(records(steps), &cells, steps + 1)
}

/// Keeps a number in a register that the compiler doesn't know, so that no loop is folded away.
#[inline(always)]
fn unknown(mut value: i64) -> i64 {
    // SAFETY: there is no instruction
    unsafe { asm!("/* {0} */", inout(reg) value, options(nomem, nostack, preserves_flags)) };
    value
}

/// A segment that counts: an addition, a comparison and a jump a turn.
fn counted(turns: i64) -> i64 {
    let mut i = 0;
    while i < turns {
        i = unknown(i) + 1;
    }
    i
}

/// Keeps each task's loop; a task that puts to its own cell writes it.
fn many(steps: usize) -> String {
    let mut cells = vec![0; TASKS];
    for turn in 0..steps as i64 {
        for cell in cells.iter_mut() {
            *cell = counted(47) + turn;
        }
    }
    finish(records(steps), &cells, steps + 1)
}

/// The same with a second local, and the remainder of a division by 7.
fn remainder(steps: usize) -> String {
    let mut cells = vec![0; TASKS];
    for _ in 0..steps {
        for cell in cells.iter_mut() {
            let (mut i, mut j) = (0, 0);
            while i < 25 {
                j = (unknown(j) + i) % 7;
                i += 1;
            }
            *cell = j;
        }
    }
    finish(records(steps), &cells, steps + 1)
}

/// The numbers of a task's path, at most eight.
#[derive(Clone, Copy)]
struct Path {
    numbers: [u16; 8],
    length: u8,
}

impl Path {
    fn child(&self, number: u16) -> Path {
        let mut path = *self;
        path.numbers[usize::from(path.length) % 8] = number;
        path.length += 1;
        path
    }
}

struct Task {
    path: Path,
    parent: bool,
    spawned: u16,
    turn: u32,
}

/// Start tasks of these numbers.
fn parents(numbers: Range<usize>) -> Vec<Task> {
    let path = |number| Path { numbers: [number, 0, 0, 0, 0, 0, 0, 0], length: 1 };
    numbers.map(|number| Task { path: path(number as u16), parent: true, spawned: 0, turn: 0 }).collect()
}

/// One superstep: parents spawn eight each, and all others stop. Returns how many stopped and how many were spawned. The tasks stay in
/// the order of their paths.
fn spawn(tasks: &mut Vec<Task>, next: &mut Vec<Task>, steps: usize) -> (usize, usize) {
    let (mut left, mut spawned) = (0, 0);
    next.clear();
    next.reserve(9 * tasks.len());
    for task in tasks.iter() {
        if !task.parent || task.turn as usize == steps {
            left += 1;
            continue;
        }
        next.push(Task { path: task.path, parent: true, spawned: task.spawned + 8, turn: task.turn + 1 });
        next.extend((0..8).map(|i| Task { path: task.path.child(task.spawned + i), parent: false, spawned: 0, turn: 0 }));
        spawned += 8;
    }
    std::mem::swap(tasks, next);
    black_box(tasks);
    (left, spawned)
}

/// Keeps paths, their order and the records of supersteps.
fn spawns(steps: usize) -> String {
    let (mut tasks, mut next, mut out) = (parents(0..455), Vec::new(), String::new());
    let mut step = 0;
    while !tasks.is_empty() {
        let live = tasks.len();
        let (left, spawned) = spawn(&mut tasks, &mut next, steps);
        record(&mut out, step, live + spawned, left, spawned);
        step += 1;
    }
    finish(out, &[0], step)
}

/// Keeps paths and records, and the order of paths on each thread alone: a task stays on the thread that spawned it.
fn spawns_on_threads(steps: usize, threads: usize) -> String {
    let meeting = Meeting::new(threads);
    let counts = std::sync::Mutex::new(vec![(0, 0, 0); steps + 1]);
    on_threads(threads, |thread| {
        let (mut tasks, mut next) = (parents(part(455, thread, threads)), Vec::new());
        let mut own = Vec::with_capacity(steps + 1);
        for _ in 0..=steps {
            let live = tasks.len();
            let (left, spawned) = spawn(&mut tasks, &mut next, steps);
            own.push((live, left, spawned));
            meeting.wait();
        }
        for (all, own) in counts.lock().unwrap().iter_mut().zip(own) {
            *all = (all.0 + own.0, all.1 + own.1, all.2 + own.2);
        }
    });
    let mut out = String::new();
    for (step, (live, left, spawned)) in counts.into_inner().unwrap().into_iter().enumerate() {
        record(&mut out, step, live + spawned, left, spawned);
    }
    finish(out, &[0], steps + 1)
}

/// Keeps each task's loop, and that threads meet after each superstep.
fn turns(steps: usize, turns: i64, threads: usize) -> String {
    let meeting = Meeting::new(threads);
    let buffers = Buffers::new(vec![0; TASKS]);
    on_threads(threads, |thread| {
        for turn in 0..steps as i64 {
            // Always the second buffer: nobody reads.
            for cell in buffers.write(0, part(TASKS, thread, threads)) {
                *cell = counted(turns) + turn;
            }
            meeting.wait();
        }
    });
    finish(records(steps), buffers.read(1), steps + 1)
}

/// The cells of a rod between two others: `from` has one cell more at each end than `to`.
fn cool(to: &mut [i64], from: &[i64]) {
    for (cell, three) in to.iter_mut().zip(from.windows(3)) {
        *cell = three[0].wrapping_add(three[2]).wrapping_add(three[1]).wrapping_add(three[1]) / 4;
    }
}

fn rod_at_first() -> Vec<i64> {
    let mut cells = vec![0i64; 4096];
    cells[0] = 1_000_000_000_000;
    cells
}

/// A rod of 4096 cells that cools, in two buffers; or in 46 blocks whose rows are logged in one buffer, and land when all are computed.
fn rod(supersteps: usize, logged: bool) -> String {
    let mut cells = rod_at_first();
    let mut next = cells.clone();
    for _ in 0..supersteps {
        if logged {
            for block in 0..46 {
                let row = block * 89 + 1..block * 89 + 90;
                cool(&mut next[row.clone()], &cells[row.start - 1..row.end + 1]);
            }
            for block in 0..46 {
                let row = block * 89 + 1..block * 89 + 90;
                cells[row.clone()].copy_from_slice(&next[row]);
            }
        } else {
            cool(&mut next[1..4095], &cells);
            std::mem::swap(&mut cells, &mut next);
        }
    }
    three_numbers(&cells)
}

/// The same rod in two buffers, in equal parts on threads that meet after each superstep.
fn rod_on_threads(supersteps: usize, threads: usize) -> String {
    let meeting = Meeting::new(threads);
    let buffers = Buffers::new(rod_at_first());
    on_threads(threads, |thread| {
        let own = part(4094, thread, threads);
        for step in 0..supersteps {
            let from = &buffers.read(step)[own.start..own.end + 2];
            cool(buffers.write(step, own.start + 1..own.end + 1), from);
            meeting.wait();
        }
    });
    three_numbers(buffers.read(supersteps))
}

/// Two cells, and how many hold something.
fn three_numbers(cells: &[i64]) -> String {
    format!("{} {} {}\n", cells[10], cells[70], cells.iter().filter(|cell| **cell != 0).count())
}

const WIDTH: usize = 512;

/// A row of the game of life from three rows: first the sums of columns, then those of three columns.
fn live(to: &mut [i64], above: &[i64], own: &[i64], below: &[i64]) {
    let mut sums = [0i64; WIDTH + 2];
    for (sum, ((above, own), below)) in sums[1..=WIDTH].iter_mut().zip(above.iter().zip(own).zip(below)) {
        *sum = above + own + below;
    }
    for ((cell, own), three) in to.iter_mut().zip(own).zip(sums.windows(3)) {
        let around = three[0] + three[1] + three[2];
        *cell = i64::from(around == 3) | i64::from(around == 4) & own;
    }
}

/// The game of life on 512 rows of 512 cells, in two buffers, in equal parts on threads that meet after each superstep.
fn life(supersteps: usize, threads: usize) -> String {
    let mut cells = vec![0i64; WIDTH * WIDTH];
    for place in [130_817, 130_818, 131_328, 131_329, 131_841] {
        cells[place] = 1;
    }
    let meeting = Meeting::new(threads);
    let buffers = Buffers::new(cells);
    on_threads(threads, |thread| {
        let rows = part(WIDTH, thread, threads);
        let empty = [0i64; WIDTH];
        for step in 0..supersteps {
            let from = buffers.read(step);
            let at = |row: usize| if row < WIDTH { &from[row * WIDTH..(row + 1) * WIDTH] } else { &empty };
            let to = buffers.write(step, rows.start * WIDTH..rows.end * WIDTH);
            for (row, line) in rows.clone().zip(to.chunks_exact_mut(WIDTH)) {
                live(line, at(row.wrapping_sub(1)), at(row), at(row + 1));
            }
            meeting.wait();
        }
    });
    three_numbers(buffers.read(supersteps))
}

/// The nodes that one superstep of a search has found, by threads that reserve places in blocks.
struct Found {
    nodes: Vec<AtomicU32>,
    count: AtomicUsize,
}

impl Found {
    fn new(nodes: usize) -> Found {
        Found { nodes: (0..nodes).map(|_| AtomicU32::new(0)).collect(), count: AtomicUsize::new(0) }
    }

    fn append(&self, nodes: &mut Vec<u32>) {
        let at = self.count.fetch_add(nodes.len(), Relaxed);
        for (place, node) in self.nodes[at..].iter().zip(nodes.drain(..)) {
            place.store(node, Relaxed);
        }
    }
}

/// A search in a graph of `nodes` nodes, each with two edges. Each superstep takes the nodes that the one before has found, in equal
/// parts on threads that meet.
fn search(nodes: usize, threads: usize) -> String {
    let distances: Vec<AtomicI32> = (0..nodes).map(|node| AtomicI32::new(if node == 0 { 0 } else { -1 })).collect();
    let found = [Found::new(nodes), Found::new(nodes), Found::new(nodes)];
    found[0].append(&mut vec![0]);
    let meeting = Meeting::new(threads);
    on_threads(threads, |thread| {
        let mut own = Vec::with_capacity(512);
        for now in 0.. {
            let (from, to, after) = (&found[now % 3], &found[(now + 1) % 3], &found[(now + 2) % 3]);
            let count = from.count.load(Relaxed);
            if count == 0 {
                return;
            }
            // Nobody has this list any more, and nobody has it yet.
            after.count.store(0, Relaxed);
            for node in &from.nodes[part(count, thread, threads)] {
                let node = node.load(Relaxed) as usize;
                for neighbour in [(2 * node + 1) % nodes, (3 * node + 7) % nodes] {
                    let distance = &distances[neighbour];
                    if distance.load(Relaxed) == -1 && distance.compare_exchange(-1, now as i32 + 1, Relaxed, Relaxed).is_ok() {
                        own.push(neighbour as u32);
                        if own.len() == 512 {
                            to.append(&mut own);
                        }
                    }
                }
            }
            to.append(&mut own);
            meeting.wait();
        }
    });
    let cells: Vec<i64> = distances.iter().map(|cell| i64::from(cell.load(Relaxed))).collect();
    three_numbers(&cells)
}

/// Threads that meet at a barrier `phases` times.
fn meet(threads: usize, phases: usize) -> String {
    let barrier = Barrier::new(threads);
    let start = Instant::now();
    std::thread::scope(|scope| {
        for _ in 0..threads {
            scope.spawn(|| {
                for _ in 0..phases {
                    barrier.wait();
                }
            });
        }
    });
    format!("{}\n", start.elapsed().as_nanos())
}

fn main() {
    let words: Vec<String> = std::env::args().collect();
    let number = |i: usize| words[i].parse::<usize>().unwrap();
    let steps = number(2);
    let out = match words[1].as_str() {
        "ring" => ring(steps),
        "many" => many(steps),
        "remainder" => remainder(steps),
        "spawns" => spawns(steps),
        "spawns_on_threads" => spawns_on_threads(steps, number(3)),
        "turns" => turns(steps, number(3) as i64, number(4)),
        "rod" => rod(steps, false),
        "rows" => rod(steps, true),
        "life" => life(steps, number(3)),
        "search" => search(steps, number(3)),
        "rod_on_threads" => rod_on_threads(steps, number(3)),
        "meet" => meet(number(2), number(3)),
        other => panic!("no such job: {other}"),
    };
    print!("{out}");
}
