//! Four programs in supersteps: bodies rod|life|search|ranks THREADS [report]. Heat in a rod, the game of life, a search in a graph,
//! and the ranks of its nodes; each task has a block of cells. The output is that of crates/example_bodies, and the same with any
//! number of threads; with `report` it is the report of the run.
use bsp::{Ending, Out, Steps, StepsEnd, StepsError, TaskBody, View};
use std::ops::Range;

type Block = Range<usize>;

fn until(last: u32, view: &View<'_>) -> Ending {
    if view.step() < last { Ending::GoesOn } else { Ending::Stops }
}

/// A cell becomes the mean of its own value, twice, and its neighbours'.
struct Rod;

impl TaskBody for Rod {
    type Kept = Block;

    fn run(&self, block: &mut Block, view: &View<'_>, out: &mut Out<Block>) -> Ending {
        let rod = view.cells(0);
        for i in block.clone() {
            out.put(0, i as u32, (rod[i - 1] + rod[i + 1] + 2 * rod[i]) / 4);
        }
        until(999, view)
    }
}

const WIDTH: i64 = 512;

/// The game of life; there are no cells beyond the board.
struct Life;

impl TaskBody for Life {
    type Kept = Block;

    fn run(&self, rows: &mut Block, view: &View<'_>, out: &mut Out<Block>) -> Ending {
        let board = view.cells(0);
        let within = 0..WIDTH;
        let at = |row: i64, column: i64| if within.contains(&row) && within.contains(&column) { board[(row * WIDTH + column) as usize] } else { 0 };
        for row in rows.start as i64..rows.end as i64 {
            for column in 0..WIDTH {
                let own = at(row, column);
                let around: i64 = (-1..=1).flat_map(|i| (-1..=1).map(move |j| (row + i, column + j))).map(|(i, j)| at(i, j)).sum();
                out.put(0, (row * WIDTH + column) as u32, i64::from(around - own == 3 || (around - own == 2 && own == 1)));
            }
        }
        until(29, view)
    }
}

fn neighbours(node: usize, nodes: usize) -> [u32; 2] {
    [(2 * node + 1) % nodes, (3 * node + 7) % nodes].map(|it| it as u32)
}

/// Array 0 has the distances, -1 where no way is known; array 1 in how many supersteps new nodes were found.
struct Search;

impl TaskBody for Search {
    type Kept = Block;

    fn run(&self, nodes: &mut Block, view: &View<'_>, out: &mut Out<Block>) -> Ending {
        let distances = view.cells(0);
        let now = i64::from(view.step());
        let mut found = false;
        for node in nodes.clone().filter(|&it| distances[it] == now) {
            for to in neighbours(node, distances.len()).into_iter().filter(|&it| distances[it as usize] == -1) {
                out.put(0, to, now + 1);
                found = true;
            }
        }
        if found {
            out.put(1, 0, now + 1);
        }
        if now == 0 || view.cells(1)[0] == now { Ending::GoesOn } else { Ending::Stops }
    }
}

/// In one superstep nodes add to the sums of their neighbours, in the next each takes 85 in a hundred of its sum.
struct Ranks;

impl TaskBody for Ranks {
    type Kept = Block;

    fn run(&self, nodes: &mut Block, view: &View<'_>, out: &mut Out<Block>) -> Ending {
        let (ranks, sums) = (view.cells(0), view.cells(1));
        for node in nodes.clone() {
            if view.step() % 2 == 0 {
                neighbours(node, ranks.len()).into_iter().for_each(|to| out.add(1, to, ranks[node] / 2));
            } else {
                out.put(0, node as u32, sums[node] / 100 * 85 + 150_000_000);
                out.put(1, node as u32, 0);
            }
        }
        until(39, view)
    }
}

// So many blocks of one size.
fn cut(count: usize, size: usize, first: usize) -> Vec<Block> {
    (0..count).map(|i| first + i * size..first + (i + 1) * size).collect()
}

// The cells of an array: the first, and all others.
fn cells_of(count: usize, first: i64, others: i64) -> Vec<i64> {
    let mut cells = vec![others; count];
    cells[0] = first;
    cells
}

// A program: its arrays, its tasks, what they do, and what it prints.
type Program = (Vec<(&'static str, Vec<i64>)>, Vec<Block>, Box<dyn TaskBody<Kept = Block>>, fn(u32, &[Vec<i64>]) -> String);

fn named(name: &str) -> Program {
    match name {
        "rod" => (vec![("rod", cells_of(4096, 1_000_000_000_000, 0))], cut(46, 89, 1), Box::new(Rod), |steps, them| {
            format!("rod: {steps} supersteps, cells {} {}", them[0][10], them[0][70])
        }),
        "life" => {
            let mut board = vec![0; 512 * 512];
            [130_817, 130_818, 131_328, 131_329, 131_841].into_iter().for_each(|place: usize| board[place] = 1);
            (vec![("board", board)], cut(16, 32, 0), Box::new(Life), |steps, them| {
                format!("life: {} cells live after {steps} supersteps", them[0].iter().filter(|&&it| it != 0).count())
            })
        }
        "search" => (vec![("distances", cells_of(100_000, 0, -1)), ("rounds", vec![0])], cut(20, 5000, 0), Box::new(Search), |steps, them| {
            let reached = them[0].iter().filter(|&&it| it >= 0).count();
            format!("search: {steps} supersteps, {reached} nodes reached, the last ones at distance {}", them[1][0])
        }),
        _ => (vec![("ranks", vec![1_000_000_000; 1000]), ("sums", vec![0; 1000])], cut(10, 100, 0), Box::new(Ranks), |_, them| {
            format!("ranks: {} {} {}", them[0][0], them[0][1], them[0][7])
        }),
    }
}

fn main() -> Result<(), StepsError> {
    let words: Vec<String> = std::env::args().collect();
    let (arrays, tasks, body, line) = named(words.get(1).map_or("rod", String::as_str));
    let threads = words.get(2).map_or(1, |word| word.parse().expect("a number of threads"));
    let given: Vec<(&str, &[i64])> = arrays.iter().map(|(name, cells)| (*name, &cells[..])).collect();
    let most = tasks.len() as u32;
    let mut run = Steps::new(&given, tasks, most, 10000)?;
    let end = run.run(&*body, threads)?;
    let StepsEnd::Ended(steps) = end else { panic!("{end:?}") };
    if words.len() > 3 {
        print!("{}", run.text()?);
        return Ok(());
    }
    let cells: Vec<Vec<i64>> = (0..arrays.len()).map(|array| run.cells(array).expect("there is one").to_vec()).collect();
    println!("{}", line(steps, &cells));
    Ok(())
}
