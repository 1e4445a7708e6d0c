//! Four tasks in a ring: in each of three supersteps, each takes its neighbour's cell.
use bsp::{Ending, Out, Steps, StepsEnd, StepsError, TaskBody, View};

struct Ring;

impl TaskBody for Ring {
    type Kept = usize;

    fn run(&self, own: &mut usize, view: &View<'_>, out: &mut Out<usize>) -> Ending {
        out.put(0, *own as u32, view.cells(0)[(*own + 1) % 4]);
        if view.step() < 2 { Ending::GoesOn } else { Ending::Stops }
    }
}

fn main() -> Result<(), StepsError> {
    let mut run = Steps::new(&[("ring", &[1, 2, 3, 4])], vec![0, 1, 2, 3], 4, 1000)?;
    assert_eq!(run.run(&Ring, 4)?, StepsEnd::Ended(3));
    run.cells(0).iter().copied().flatten().for_each(|cell| print!("{cell} "));
    println!();
    Ok(())
}
