//! A shop, in supersteps: shop THREADS [report]. A door spawns customers; each is served for some supersteps, and goes. The output is
//! that of crates/example_bodies, and the same with any number of threads; with `report` it is the report of the run.
use bsp::{Ending, Out, Steps, StepsEnd, StepsError, TaskBody, View};

const CAME: u32 = 0;
const WENT: u32 = 1;
const TIME: u32 = 2;

#[derive(Debug)]
enum Role {
    /// Lets customers in. The number is the state of a random sequence.
    Door(u32),
    /// Is served for this number of supersteps.
    Customer(u32),
}

struct Shop {
    open: u32,
}

impl TaskBody for Shop {
    type Kept = Role;

    fn run(&self, role: &mut Role, view: &View<'_>, out: &mut Out<Role>) -> Ending {
        match role {
            Role::Door(state) => {
                *state = state.wrapping_mul(1664525).wrapping_add(1013904223);
                for _ in 0..*state >> 30 {
                    out.add(0, CAME, 1);
                    out.spawn(Role::Customer(1 + (*state >> 20) % 8));
                }
                if view.step() < self.open { Ending::GoesOn } else { Ending::Stops }
            }
            Role::Customer(left) => {
                out.add(0, TIME, 1);
                *left -= 1;
                if *left > 0 {
                    return Ending::GoesOn;
                }
                out.add(0, WENT, 1);
                Ending::Stops
            }
        }
    }
}

struct Fails;

impl TaskBody for Fails {
    type Kept = u8;

    fn run(&self, number: &mut u8, _view: &View<'_>, out: &mut Out<u8>) -> Ending {
        out.put(0, 0, 7);
        Ending::Fails(*number)
    }
}

// What is used wrongly says so.
fn misused() -> Result<(), StepsError> {
    assert_eq!(Steps::new(&[("a", &[1]), ("a", &[1])], vec![0u8], 1, 1).err(), Some(StepsError::Arrays));
    assert_eq!(Steps::new(&[], vec![0u8; 3], 2, 1).err(), Some(StepsError::Tasks));
    let mut run = Steps::new(&[("a", &[1, 2]), ("b", &[])], vec![20], 1, 9)?;
    assert_eq!(run.text(), Err(StepsError::Going));
    assert_eq!(run.run(&Fails, 3)?, StepsEnd::Fault { code: 20, step: 0, path: vec![0] });
    assert_eq!(run.cells(0), Some(&[1, 2][..]));
    assert_eq!(run.cells(1), Some(&[][..]));
    assert_eq!(run.cells(2), None);
    assert_eq!(run.text()?, "array a 1 2\narray b\nfault 20 step 0 path 0\n");
    let mut wrong = Steps::new(&[("a", &[1])], vec![3], 1, 9)?;
    assert_eq!(wrong.run(&Fails, 1), Err(StepsError::Ending));
    Ok(())
}

fn main() -> Result<(), StepsError> {
    misused()?;
    let threads = std::env::args().nth(1).map_or(1, |word| word.parse().expect("a number of threads"));
    let mut run = Steps::new(&[("shop", &[0, 0, 0])], vec![Role::Door(1)], 1000, 10000)?;
    let end = run.run(&Shop { open: 999 }, threads)?;
    let StepsEnd::Ended(steps) = end else { panic!("{end:?}") };
    if std::env::args().nth(2).is_some() {
        print!("{}", run.text()?);
        return Ok(());
    }
    let cells = run.cells(0).expect("there is an array");
    println!("shop: {steps} supersteps, {} came, {} went, {} in all", cells[CAME as usize], cells[WENT as usize], cells[TIME as usize]);
    Ok(())
}
