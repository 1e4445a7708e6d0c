//! A run whose supersteps are closed by deeds, and what is to be read of it.
use crate::job::{Print, Superstep};
use crate::steps::{Ending, StepsEnd, StepsError, done};
use crate::sys;
use std::cell::UnsafeCell;
use std::marker::PhantomData;

/// What a live task left in a superstep.
#[derive(Clone, Copy, Debug)]
pub struct Deed<'a> {
    /// Its puts, in order.
    pub puts: &'a [sys::Put],
    /// What it printed, in order.
    pub prints: &'a [i64],
    /// How many tasks it spawned.
    pub spawns: u16,
    /// How it ends the superstep.
    pub ending: Ending,
}

impl Deed<'_> {
    /// Appends the deed as bytes, as [`StepsRun::close_packed`] reads them. Puts side by side become rows.
    pub fn pack(&self, to: &mut Vec<u8>) {
        let mut rest = self.puts;
        while let Some((put, after)) = rest.split_first() {
            let goes_on = |(place, next): &(usize, &sys::Put)| {
                put.adds == 0 && next.adds == 0 && next.array == put.array && u64::from(next.index) == u64::from(put.index) + *place as u64 + 1
            };
            let more = after.iter().enumerate().take_while(goes_on).count().min(u32::MAX as usize - 1);
            let (row, later) = rest.split_at(more + 1);
            to.push(if more > 0 { 3 } else if put.adds != 0 { 2 } else { 1 });
            to.extend(put.array.to_le_bytes());
            to.extend(put.index.to_le_bytes());
            if more > 0 {
                to.extend((row.len() as u32).to_le_bytes());
            }
            row.iter().for_each(|it| to.extend(it.value.to_le_bytes()));
            rest = later;
        }
        for print in self.prints {
            to.push(4);
            to.extend(print.to_le_bytes());
        }
        to.extend([0, self.ending.number()]);
        to.extend(self.spawns.to_le_bytes());
    }

    fn given(&self) -> sys::Deed<'_> {
        sys::Deed {
            puts: self.puts.as_ptr(),
            put_count: self.puts.len(),
            prints: self.prints.as_ptr(),
            print_count: self.prints.len(),
            spawns: self.spawns,
            ending: self.ending.number(),
            of: PhantomData,
        }
    }
}

/// How a superstep left the run.
#[derive(Clone, Debug, PartialEq, Eq)]
pub enum StepTaken {
    /// The run goes on.
    GoesOn,
    /// The run is over.
    Over(StepsEnd),
}

/// Where a live task comes from.
#[derive(Clone, Copy, Debug, PartialEq, Eq)]
pub enum Origin {
    /// It had this place in the superstep before. A start task has its own place.
    Stayed { place: usize },
    /// It was spawned in the superstep before, by the task at this place, which had spawned so many tasks before it in it.
    Spawned { place: usize, number: u16 },
}

/// A run that you close with deeds. Its reading calls change nothing, and what they lend stays until the next superstep.
///
/// ```
/// use bsp::{Deed, Ending, StepTaken, StepsEnd, StepsRun, sys::Put};
///
/// let mut run = StepsRun::new(&[("a", &[1, 2])], 1, 1, 9)?;
/// let put = [Put { array: 0, adds: 1, index: 1, value: 5 }];
/// let deed = Deed { puts: &put, prints: &[7], spawns: 0, ending: Ending::GoesOn };
/// assert_eq!(run.close(&[deed])?, StepTaken::GoesOn);
/// assert_eq!((run.cells(0), run.prints()[0].value), (Some(&[1, 7][..]), 7));
/// let deed = Deed { puts: &[], prints: &[], spawns: 0, ending: Ending::Stops };
/// assert_eq!(run.close(&[deed])?, StepTaken::Over(StepsEnd::Ended(2)));
/// assert_eq!(run.close(&[]), Err(bsp::StepsError::Over));
/// # Ok::<(), bsp::StepsError>(())
/// ```
#[derive(Debug)]
pub struct StepsRun {
    // Only `close` and `drop` change it, which borrow it mutably.
    slot: UnsafeCell<sys::Slot>,
}

impl StepsRun {
    /// Begins a run of these arrays and of so many start tasks. At most `most` tasks may live at once, and at most `limit` supersteps are
    /// taken. With no start task, or a limit of 0, the run is over at once.
    pub fn new(arrays: &[(&str, &[i64])], starts: u32, most: u32, limit: u32) -> Result<StepsRun, StepsError> {
        let given: Vec<sys::Array> =
            arrays.iter().map(|(name, cells)| sys::Array { name: name.as_ptr(), name_len: name.len(), cells: cells.as_ptr(), len: cells.len() }).collect();
        let mut slot = sys::Slot::default();
        // SAFETY: the pointers are of slices with these lengths, and nothing was opened in the slot
        done(unsafe { sys::bsp_steps_open(given.as_ptr(), given.len(), starts, most, limit, &mut slot) })?;
        Ok(StepsRun { slot: UnsafeCell::new(slot) })
    }

    fn look(&self) -> sys::Look {
        let mut look = sys::Look::default();
        // SAFETY: the slot is open. A reading call leaves it as it is, and no other call uses it now: the type isn't `Sync`
        unsafe { sys::bsp_steps_look(self.slot.get(), &mut look) };
        look
    }

    /// How many supersteps were taken.
    pub fn taken(&self) -> u32 {
        self.look().step
    }

    /// How many tasks live.
    pub fn live(&self) -> usize {
        self.look().live
    }

    /// How many arrays there are.
    pub fn arrays(&self) -> usize {
        self.look().arrays
    }

    /// How the run is over, if it is.
    pub fn end(&self) -> Option<StepsEnd> {
        let look = self.look();
        match look.status {
            0 => None,
            1 => Some(StepsEnd::Ended(look.step)),
            2 => {
                let (mut code, mut lent) = (0, sys::Path::default());
                // SAFETY: as in `look`; the path is copied before the next call
                unsafe { sys::bsp_steps_fault(self.slot.get(), &mut code, &mut lent) };
                Some(StepsEnd::Fault { code, step: look.step, path: copied(lent) })
            }
            _ => Some(StepsEnd::Limit(look.step)),
        }
    }

    /// The cells of the array at this place, if there is one.
    pub fn cells(&self, array: usize) -> Option<&[i64]> {
        let mut lent = sys::Cells::default();
        // SAFETY: as in `look`; what is lent stays until the next close, for which `self` has to be borrowed mutably
        match unsafe { sys::bsp_steps_cells(self.slot.get(), array, &mut lent) } {
            0 if lent.len > 0 => Some(unsafe { std::slice::from_raw_parts(lent.at, lent.len) }),
            0 => Some(&[]),
            _ => None,
        }
    }

    /// The path of the live task at this place, if there is one.
    pub fn path(&self, task: usize) -> Option<Vec<u16>> {
        let mut lent = sys::Path::default();
        // SAFETY: as in `end`
        (unsafe { sys::bsp_steps_path(self.slot.get(), task, &mut lent) } == 0).then(|| copied(lent))
    }

    /// Where the live task at this place comes from, if there is one.
    pub fn origin(&self, task: usize) -> Option<Origin> {
        let mut from = sys::Origin::default();
        // SAFETY: as in `look`
        (unsafe { sys::bsp_steps_origin(self.slot.get(), task, &mut from) } == 0).then_some(if from.spawned {
            Origin::Spawned { place: from.place, number: from.number }
        } else {
            Origin::Stayed { place: from.place }
        })
    }

    /// What was printed so far, in the order of the report.
    pub fn prints(&self) -> Vec<Print> {
        let print = |place| {
            let (mut found, mut lent) = (sys::Print::default(), sys::Path::default());
            // SAFETY: as in `end`
            unsafe { sys::bsp_steps_print(self.slot.get(), place, &mut found, &mut lent) };
            Print { step: found.step, path: copied(lent).into_iter().map(u32::from).collect(), value: found.value }
        };
        (0..self.look().prints).map(print).collect()
    }

    /// The record of each superstep.
    pub fn records(&self) -> Vec<Superstep> {
        let record = |place| {
            let mut found = sys::Record::default();
            // SAFETY: as in `look`
            unsafe { sys::bsp_steps_record(self.slot.get(), place, &mut found) };
            Superstep { phase: found.phase, parties: found.parties, left: found.left, spawned: found.spawned }
        };
        (0..self.look().records).map(record).collect()
    }

    /// A sum of what is to be seen of the run, the same as `bsp_steps_sum` of `bsp_steps.h`: how far it is, its arrays, the paths of its
    /// live tasks, its prints and records. If two runs differ, so do their sums, but for chance.
    pub fn sum(&self) -> u64 {
        let look = self.look();
        let mut sum = Sum(look.arrays as u64);
        sum.add([u64::from(look.step), look.status as u64, look.live as u64, look.prints as u64, look.records as u64]);
        for cells in (0..look.arrays).filter_map(|array| self.cells(array)) {
            sum.add([cells.len() as u64]);
            sum.add(cells.iter().map(|cell| *cell as u64));
        }
        for path in (0..look.live).filter_map(|task| self.path(task)) {
            sum.add([path.len() as u64]);
            sum.add(path.into_iter().map(u64::from));
        }
        for print in self.prints() {
            sum.add([u64::from(print.step), print.value as u64, print.path.len() as u64]);
            sum.add(print.path.into_iter().map(u64::from));
        }
        for record in self.records() {
            sum.add([record.phase, record.parties, record.left, record.spawned].map(u64::from));
        }
        sum.0
    }

    /// The text of the report of a run that is over, as `bsp run` prints it.
    pub fn text(&self) -> Result<String, StepsError> {
        let mut bytes = 0;
        let mut out = Vec::new();
        loop {
            // SAFETY: `out` has so many bytes, and the slot is as in `look`
            match unsafe { sys::bsp_steps_report(self.slot.get(), out.as_mut_ptr(), out.len(), &mut bytes) } {
                10 => out = vec![0; bytes],
                0 => return Ok(String::from_utf8(out).expect("names are ASCII")),
                status => return Err(StepsError::of(status)),
            }
        }
    }

    /// Takes one superstep: there is a deed for each live task, in order.
    pub fn close(&mut self, deeds: &[Deed<'_>]) -> Result<StepTaken, StepsError> {
        let given: Vec<sys::Deed<'_>> = deeds.iter().map(Deed::given).collect();
        self.close_given(&given)
    }

    /// Takes one superstep by packed deeds, which [`Deed::pack`] writes: the blocks have those of all live tasks, in order, and none goes
    /// on in the next block. `bsp_steps.h` says which bytes these are.
    pub fn close_packed(&mut self, blocks: &[&[u8]]) -> Result<StepTaken, StepsError> {
        let given: Vec<sys::Block<'_>> = blocks.iter().map(|it| sys::Block { at: it.as_ptr(), len: it.len(), of: PhantomData }).collect();
        let mut unread = sys::Unread::default();
        // SAFETY: each block has as many bytes as it says, and the slot is borrowed mutably
        match unsafe { sys::bsp_steps_close_packed(given.as_ptr(), given.len(), self.slot.get_mut(), &mut unread) } {
            15 => Err(StepsError::Unread { block: unread.block, byte: unread.byte }),
            status => self.taken_so(status),
        }
    }

    pub(crate) fn close_given(&mut self, deeds: &[sys::Deed<'_>]) -> Result<StepTaken, StepsError> {
        // SAFETY: each deed points to as many values as it says, and the slot is borrowed mutably
        let status = unsafe { sys::bsp_steps_close(deeds.as_ptr(), deeds.len(), self.slot.get_mut()) };
        self.taken_so(status)
    }

    fn taken_so(&self, status: i32) -> Result<StepTaken, StepsError> {
        match status {
            0 => Ok(StepTaken::GoesOn),
            status @ 1..=3 => Ok(StepTaken::Over(self.end().ok_or(StepsError::of(status))?)),
            status => Err(StepsError::of(status)),
        }
    }
}

struct Sum(u64);

impl Sum {
    fn add(&mut self, words: impl IntoIterator<Item = u64>) {
        for word in words {
            let next = (self.0 ^ word).wrapping_mul(0x9e37_79b9_7f4a_7c15);
            self.0 = next ^ next >> 32;
        }
    }
}

fn copied(lent: sys::Path) -> Vec<u16> {
    // SAFETY: as many numbers are lent, until the next superstep
    if lent.len > 0 { unsafe { std::slice::from_raw_parts(lent.at, lent.len) }.to_vec() } else { Vec::new() }
}

impl Drop for StepsRun {
    fn drop(&mut self) {
        // SAFETY: the slot was opened in `new`, and no view of it is left
        unsafe { sys::bsp_steps_free(self.slot.get_mut()) };
    }
}
