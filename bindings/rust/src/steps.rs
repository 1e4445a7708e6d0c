//! Supersteps whose tasks are Rust values. The tasks of a superstep run on any number of threads, and the result is the same.
use crate::crew::Crew;
use crate::steps_run::{Origin, StepTaken, StepsRun};
use crate::sys;
use std::any::Any;
use std::fmt;
use std::marker::PhantomData;
use std::ops::Deref;
use std::panic::{AssertUnwindSafe, catch_unwind, resume_unwind};

/// Why a call on a run has no result. Nothing changed, except after [`StepsError::Memory`], after which the run can't go on.
#[derive(Clone, Copy, Debug, PartialEq, Eq)]
pub enum StepsError {
    /// An array has the name of another, or over 4294967295 cells.
    Arrays,
    /// An array has a name that no array of a job may have: one is a lower-case letter and up to 15 lower-case letters, digits and
    /// underscores, and no word of the language.
    Names,
    /// There are more start tasks than may live or than 65535, or more may live than 2147483647.
    Tasks,
    /// An allocation failed.
    Memory,
    /// There isn't a deed for each live task, or a task fails by a number below 16.
    Ending,
    /// The bytes aren't packed deeds: at this byte of this block, both from 0, begins the first item that is none.
    Unread { block: usize, byte: usize },
    /// The run is over.
    Over,
    /// The run isn't over.
    Going,
}

impl StepsError {
    pub(crate) fn of(status: i32) -> StepsError {
        match status {
            4 => StepsError::Arrays,
            5 => StepsError::Tasks,
            11 => StepsError::Ending,
            12 => StepsError::Over,
            13 => StepsError::Going,
            14 => StepsError::Names,
            _ => StepsError::Memory,
        }
    }
}

impl fmt::Display for StepsError {
    fn fmt(&self, to: &mut fmt::Formatter<'_>) -> fmt::Result {
        to.write_str(match self {
            StepsError::Arrays => "an array has another array's name, or over 4294967295 cells",
            StepsError::Names => "an array has a name that no array of a job may have",
            StepsError::Tasks => "too many start tasks",
            StepsError::Memory => "out of memory",
            StepsError::Ending => "there isn't a deed for each live task, or a task fails by a number below 16",
            StepsError::Unread { block, byte } => return write!(to, "block {block} can't be read at its byte {byte}"),
            StepsError::Over => "the run is over",
            StepsError::Going => "the run isn't over",
        })
    }
}

impl std::error::Error for StepsError {}

pub(crate) fn done(status: i32) -> Result<(), StepsError> {
    if status == 0 { Ok(()) } else { Err(StepsError::of(status)) }
}

/// How a task ends a superstep.
#[derive(Clone, Copy, Debug, PartialEq, Eq)]
pub enum Ending {
    /// It goes on in the next superstep.
    GoesOn,
    /// It stops.
    Stops,
    /// The run ends by a fault of this number, from 16 on.
    Fails(u8),
}

impl Ending {
    // A fault below 16 is given as one that no task may have.
    pub(crate) fn number(self) -> u8 {
        match self {
            Ending::GoesOn => 0,
            Ending::Stops => 1,
            Ending::Fails(number) => number.max(2),
        }
    }
}

/// How a run ended.
#[derive(Clone, Debug, PartialEq, Eq)]
pub enum StepsEnd {
    /// No task was left after this many supersteps.
    Ended(u32),
    /// A task failed in this superstep, which had no effect. Fault 7, too many live tasks, has no path.
    Fault { code: u32, step: u32, path: Vec<u16> },
    /// The limit of supersteps was reached with live tasks.
    Limit(u32),
}

/// What a task sees: the arrays as the superstep began.
#[derive(Clone, Copy)]
pub struct View<'a> {
    arrays: &'a [&'a [i64]],
    step: u32,
}

impl<'a> View<'a> {
    /// The cells of the array at this place; none if there is no such array.
    pub fn cells(&self, array: u16) -> &'a [i64] {
        self.arrays.get(usize::from(array)).copied().unwrap_or_default()
    }

    /// The superstep, from 0.
    pub fn step(&self) -> u32 {
        self.step
    }
}

/// What a task leaves in a superstep.
pub struct Out<K> {
    puts: Vec<sys::Put>,
    prints: Vec<i64>,
    spawns: Vec<K>,
}

impl<K> Out<K> {
    /// Sets a cell. If there is no such cell, the run ends with fault 3.
    pub fn put(&mut self, array: u16, index: u32, value: i64) {
        self.puts.push(sys::Put { array, adds: 0, index, value });
    }

    /// Sets cells side by side, from `first` on, to these values. If one isn't there, the run ends with fault 3.
    pub fn put_row(&mut self, array: u16, first: u32, values: &[i64]) {
        // No array has a cell of the last number.
        let index = |place: usize| u32::try_from(u64::from(first) + place as u64).unwrap_or(u32::MAX);
        self.puts.extend(values.iter().enumerate().map(|(place, value)| sys::Put { array, adds: 0, index: index(place), value: *value }));
    }

    /// Adds to a cell. If there is no such cell, the run ends with fault 3; if a sum doesn't fit, with fault 8.
    pub fn add(&mut self, array: u16, index: u32, value: i64) {
        self.puts.push(sys::Put { array, adds: 1, index, value });
    }

    /// Prints a value.
    pub fn print(&mut self, value: i64) {
        self.prints.push(value);
    }

    /// Spawns a task that keeps this, and first runs in the next superstep.
    ///
    /// # Panics
    ///
    /// If the task has spawned 65535 tasks in this superstep.
    pub fn spawn(&mut self, kept: K) {
        assert!(self.spawns.len() < 65535, "a task spawns at most 65535 tasks in a superstep");
        self.spawns.push(kept);
    }
}

/// What the tasks of a run do.
pub trait TaskBody: Sync {
    /// What a task keeps from one superstep to the next.
    type Kept: Send;

    /// Does what a task does in one superstep.
    fn run(&self, kept: &mut Self::Kept, view: &View<'_>, out: &mut Out<Self::Kept>) -> Ending;
}

struct Task<K> {
    kept: Option<K>,
    out: Out<K>,
    ending: u8,
    panic: Option<Box<dyn Any + Send>>,
}

impl<K: Send> Task<K> {
    fn new(kept: K, out: Out<K>) -> Task<K> {
        Task { kept: Some(kept), out, ending: 0, panic: None }
    }

    fn segment<B: TaskBody<Kept = K> + ?Sized>(&mut self, body: &B, view: &View<'_>) {
        (self.out.puts.clear(), self.out.prints.clear(), self.out.spawns.clear());
        let kept = self.kept.as_mut().expect("a live task keeps something");
        let out = &mut self.out;
        match catch_unwind(AssertUnwindSafe(|| body.run(kept, view, out))) {
            Ok(ending) => self.ending = ending.number(),
            Err(panic) => self.panic = Some(panic),
        }
    }

    fn deed(&self) -> sys::Deed<'_> {
        sys::Deed {
            puts: self.out.puts.as_ptr(),
            put_count: self.out.puts.len(),
            prints: self.out.prints.as_ptr(),
            print_count: self.out.prints.len(),
            spawns: self.out.spawns.len() as u16,
            ending: self.ending,
            of: PhantomData,
        }
    }
}

/// A run whose tasks keep a `K`.
///
/// ```
/// use bsp::{Ending, Out, Steps, StepsEnd, TaskBody, View};
///
/// // Each task takes the other's cell, and prints it in the next superstep.
/// struct Swap;
///
/// impl TaskBody for Swap {
///     type Kept = usize;
///
///     fn run(&self, own: &mut usize, view: &View<'_>, out: &mut Out<usize>) -> Ending {
///         if view.step() == 0 {
///             out.put(0, *own as u32, view.cells(0)[1 - *own]);
///             return Ending::GoesOn;
///         }
///         out.print(view.cells(0)[*own]);
///         Ending::Stops
///     }
/// }
///
/// let mut run = Steps::new(&[("a", &[10, 20])], vec![0, 1], 2, 1000)?;
/// assert_eq!(run.run(&Swap, 2)?, StepsEnd::Ended(2));
/// assert_eq!(run.cells(0), Some(&[20, 10][..]));
/// assert_eq!(run.run(&Swap, 2), Err(bsp::StepsError::Over));
/// # Ok::<(), bsp::StepsError>(())
/// ```
///
/// Two arrays can be read side by side. But what a run lends can't be used too long. Cells end where the run goes on:
///
/// ```compile_fail,E0502
/// # struct Stops;
/// # impl bsp::TaskBody for Stops {
/// #     type Kept = ();
/// #     fn run(&self, _: &mut (), _: &bsp::View<'_>, _: &mut bsp::Out<()>) -> bsp::Ending { bsp::Ending::Stops }
/// # }
/// let mut run = bsp::Steps::new(&[("a", &[10])], vec![()], 1, 1000)?;
/// let cells = run.cells(0);
/// run.run(&Stops, 1)?;
/// assert_eq!(cells, Some(&[10][..]));
/// # Ok::<(), bsp::StepsError>(())
/// ```
///
/// and where it is dropped:
///
/// ```compile_fail,E0505
/// let mut run = bsp::Steps::new(&[("a", &[10])], vec![()], 1, 1000)?;
/// let cells = run.cells(0);
/// drop(run);
/// assert_eq!(cells, Some(&[10][..]));
/// # Ok::<(), bsp::StepsError>(())
/// ```
///
/// A task's `out` and its view end with its segment, so that nothing can be put in another superstep:
///
/// ```compile_fail
/// struct Keeps;
///
/// impl bsp::TaskBody for Keeps {
///     type Kept = Option<&'static [i64]>;
///
///     fn run(&self, own: &mut Self::Kept, view: &bsp::View<'_>, _: &mut bsp::Out<Self::Kept>) -> bsp::Ending {
///         *own = Some(view.cells(0));
///         bsp::Ending::GoesOn
///     }
/// }
/// ```
///
/// ```compile_fail,E0521
/// struct Keeps(std::sync::Mutex<Vec<&'static mut bsp::Out<()>>>);
///
/// impl bsp::TaskBody for Keeps {
///     type Kept = ();
///
///     fn run(&self, _: &mut (), _: &bsp::View<'_>, out: &mut bsp::Out<()>) -> bsp::Ending {
///         self.0.lock().unwrap().push(out);
///         bsp::Ending::GoesOn
///     }
/// }
/// ```
pub struct Steps<K> {
    run: StepsRun,
    tasks: Vec<Task<K>>,
    over: bool,
}

/// The reading calls of a run.
impl<K> Deref for Steps<K> {
    type Target = StepsRun;

    fn deref(&self) -> &StepsRun {
        &self.run
    }
}

// A thread's share of a superstep: some of the tasks, the arrays as they are lent, and the superstep's number.
struct Share<K> {
    tasks: *mut [Task<K>],
    arrays: Vec<sys::Cells>,
    step: u32,
}

// SAFETY: each task is in one share alone; the cells are only read, and stay until the superstep is closed. Then all shares are done
unsafe impl<K: Send> Send for Share<K> {}

impl<K: Send> Share<K> {
    fn segments<B: TaskBody<Kept = K> + ?Sized>(&mut self, body: &B) {
        // SAFETY: as for `Send`
        let lent = |it: &sys::Cells| if it.len > 0 { unsafe { std::slice::from_raw_parts(it.at, it.len) } } else { &[][..] };
        let arrays: Vec<&[i64]> = self.arrays.iter().map(lent).collect();
        let view = View { arrays: &arrays, step: self.step };
        // SAFETY: as for `Send`
        unsafe { &mut *self.tasks }.iter_mut().for_each(|task| task.segment(body, &view));
    }
}

// Works on all shares of a superstep.
type Round<'a, K> = &'a dyn Fn(Vec<Share<K>>);

impl<K: Send> Steps<K> {
    /// Begins a run of these arrays; the start tasks keep these. At most `most` tasks may live at once, and at most `limit`
    /// supersteps are taken. With no start task, or a limit of 0, the run is over at once.
    pub fn new(arrays: &[(&str, &[i64])], starts: Vec<K>, most: u32, limit: u32) -> Result<Steps<K>, StepsError> {
        let count = u32::try_from(starts.len()).map_err(|_| StepsError::Tasks)?;
        let run = StepsRun::new(arrays, count, most, limit)?;
        let tasks = starts.into_iter().map(|kept| Task::new(kept, Out { puts: Vec::new(), prints: Vec::new(), spawns: Vec::new() })).collect();
        Ok(Steps { run, tasks, over: false })
    }

    /// Takes supersteps until the run is over, their tasks on so many threads, which stay from one superstep to the next. Returns how the
    /// run ended, also if it was over as it began; later calls are refused.
    ///
    /// # Panics
    ///
    /// If a body panics: with what the first task that did, in the order of their paths, panicked with. Its superstep isn't taken, and
    /// the run is over.
    pub fn run<B: TaskBody<Kept = K> + ?Sized>(&mut self, body: &B, threads: usize) -> Result<StepsEnd, StepsError> {
        with_crew(body, threads, |round| {
            loop {
                if let StepTaken::Over(end) = self.superstep(threads, round)? {
                    return Ok(end);
                }
            }
        })
    }

    /// Takes one superstep, as [`Steps::run`] takes each. It starts the threads anew.
    pub fn step<B: TaskBody<Kept = K> + ?Sized>(&mut self, body: &B, threads: usize) -> Result<StepTaken, StepsError> {
        with_crew(body, threads, |round| self.superstep(threads, round))
    }

    // Takes a superstep. Unless the run goes on after it, the run is over, also if this panics.
    fn superstep(&mut self, threads: usize, round: Round<'_, K>) -> Result<StepTaken, StepsError> {
        if std::mem::replace(&mut self.over, true) {
            return Err(StepsError::Over);
        }
        if let Some(end) = self.run.end() {
            return Ok(StepTaken::Over(end));
        }
        self.segments(threads.max(1), round);
        if let Some(panic) = self.tasks.iter_mut().find_map(|task| task.panic.take()) {
            resume_unwind(panic);
        }
        let deeds: Vec<sys::Deed<'_>> = self.tasks.iter().map(Task::deed).collect();
        let taken = self.run.close_given(&deeds)?;
        if taken == StepTaken::GoesOn {
            self.carry_over();
            self.over = false;
        }
        Ok(taken)
    }

    fn segments(&mut self, threads: usize, round: Round<'_, K>) {
        let lent = |array| self.run.cells(array).map_or_else(sys::Cells::default, |it| sys::Cells { at: it.as_ptr(), len: it.len() });
        let arrays: Vec<sys::Cells> = (0..self.run.arrays()).map(lent).collect();
        let (step, size) = (self.run.taken(), self.tasks.len().div_ceil(threads).max(1));
        round(self.tasks.chunks_mut(size).map(|tasks| Share { tasks, arrays: arrays.clone(), step }).collect());
    }

    // What the next live tasks keep, by their origins.
    fn carry_over(&mut self) {
        let live = self.run.live();
        let mut next = Vec::with_capacity(live);
        let mut spawned: Vec<Vec<Option<K>>> = self.tasks.iter_mut().map(|task| task.out.spawns.drain(..).map(Some).collect()).collect();
        for task in 0..live {
            let kept = match self.run.origin(task) {
                Some(Origin::Stayed { place }) => self.tasks[place].kept.take(),
                Some(Origin::Spawned { place, number }) => spawned[place][usize::from(number)].take(),
                None => None,
            };
            next.push(Task::new(kept.expect("each origin is told once"), Out { puts: Vec::new(), prints: Vec::new(), spawns: Vec::new() }));
        }
        // The buffers are used again.
        for (task, old) in next.iter_mut().zip(&mut self.tasks) {
            (std::mem::swap(&mut task.out.puts, &mut old.out.puts), std::mem::swap(&mut task.out.prints, &mut old.out.prints));
        }
        self.tasks = next;
    }
}

// Does this with what works on the shares of a superstep: so many threads, the caller's among them.
fn with_crew<B, R>(body: &B, threads: usize, takes: impl FnOnce(Round<'_, B::Kept>) -> R) -> R
where
    B: TaskBody + ?Sized,
{
    let work = |share: &mut Share<B::Kept>| share.segments(body);
    if threads <= 1 {
        return takes(&|mut shares| shares.iter_mut().for_each(work));
    }
    std::thread::scope(|scope| {
        let crew = Crew::start(scope, threads - 1, &work);
        takes(&|shares| crew.round(shares, &work))
    })
}
