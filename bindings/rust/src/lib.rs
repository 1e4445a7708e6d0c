//! Bulk-synchronous jobs as texts, supersteps whose tasks are Rust values ([`Steps`]), and a phaser in one atomic word, over the
//! proved calls of `libbsp_job.a`, `libbsp_steps.a` and `libbsp_phaser.a`.
//!
//! The calls in [`sys`] are proved. What is here is Rust over them, and isn't: reading the text of a report, the loops of
//! compare-and-swap, and the waiting.
//!
//! ```
//! let report = bsp::run("bsp 1\narray a 2 10 20\nbody swap\n  let other = 1 - arg\n  put a[arg] = a[other]\nend\nstart swap 0\nstart swap 1\n", 1000)?;
//! assert_eq!(report.array("a"), Some(&[20, 10][..]));
//! # Ok::<(), bsp::JobError>(())
//! ```

mod crew;
mod job;
mod phaser;
mod sleep;
mod steps;
mod steps_run;
pub mod sys;

pub use job::{Code, End, Fault, JobError, Print, Refusal, Report, Superstep, check, run, upgrade};
pub use phaser::{Arrival, Phaser, Refused};
pub use steps::{Ending, Out, Steps, StepsEnd, StepsError, TaskBody, View};
pub use steps_run::{Deed, Origin, StepTaken, StepsRun};
