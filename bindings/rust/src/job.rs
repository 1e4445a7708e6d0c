use crate::sys;
use std::fmt;

/// Why a text isn't a job.
#[derive(Clone, Copy, Debug, PartialEq, Eq)]
pub enum Code {
    TooLong = 1,
    BadByte,
    BadHeader,
    UnknownLine,
    BadName,
    BadNumber,
    BadLine,
    Twice,
    UnknownName,
    Unclosed,
    BadNesting,
    TooMany,
    BadLength,
    Reserved,
}

impl Code {
    const ALL: [Code; 14] = [
        Code::TooLong,
        Code::BadByte,
        Code::BadHeader,
        Code::UnknownLine,
        Code::BadName,
        Code::BadNumber,
        Code::BadLine,
        Code::Twice,
        Code::UnknownName,
        Code::Unclosed,
        Code::BadNesting,
        Code::TooMany,
        Code::BadLength,
        Code::Reserved,
    ];

    /// The number, from 1; `bsp explain NUMBER` explains it.
    pub fn number(self) -> u32 {
        self as u32
    }
}

/// The first fault of a text: its line, from 1, and why.
#[derive(Clone, Copy, Debug, PartialEq, Eq)]
pub struct Refusal {
    pub line: usize,
    pub code: Code,
}

/// Why a call on a text has no result.
#[derive(Clone, Copy, Debug, PartialEq, Eq)]
pub enum JobError {
    /// The text isn't a job.
    Refused(Refusal),
    /// An allocation failed.
    Memory,
    /// The limit of supersteps is 0.
    NoLimit,
}

impl fmt::Display for JobError {
    fn fmt(&self, to: &mut fmt::Formatter<'_>) -> fmt::Result {
        match self {
            JobError::Refused(it) => {
                write!(to, "line {}: {:?} (code {1:?}; `bsp explain {}` says more)", it.line, it.code, it.code.number())
            }
            JobError::Memory => to.write_str("out of memory"),
            JobError::NoLimit => to.write_str("the limit of supersteps is 0"),
        }
    }
}

impl std::error::Error for JobError {}

/// Why a task failed.
#[derive(Clone, Copy, Debug, PartialEq, Eq)]
pub enum Fault {
    Overflow = 1,
    DivideByZero,
    Index,
    Budget,
    Depth,
    Spawns,
    /// Over 4096 tasks would have lived on; no task has this fault.
    TooMany,
    SumOverflow,
}

impl Fault {
    const ALL: [Fault; 8] = [
        Fault::Overflow,
        Fault::DivideByZero,
        Fault::Index,
        Fault::Budget,
        Fault::Depth,
        Fault::Spawns,
        Fault::TooMany,
        Fault::SumOverflow,
    ];

    /// The number, from 1; `bsp explain --fault NUMBER` explains it.
    pub fn number(self) -> u32 {
        self as u32
    }
}

/// How a job ended.
#[derive(Clone, Debug, PartialEq, Eq)]
pub enum End {
    /// No task was left after this many supersteps.
    Ended(u32),
    /// A task failed in this superstep, which had no effect. Only [`Fault::TooMany`] has no path.
    Fault { fault: Fault, step: u32, path: Option<Vec<u32>> },
    /// The limit of supersteps was reached with live tasks.
    Limit(u32),
}

/// How many tasks took part in a superstep, how many of them stopped, and how many were spawned in it.
#[derive(Clone, Copy, Debug, PartialEq, Eq)]
pub struct Superstep {
    pub phase: u32,
    pub parties: u32,
    pub left: u32,
    pub spawned: u32,
}

/// A value that the task of this path printed in this superstep.
#[derive(Clone, Debug, PartialEq, Eq)]
pub struct Print {
    pub step: u32,
    pub path: Vec<u32>,
    pub value: i64,
}

/// What a job left.
#[derive(Clone, Debug, PartialEq, Eq)]
pub struct Report {
    pub supersteps: Vec<Superstep>,
    pub prints: Vec<Print>,
    /// The arrays by name, in the order of their declarations.
    pub arrays: Vec<(String, Vec<i64>)>,
    pub end: End,
    /// The text, as `bsp run` prints it.
    pub text: String,
}

impl Report {
    /// The cells of an array.
    pub fn array(&self, name: &str) -> Option<&[i64]> {
        self.arrays.iter().find(|(it, _)| it == name).map(|(_, cells)| cells.as_slice())
    }
}

// A call on a text, made again if there was too little room for what it writes.
fn ask(text: &[u8], call: impl Fn(&[u8], &mut [u8], &mut sys::Told) -> i32) -> Result<String, JobError> {
    let mut out = vec![0; 4096];
    let mut told = sys::Told::default();
    loop {
        match call(text, &mut out, &mut told) {
            10 => out = vec![0; told.bytes],
            4 => {
                let code = Code::ALL[told.code as usize - 1];
                return Err(JobError::Refused(Refusal { line: told.line, code }));
            }
            5 => return Err(JobError::NoLimit),
            6 => return Err(JobError::Memory),
            _ => {
                out.truncate(told.bytes);
                return Ok(String::from_utf8(out).expect("the library writes ASCII"));
            }
        }
    }
}

/// The canonical text of a job.
///
/// ```
/// assert_eq!(bsp::check("bsp 1\n\n  # nothing\nbody  b\nend")?, "bsp 1\nbody b\nend\n");
/// let refused = bsp::check("bsp 1\nbody b\n  let x = y z\nend\n");
/// assert_eq!(refused, Err(bsp::JobError::Refused(bsp::Refusal { line: 3, code: bsp::Code::BadLine })));
/// # Ok::<(), bsp::JobError>(())
/// ```
pub fn check(text: impl AsRef<[u8]>) -> Result<String, JobError> {
    // SAFETY: slices and a reference are pointers to that many bytes and to one object, and none overlap
    ask(text.as_ref(), |text, out, told| unsafe { sys::bsp_check(text.as_ptr(), text.len(), out.as_mut_ptr(), out.len(), told) })
}

/// The canonical text of the same job in format 2.
///
/// ```
/// assert_eq!(bsp::upgrade("bsp 1\nbody b\nlet x = arg\nend\n")?, "bsp 2\nbody b x\nlet x = arg\nend\n");
/// # Ok::<(), bsp::JobError>(())
/// ```
pub fn upgrade(text: impl AsRef<[u8]>) -> Result<String, JobError> {
    // SAFETY: as in `check`
    ask(text.as_ref(), |text, out, told| unsafe { sys::bsp_upgrade(text.as_ptr(), text.len(), out.as_mut_ptr(), out.len(), told) })
}

/// Runs a job on the caller's thread, within a limit of supersteps from 1. A failed task and a reached limit are reports too.
///
/// ```
/// use bsp::{End, Fault};
/// let report = bsp::run("bsp 1\nbody b\n  print arg\n  sync\n  print 1 / 0\nend\nstart b 7\n", 1000)?;
/// assert_eq!(report.prints[0].value, 7);
/// assert_eq!(report.end, End::Fault { fault: Fault::DivideByZero, step: 1, path: Some(vec![0]) });
/// assert_eq!(bsp::run("bsp 1\n", 0), Err(bsp::JobError::NoLimit));
/// # Ok::<(), bsp::JobError>(())
/// ```
pub fn run(text: impl AsRef<[u8]>, limit: u32) -> Result<Report, JobError> {
    let text = ask(text.as_ref(), |text, out, told| {
        // SAFETY: as in `check`
        unsafe { sys::bsp_run(text.as_ptr(), text.len(), limit, out.as_mut_ptr(), out.len(), told) }
    })?;
    Ok(report(text).expect("the library writes the text of a report"))
}

fn path(word: &str) -> Option<Vec<u32>> {
    word.split('.').map(|number| number.parse().ok()).collect()
}

fn report(text: String) -> Option<Report> {
    let (mut supersteps, mut prints, mut arrays, mut end) = (Vec::new(), Vec::new(), Vec::new(), None);
    for line in text.lines() {
        let words: Vec<&str> = line.split(' ').collect();
        let number = |at: usize| words.get(at).and_then(|word| word.parse::<u32>().ok());
        match *words.first()? {
            "phase" => supersteps.push(Superstep { phase: number(1)?, parties: number(3)?, left: number(5)?, spawned: number(7)? }),
            "print" => prints.push(Print { step: number(1)?, path: path(words.get(2)?)?, value: words.get(3)?.parse().ok()? }),
            "array" => {
                let cells = words[2..].iter().map(|word| word.parse().ok()).collect::<Option<Vec<i64>>>();
                arrays.push((words[1].to_string(), cells?));
            }
            "fault" => {
                let fault = *Fault::ALL.get(number(1)? as usize - 1)?;
                end = Some(End::Fault { fault, step: number(3)?, path: path(words.get(5)?) });
            }
            "ended" => end = Some(End::Ended(number(1)?)),
            "limit" => end = Some(End::Limit(number(1)?)),
            _ => return None,
        }
    }
    Some(Report { supersteps, prints, arrays, end: end?, text })
}
