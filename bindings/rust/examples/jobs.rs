//! Runs stored jobs, and compares the text of each report, and what its values say, with the file `.out` beside the job.
use bsp::{End, Report};
use std::fmt::Write;

fn joined(path: &[u32]) -> String {
    path.iter().map(u32::to_string).collect::<Vec<_>>().join(".")
}

// The text of a report, from its values alone.
fn text_of(report: &Report) -> Result<String, std::fmt::Error> {
    let mut text = String::new();
    for it in &report.supersteps {
        for print in report.prints.iter().filter(|print| print.step == it.phase) {
            writeln!(text, "print {} {} {}", print.step, joined(&print.path), print.value)?;
        }
        writeln!(text, "phase {} parties {} left {} spawned {}", it.phase, it.parties, it.left, it.spawned)?;
    }
    for (name, cells) in &report.arrays {
        writeln!(text, "array {name}{}", cells.iter().map(|cell| format!(" {cell}")).collect::<String>())?;
    }
    match &report.end {
        End::Ended(steps) => writeln!(text, "ended {steps}")?,
        End::Limit(steps) => writeln!(text, "limit {steps}")?,
        End::Fault { fault, step, path } => {
            let path = path.as_ref().map_or("-".to_string(), |path| joined(path));
            writeln!(text, "fault {} step {step} path {path}", fault.number())?;
        }
    }
    Ok(text)
}

fn main() -> Result<(), Box<dyn std::error::Error>> {
    let (mut same, mut all) = (0, 0);
    for name in std::env::args().skip(1) {
        let text = std::fs::read_to_string(&name)?;
        let stored = std::fs::read_to_string(name.replace(".job", ".out"))?;
        let report = bsp::run(&text, 1_000_000)?;
        all += 1;
        let upgraded = bsp::run(bsp::upgrade(&text)?, 1_000_000)?;
        same += u32::from(report.text == stored && text_of(&report)? == stored && upgraded == report);
    }
    println!("{same} of {all} stored jobs");
    if same == all { Ok(()) } else { Err("a job printed something else".into()) }
}
