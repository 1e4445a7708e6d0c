//! Runs that are refused, that are over at once, that are taken step by step, and whose bodies panic.
use bsp::{Deed, Ending, Origin, Out, Steps, StepTaken, StepsEnd, StepsError, StepsRun, TaskBody, View, sys::Put};
use std::panic::{AssertUnwindSafe, catch_unwind};

struct Body;

impl TaskBody for Body {
    type Kept = u32;

    fn run(&self, kept: &mut u32, view: &View<'_>, out: &mut Out<u32>) -> Ending {
        match (view.step(), *kept) {
            (0, 0) => {
                out.put_row(0, 1, &[7, 8]);
                out.spawn(2);
            }
            (0, _) => out.print(11),
            (_, 1) => return Ending::Fails(16),
            _ => {}
        }
        Ending::GoesOn
    }
}

#[test]
fn names_are_those_of_jobs() {
    for name in ["", "A", "a b", "a b\nended 7", "end", "é", "abcdefghijklmnopq"] {
        assert_eq!(StepsRun::new(&[("a", &[1]), (name, &[1])], 1, 1, 9).err(), Some(StepsError::Names));
    }
    assert_eq!(StepsRun::new(&[("a", &[1]), ("a", &[1])], 1, 1, 9).err(), Some(StepsError::Arrays));
    assert_eq!(StepsRun::new(&[("A", &[1])], 2, 1, 9).err(), Some(StepsError::Tasks));
}

#[test]
fn a_run_without_tasks_or_supersteps_is_over_at_once() {
    let mut none = Steps::new(&[("a", &[1, 2])], vec![], 1, 9).unwrap();
    assert_eq!(none.run(&Body, 4), Ok(StepsEnd::Ended(0)));
    assert_eq!(none.text().unwrap(), "array a 1 2\nended 0\n");
    assert_eq!(none.run(&Body, 4), Err(StepsError::Over));
    let mut limit = Steps::new(&[], vec![0, 1], 2, 0).unwrap();
    assert_eq!(limit.end(), Some(StepsEnd::Limit(0)));
    assert_eq!(limit.step(&Body, 1), Ok(StepTaken::Over(StepsEnd::Limit(0))));
    assert_eq!((limit.live(), limit.text().unwrap().as_str()), (2, "limit 0\n"));
}

#[test]
fn one_superstep_at_a_time() {
    for threads in [1, 3] {
        let mut run = Steps::new(&[("a", &[1, 2, 3]), ("b", &[4])], vec![0, 1], 9, 9).unwrap();
        assert_eq!(run.step(&Body, threads), Ok(StepTaken::GoesOn));
        let (a, b) = (run.cells(0).unwrap(), run.cells(1).unwrap());
        assert_eq!((a, b), (&[1, 7, 8][..], &[4][..]));
        assert_eq!((run.taken(), run.live(), run.end(), run.cells(2)), (1, 3, None, None));
        assert_eq!((run.path(1), run.path(3)), (Some(vec![0, 0]), None));
        assert_eq!((run.origin(1), run.origin(2)), (Some(Origin::Spawned { place: 0, number: 0 }), Some(Origin::Stayed { place: 1 })));
        assert_eq!((run.prints()[0].value, run.prints()[0].path.as_slice()), (11, &[1][..]));
        assert_eq!((run.records().len(), run.records()[0].parties, run.records()[0].spawned), (1, 3, 1));
        assert_eq!(run.text(), Err(StepsError::Going));
        let fault = StepsEnd::Fault { code: 16, step: 1, path: vec![1] };
        assert_eq!(run.run(&Body, threads), Ok(fault.clone()));
        assert_eq!((run.live(), run.end()), (0, Some(fault)));
    }
}

struct Row(u32);

impl TaskBody for Row {
    type Kept = ();

    fn run(&self, _: &mut (), _: &View<'_>, out: &mut Out<()>) -> Ending {
        out.put_row(0, self.0, &[1, 2, 3]);
        Ending::Stops
    }
}

#[test]
fn a_row_past_the_last_cell_is_a_fault() {
    for first in [1, u32::MAX - 1, u32::MAX] {
        let mut run = Steps::new(&[("a", &[1, 2, 3])], vec![()], 1, 9).unwrap();
        assert_eq!(run.run(&Row(first), 1), Ok(StepsEnd::Fault { code: 3, step: 0, path: vec![0] }));
    }
}

#[test]
fn deeds_in_the_callers_hands() {
    let mut run = StepsRun::new(&[("a", &[1, 2])], 2, 3, 9).unwrap();
    let put = [Put { array: 0, adds: 1, index: 1, value: 5 }];
    let stops = Deed { puts: &[], prints: &[], spawns: 0, ending: Ending::Stops };
    assert_eq!(run.close(&[Deed { puts: &put, prints: &[], spawns: 1, ending: Ending::GoesOn }, stops]), Ok(StepTaken::GoesOn));
    assert_eq!((run.cells(0), run.live()), (Some(&[1, 7][..]), 2));
    assert_eq!(run.close(&[]), Err(StepsError::Ending));
    assert_eq!(run.close(&[stops, stops]), Ok(StepTaken::Over(StepsEnd::Ended(2))));
    assert_eq!(run.close(&[]), Err(StepsError::Over));
}

#[test]
fn packed_deeds() {
    let put = |index, adds, value| Put { array: 0, adds, index, value };
    let puts = [put(0, 0, 5), put(1, 0, -6), put(2, 0, i64::MIN), put(1, 1, 4), put(2, 0, 7)];
    let first = Deed { puts: &puts, prints: &[8, -9], spawns: 1, ending: Ending::GoesOn };
    let stops = Deed { puts: &[], prints: &[], spawns: 0, ending: Ending::Stops };
    let (mut one, mut other) = (StepsRun::new(&[("a", &[1, 2, 3])], 2, 3, 9).unwrap(), StepsRun::new(&[("a", &[1, 2, 3])], 2, 3, 9).unwrap());
    let mut bytes = Vec::new();
    first.pack(&mut bytes);
    assert_eq!(bytes.len(), 11 + 24 + 15 + 15 + 18 + 4);
    let end = bytes.len();
    stops.pack(&mut bytes);
    assert_eq!(other.close_packed(&[&bytes[..end], &bytes[end..end + 3]]), Err(StepsError::Unread { block: 1, byte: 0 }));
    assert_eq!(one.close(&[first, stops]), other.close_packed(&[&bytes[..end], &[], &bytes[end..]]));
    assert_eq!((one.cells(0), one.prints(), one.sum()), (other.cells(0), other.prints(), other.sum()));
    assert_eq!(other.cells(0), Some(&[5, -2, 7][..]));
    assert_eq!(other.close_packed(&[&bytes]), one.close(&[first, stops]));
}

struct Panics;

impl TaskBody for Panics {
    type Kept = u32;

    fn run(&self, kept: &mut u32, _: &View<'_>, _: &mut Out<u32>) -> Ending {
        assert!(*kept < 2, "task {kept} panics");
        Ending::Stops
    }
}

#[test]
fn the_first_tasks_panic_comes() {
    for threads in [1, 4] {
        let mut run = Steps::new(&[], (0..8).collect(), 8, 9).unwrap();
        let panic = catch_unwind(AssertUnwindSafe(|| run.run(&Panics, threads))).unwrap_err();
        assert_eq!(panic.downcast_ref::<String>().map(String::as_str), Some("task 2 panics"));
        assert_eq!(run.run(&Panics, threads), Err(StepsError::Over));
    }
}
