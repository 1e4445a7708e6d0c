//! Threads that meet at one word, and times beside `std::sync::Barrier`.
use bsp::{Phaser, Refused};
use std::sync::Barrier;
use std::sync::atomic::{AtomicU32, Ordering::SeqCst};
use std::time::{Duration, Instant};

// Each of `threads` threads does this.
fn timed(threads: usize, body: impl Fn() + Sync) -> Duration {
    let start = Instant::now();
    std::thread::scope(|scope| (0..threads).for_each(|_| drop(scope.spawn(&body))));
    start.elapsed()
}

fn main() -> Result<(), Refused> {
    let rounds = std::env::args().nth(1).map_or(5000, |word| word.parse().expect("a number of rounds"));
    let phaser = Phaser::new(4)?;
    let came: Vec<AtomicU32> = (0..rounds).map(|_| AtomicU32::new(0)).collect();
    timed(4, || {
        for step in &came {
            step.fetch_add(1, SeqCst);
            phaser.arrive_and_wait().expect("all are registered");
            assert_eq!(step.load(SeqCst), 4);
        }
    });
    assert_eq!(phaser.word(), (rounds as u64) << 32 | 0x40004);
    assert_eq!(phaser.phase(), Ok(rounds as i32));
    assert_eq!(phaser.register(65532), Err(Refused::Full));
    assert_eq!(phaser.register(-1), Err(Refused::Negative));
    assert_eq!(Phaser::new(65536).err(), Some(Refused::TooMany));
    assert_eq!(Phaser::of_word(1).err(), Some(Refused::NoWord));
    for _ in 0..4 {
        phaser.leave()?;
    }
    assert!(phaser.phase()? < 0 && phaser.arrive()? < 0);
    print!("4 threads, {rounds} phases, word as it has to be; time to std::sync::Barrier's:");
    for threads in 2..=8 {
        let best = |body: &(dyn Fn() + Sync)| (0..3).map(|_| timed(threads, body)).min().expect("three times");
        let phaser = Phaser::new(threads as i64)?;
        let ours = best(&|| (0..rounds).for_each(|_| assert!(phaser.arrive_and_wait().is_ok())));
        let barrier = Barrier::new(threads);
        let theirs = best(&|| (0..rounds).for_each(|_| { barrier.wait(); }));
        print!(" {threads} threads {:.2}", ours.as_secs_f64() / theirs.as_secs_f64());
    }
    println!();
    Ok(())
}
