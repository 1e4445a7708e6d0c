use crate::{sleep, sys};
use std::sync::atomic::{AtomicU64, Ordering::SeqCst};
use std::time::{Duration, Instant};

/// No phase ends the phaser.
const NEVER: u32 = u32::MAX;

/// Why a call was refused; nothing changed.
#[derive(Clone, Copy, Debug, PartialEq, Eq)]
pub enum Refused {
    /// The number is no word of a phaser, or the phase of a new one is above 2147483647.
    NoWord,
    /// Fewer than 0 parties, or more than 65535, of a new phaser.
    TooMany,
    /// No room for this many more parties.
    Full,
    /// An arrival or a departure, but nobody is unarrived.
    NobodyUnarrived,
    /// Fewer than 0 parties to be added.
    Negative,
    /// The phaser ended before all had arrived; of [`Phaser::arrive_and_wait`] and [`Phaser::arrive_and_wait_timeout`] alone.
    Ended,
    /// The time has passed, and the phase isn't over; of the calls with a limit alone.
    TimedOut,
}

impl std::fmt::Display for Refused {
    fn fmt(&self, to: &mut std::fmt::Formatter<'_>) -> std::fmt::Result {
        to.write_str(match self {
            Refused::NoWord => "no word of a phaser",
            Refused::TooMany => "fewer than 0 parties, or more than 65535",
            Refused::Full => "no room for so many more parties",
            Refused::NobodyUnarrived => "nobody is unarrived",
            Refused::Negative => "fewer than 0 parties to add",
            Refused::Ended => "the phaser has ended",
            Refused::TimedOut => "the time has passed",
        })
    }
}

impl std::error::Error for Refused {}

/// The answer of a call by its status.
fn told(status: i32, answer: i32) -> Result<i32, Refused> {
    match status {
        0 => Ok(answer),
        3 => Err(Refused::TooMany),
        4 => Err(Refused::Full),
        5 => Err(Refused::NobodyUnarrived),
        6 => Err(Refused::Negative),
        _ => Err(Refused::NoWord),
    }
}

/// What a party gets that has met the others.
#[derive(Clone, Copy, Debug, PartialEq, Eq)]
pub struct Arrival {
    /// The arrival index, as Java's `CyclicBarrier.await` returns it: parties - 1 for the first to arrive, 0 for the last.
    pub index: u32,
    /// The phase after the arrival; negative if the phaser ended with it.
    pub phase: i32,
}

impl Arrival {
    /// Whether this party was the last to arrive. A phase has one such party.
    pub fn is_leader(&self) -> bool {
        self.index == 0
    }
}

/// A phaser that threads share by reference (Java SE 21, `Phaser`). It ends when an advance leaves nobody.
///
/// ```
/// let phaser = bsp::Phaser::new(4)?;
/// let leaders = std::thread::scope(|scope| {
///     let threads: Vec<_> = (0..4).map(|_| scope.spawn(|| phaser.arrive_and_wait().unwrap())).collect();
///     threads.into_iter().map(|it| it.join().unwrap()).filter(|it| it.is_leader()).count()
/// });
/// assert_eq!((leaders, phaser.phase()?, phaser.parties()?, phaser.unarrived()?), (1, 1, 4, 4));
/// # Ok::<(), bsp::Refused>(())
/// ```
#[derive(Debug)]
pub struct Phaser {
    word: AtomicU64,
}

impl Phaser {
    /// A phaser in phase 0 with `parties` parties, from 0 to 65535. None of them has arrived.
    pub fn new(parties: i64) -> Result<Phaser, Refused> {
        let mut word = 0;
        told(sys::bsp_phaser_new(parties, 0, &mut word), 0)?;
        Ok(Phaser { word: AtomicU64::new(word) })
    }

    /// Returns the phaser that has this word. Refuses a number that is no phaser's word.
    pub fn of_word(word: u64) -> Result<Phaser, Refused> {
        let mut phase = 0;
        told(sys::bsp_phaser_phase(word, &mut phase), phase)?;
        Ok(Phaser { word: AtomicU64::new(word) })
    }

    /// The word.
    pub fn word(&self) -> u64 {
        self.word.load(SeqCst)
    }

    // Exchanges the word for the next one, until no other thread was first.
    fn exchanged(&self, call: impl Fn(u64, &mut u64, &mut i32) -> i32) -> Result<i32, Refused> {
        let mut old = self.word.load(SeqCst);
        loop {
            let (mut next, mut answer) = (old, 0);
            told(call(old, &mut next, &mut answer), 0)?;
            match self.word.compare_exchange_weak(old, next, SeqCst, SeqCst) {
                Ok(_) => {
                    if old >> 32 != next >> 32 {
                        sleep::wake(&self.word);
                    }
                    return Ok(answer);
                }
                Err(found) => old = found,
            }
        }
    }

    /// One party arrives. Answers the phase of the arrival, negative once the phaser has ended.
    pub fn arrive(&self) -> Result<i32, Refused> {
        self.exchanged(|word, next, answer| sys::bsp_phaser_arrive(word, 1, NEVER, next, answer))
    }

    /// One party arrives and leaves. Answers as [`Phaser::arrive`].
    pub fn leave(&self) -> Result<i32, Refused> {
        self.exchanged(|word, next, answer| sys::bsp_phaser_leave(word, 1, NEVER, next, answer))
    }

    /// Registers `count` parties. Returns the phase to which this applies, negative once the phaser has ended.
    pub fn register(&self, count: i64) -> Result<i32, Refused> {
        self.exchanged(|word, next, answer| sys::bsp_phaser_register(word, count, next, answer))
    }

    /// Ends the phaser at once. Answers the phase shown.
    pub fn force(&self) -> Result<i32, Refused> {
        self.exchanged(|word, next, answer| sys::bsp_phaser_force(word, next, answer))
    }

    /// Waits until this phase is over: spins a little, yields, and sleeps. Answers the phase then, negative once ended.
    pub fn wait(&self, phase: i32) -> Result<i32, Refused> {
        self.wait_until(phase, None)
    }

    /// Waits as [`Phaser::wait`], but no longer than `limit`. Answers [`Refused::TimedOut`] if the phase isn't over by then, as after a
    /// single look for a limit of 0.
    pub fn wait_timeout(&self, phase: i32, limit: Duration) -> Result<i32, Refused> {
        // A time that can't be named never comes.
        self.wait_until(phase, Instant::now().checked_add(limit))
    }

    // Waits until the phase is over, or this time has come.
    fn wait_until(&self, phase: i32, end: Option<Instant>) -> Result<i32, Refused> {
        let mut turn = 0;
        loop {
            let seen = self.word.load(SeqCst);
            let mut answer = 0;
            let status = sys::bsp_phaser_await(seen, phase, &mut answer);
            if status != 2 {
                return told(status, answer);
            }
            let left = end.map(|end| end.saturating_duration_since(Instant::now()));
            if left.is_some_and(|left| left.is_zero()) {
                return Err(Refused::TimedOut);
            }
            turn += 1;
            match turn {
                ..60 => std::hint::spin_loop(),
                60..80 => std::thread::yield_now(),
                _ => {
                    turn = 80;
                    sleep::sleep(&self.word, seen, left);
                }
            }
        }
    }

    /// One party arrives, and waits until all have. Returns its arrival index, or [`Refused::Ended`] if the phaser ended before.
    ///
    /// ```
    /// let alone = bsp::Phaser::new(1)?;
    /// assert_eq!(alone.arrive_and_wait()?, bsp::Arrival { index: 0, phase: 1 });
    /// alone.force()?;
    /// assert_eq!(alone.arrive_and_wait(), Err(bsp::Refused::Ended));
    /// # Ok::<(), bsp::Refused>(())
    /// ```
    pub fn arrive_and_wait(&self) -> Result<Arrival, Refused> {
        self.meet_until(None)
    }

    /// The same, but waits no longer than `limit`. Answers [`Refused::TimedOut`] if some haven't arrived by then: this party has
    /// arrived all the same. Who means to wait again calls [`Phaser::arrive`] and [`Phaser::wait_timeout`] instead.
    ///
    /// ```
    /// use std::time::Duration;
    /// let phaser = bsp::Phaser::new(2)?;
    /// let limit = Duration::from_millis(1);
    /// assert_eq!(phaser.arrive_and_wait_timeout(limit), Err(bsp::Refused::TimedOut));
    /// assert_eq!((phaser.parties()?, phaser.unarrived()?), (2, 1));
    /// assert_eq!(phaser.arrive_and_wait_timeout(limit)?, bsp::Arrival { index: 0, phase: 1 });
    /// # Ok::<(), bsp::Refused>(())
    /// ```
    pub fn arrive_and_wait_timeout(&self, limit: Duration) -> Result<Arrival, Refused> {
        self.meet_until(Instant::now().checked_add(limit))
    }

    // One party arrives, and waits until all have, or this time has come.
    fn meet_until(&self, end: Option<Instant>) -> Result<Arrival, Refused> {
        let before = std::cell::Cell::new(0);
        let phase = self.exchanged(|word, next, answer| {
            let mut unarrived = 0;
            let _ = sys::bsp_phaser_unarrived(word, &mut unarrived);
            before.set(unarrived);
            sys::bsp_phaser_arrive(word, 1, NEVER, next, answer)
        })?;
        if phase < 0 {
            return Err(Refused::Ended);
        }
        let now = self.wait_until(phase, end)?;
        if now < 0 && now.wrapping_sub(i32::MIN) == phase {
            return Err(Refused::Ended);
        }
        Ok(Arrival { index: before.get() as u32 - 1, phase: now })
    }

    fn read(&self, call: extern "C" fn(u64, &mut i32) -> i32) -> Result<i32, Refused> {
        let mut answer = 0;
        told(call(self.word(), &mut answer), 0)?;
        Ok(answer)
    }

    /// The phase shown, negative once the phaser has ended.
    pub fn phase(&self) -> Result<i32, Refused> {
        self.read(sys::bsp_phaser_phase)
    }

    /// How many parties are registered.
    pub fn parties(&self) -> Result<i32, Refused> {
        self.read(sys::bsp_phaser_parties)
    }

    /// How many parties have arrived in this phase.
    pub fn arrived(&self) -> Result<i32, Refused> {
        self.read(sys::bsp_phaser_arrived)
    }

    /// How many parties haven't arrived in this phase.
    pub fn unarrived(&self) -> Result<i32, Refused> {
        self.read(sys::bsp_phaser_unarrived)
    }

    /// Whether the phaser has ended.
    pub fn has_ended(&self) -> Result<bool, Refused> {
        Ok(self.read(sys::bsp_phaser_ended)? != 0)
    }
}
