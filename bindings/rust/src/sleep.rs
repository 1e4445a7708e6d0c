//! Sleeping until the phase of a word changes: on Linux by a futex on the half of the word that holds phase and end, as
//! `include/bsp_phaser.h` does, so that C and Rust may share a word; elsewhere by yielding.

use std::sync::atomic::AtomicU64;
use std::time::Duration;

#[cfg(all(target_os = "linux", target_arch = "x86_64"))]
mod system {
    use super::AtomicU64;
    use std::time::Duration;

    const FUTEX: i64 = 202;
    const WAIT: i64 = 128;
    const WAKE: i64 = 129;

    unsafe extern "C" {
        fn syscall(number: i64, ...) -> i64;
    }

    /// A time, as the system takes it.
    #[repr(C)]
    struct Time {
        seconds: i64,
        nanoseconds: i64,
    }

    fn futex(word: &AtomicU64, what: i64, number: u32, time: Option<&Time>) {
        // SAFETY: the upper half of a word of 64 bits and a time, which live through the call; no second word is given
        unsafe {
            let half = word.as_ptr().cast::<u32>().add(1);
            let time = time.map_or(std::ptr::null(), std::ptr::from_ref);
            syscall(FUTEX, half, what, i64::from(number), time);
        }
    }

    pub fn sleep(word: &AtomicU64, seen: u64, limit: Option<Duration>) {
        let time = limit.map(|limit| Time {
            seconds: i64::try_from(limit.as_secs()).unwrap_or(i64::MAX),
            nanoseconds: i64::from(limit.subsec_nanos()),
        });
        futex(word, WAIT, (seen >> 32) as u32, time.as_ref());
    }

    pub fn wake(word: &AtomicU64) {
        futex(word, WAKE, i32::MAX as u32, None);
    }
}

#[cfg(not(all(target_os = "linux", target_arch = "x86_64")))]
mod system {
    use super::AtomicU64;

    pub fn sleep(_word: &AtomicU64, _seen: u64, _limit: Option<std::time::Duration>) {
        std::thread::yield_now();
    }

    pub fn wake(_word: &AtomicU64) {}
}

/// Sleeps while phase and end are as they were seen, no longer than `limit`; it may wake for nothing.
pub fn sleep(word: &AtomicU64, seen: u64, limit: Option<Duration>) {
    system::sleep(word, seen, limit);
}

/// Wakes all who sleep.
pub fn wake(word: &AtomicU64) {
    system::wake(word);
}
