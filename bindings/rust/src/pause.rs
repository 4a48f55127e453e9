//! What a call that may wait does between two tries.
//!
//! The library's functions never block, so the waiting is here. The numbers are those of
//! `klsm_wait.h`: a thread backs off for 50 nanoseconds, then twice as long up to 800, after some
//! misses lets other threads run too, and after many sleeps. By time, since a pause instruction takes 5
//! nanoseconds on one processor and 60 on another.

use crate::sys::code::BUSY;
use std::hint::spin_loop;
use std::thread::{sleep, yield_now};
use std::time::{Duration, Instant};

const SHORTEST_PAUSE: Duration = Duration::from_nanos(50);
const LONGEST_PAUSE: Duration = Duration::from_nanos(800);

/// After so many misses other threads may run.
const MISSES_ALONE: u32 = 7;
/// After so many the thread sleeps, so that the one that has the lock finds a processor.
const MISSES_AWAKE: u32 = 200;
const SLEEP: Duration = Duration::from_micros(50);
/// How often the sleep of who waits for work is doubled.
const DOUBLINGS: u32 = 3;

pub(crate) struct Pause {
    length: Duration,
    misses: u32,
}

impl Pause {
    pub(crate) fn new() -> Pause {
        Pause {
            length: SHORTEST_PAUSE,
            misses: 0,
        }
    }

    /// Looks away, and lets other threads run after some misses. The next time it takes longer.
    pub(crate) fn wait(&mut self) {
        if self.misses >= MISSES_AWAKE {
            sleep(SLEEP);
            return;
        }
        look_away(self.length);
        if self.misses >= MISSES_ALONE {
            yield_now();
        }
        self.misses += 1;
        self.length = (2 * self.length).min(LONGEST_PAUSE);
    }

    /// What a thread does that waits for work: the same, but where it sleeps, twice as long each time, at last
    /// for 400 microseconds. So waiting costs little, and who waits soon hears of work, or of the end.
    pub(crate) fn wait_for_work(&mut self) {
        let Some(doubled) = self.misses.checked_sub(MISSES_AWAKE) else {
            return self.wait();
        };
        sleep(SLEEP * (1 << doubled));
        self.misses += u32::from(doubled < DOUBLINGS);
    }
}

fn look_away(length: Duration) {
    let begin = Instant::now();
    loop {
        spin_loop();
        if begin.elapsed() >= length {
            return;
        }
    }
}

/// Makes a call again and again until it answers another code than that a lock is held.
#[inline]
pub(crate) fn until_free(mut call: impl FnMut() -> i32) -> i32 {
    match call() {
        BUSY => after_a_miss(call),
        code => code,
    }
}

#[cold]
#[inline(never)]
fn after_a_miss(mut call: impl FnMut() -> i32) -> i32 {
    let mut pause = Pause::new();
    loop {
        pause.wait();
        match call() {
            BUSY => {}
            code => return code,
        }
    }
}

#[cfg(test)]
mod tests {
    use super::*;

    #[test]
    fn pauses_grow_as_those_of_the_queue() {
        let mut pause = Pause::new();
        let mut seen = Vec::new();
        for _ in 0..MISSES_AWAKE + 2 {
            seen.push((pause.length.as_nanos(), pause.misses));
            let begin = Instant::now();
            pause.wait();
            assert!(begin.elapsed().as_nanos() >= seen.last().unwrap().0);
        }
        let lengths: Vec<u128> = seen.iter().map(|s| s.0).collect();
        let misses: Vec<u32> = seen.iter().map(|s| s.1).collect();
        assert_eq!(lengths[..5], [50, 100, 200, 400, 800]);
        assert!(lengths[5..].iter().all(|&length| length == 800));
        assert!(misses[..200].iter().copied().eq(0..200));
        assert_eq!(misses[200..], [200, 200]);
    }

    #[test]
    fn who_waits_for_work_sleeps_longer_and_longer() {
        let mut pause = Pause::new();
        for miss in 0..MISSES_AWAKE {
            assert_eq!(pause.misses, miss);
            pause.wait_for_work();
        }
        assert_eq!(pause.length, LONGEST_PAUSE);
        for length in [50, 100, 200, 400, 400, 400] {
            let begin = Instant::now();
            pause.wait_for_work();
            assert!(begin.elapsed() >= Duration::from_micros(length));
        }
        assert_eq!(pause.misses, MISSES_AWAKE + DOUBLINGS);
    }

    #[test]
    fn a_call_is_made_until_it_is_not_busy() {
        let mut answers = [BUSY, BUSY, 5, BUSY].into_iter();
        assert_eq!(until_free(|| answers.next().unwrap()), 5);
        assert_eq!(answers.next(), Some(BUSY));
    }
}
