//! What takes too long: steps after which the second program is passed over, and processor time
//! that the proved routines must keep within.

use bench::clock;
use std::time::Duration;

/// Whatever it takes.
pub const ALL: u64 = u64::MAX;

/// The steps that the second program may take for an edge book: a few hundredths of a second. Ten
/// times as many would answer half as many more of them, in the time of many ordinary ones.
pub const BOOK_STEPS: u64 = 300_000;

/// The steps that it may take for an edge pair.
pub const PAIR_STEPS: u64 = 20_000;

/// The longest call of one side so far, and the most that one may take.
#[derive(Clone, Debug, Default)]
pub struct Longest<T> {
    most: Option<Duration>,
    took: Duration,
    on: Option<T>,
}

impl<T: Clone> Longest<T> {
    /// Nothing called yet; a call may take so long, if that is said.
    pub fn within(most: Option<Duration>) -> Longest<T> {
        Longest {
            most,
            took: Duration::ZERO,
            on: None,
        }
    }

    /// Whether a call may take only so long.
    pub fn is_limited(&self) -> bool {
        self.most.is_some()
    }

    /// Counts a call that took so long; an error, in words, if that is over the limit.
    pub fn count(&mut self, took: Duration, on: impl FnOnce() -> T) -> Result<(), String> {
        if self.on.is_none() || took > self.took {
            (self.took, self.on) = (took, Some(on()));
        }
        match self.most {
            Some(most) if took > most => Err(format!(
                "TOO SLOW: {:.3} s of processor time, over the limit of {} s",
                took.as_secs_f64(),
                most.as_secs_f64()
            )),
            _ => Ok(()),
        }
    }

    /// Adds what another counted.
    pub fn add(&mut self, other: &Longest<T>) {
        if other.took > self.took || self.on.is_none() {
            (self.took, self.on) = (other.took, other.on.clone());
        }
    }

    /// What took longest, if there was anything.
    pub fn on(&self) -> Option<&T> {
        self.on.as_ref()
    }

    /// How long that took.
    pub fn seconds(&self) -> f64 {
        self.took.as_secs_f64()
    }
}

/// What a call gives, and the processor time that it takes this thread: another one beside it on
/// the same processor is not counted.
pub fn timed<T>(call: impl FnOnce() -> T) -> (T, Duration) {
    let began = clock::used();
    let given = call();
    (given, Duration::from_nanos(clock::used() - began))
}
