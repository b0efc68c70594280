//! A search that climbs towards slow books: a book is changed a little again and again, and what is
//! slower is kept. It finds what nobody thought of; what it finds belongs among the worst known.

mod timer;

pub use second::edges::changed;
pub use timer::{serve, Timer, CHILD};

use second::book::{self, Book};
use second::random::Random;
use second::{edges, generate};
use std::time::{Duration, Instant};

/// Changes that bring nothing before the climb begins anew elsewhere.
const PATIENCE: usize = 300;

/// A climb keeps what is at most so much faster than where it stands: small changes of the time say
/// nothing, and a ridge has level parts.
const LEVEL: f64 = 0.95;

/// The slowest book that was found.
pub struct Slowest {
    pub book: Book,
    /// Nanoseconds, or none if it was stopped at the limit.
    pub time: Option<u64>,
    pub tried: usize,
}

/// Climbs for so long, each time from the slowest of some books, of which every other one is an edge
/// book; ends early where the limit is met.
pub fn climb(timer: &mut Timer, seed: u64, long: Duration) -> Result<Slowest, String> {
    let began = Instant::now();
    let mut random = Random::new(seed);
    let mut best = Slowest {
        book: start(&mut random),
        time: Some(0),
        tried: 0,
    };
    while best.goes_on(began + long) {
        one_climb(timer, &mut random, &mut best, began + long)?;
    }
    Ok(best)
}

/// A book to begin with, an edge book or any, which may explore as much as there is.
pub fn start(random: &mut Random) -> Book {
    let book = match random.percent(50) {
        true => edges::book(random),
        false => generate::sound(random),
    };
    Book {
        allowed: 1000,
        ..book
    }
}

impl Slowest {
    /// Times a book and keeps it if it is the slowest so far; its nanoseconds, more than any if it
    /// was stopped at the limit.
    fn tried(&mut self, timer: &mut Timer, next: &Book) -> Result<u64, String> {
        let time = timer.time(&book::write(next))?;
        self.tried += 1;
        let reached = time.unwrap_or(u64::MAX);
        if reached > self.time.unwrap_or(u64::MAX) {
            (self.book, self.time) = (next.clone(), time);
        }
        Ok(reached)
    }

    /// Whether there is more to find before this moment.
    fn goes_on(&self, end: Instant) -> bool {
        self.time.is_some() && Instant::now() < end
    }
}

/// Books of which the slowest is where a climb begins.
const STARTS: usize = 20;

/// The slowest of some books to begin with, and its time.
fn slow_start(
    timer: &mut Timer,
    random: &mut Random,
    best: &mut Slowest,
    end: Instant,
) -> Result<(Book, u64), String> {
    let mut slowest = (start(random), 0);
    for _ in 0..STARTS {
        if best.goes_on(end) {
            let next = start(random);
            let reached = best.tried(timer, &next)?;
            if reached > slowest.1 {
                slowest = (next, reached);
            }
        }
    }
    Ok(slowest)
}

/// One climb from a new book, until patience or time is over.
fn one_climb(
    timer: &mut Timer,
    random: &mut Random,
    best: &mut Slowest,
    end: Instant,
) -> Result<(), String> {
    let (mut now, mut here) = slow_start(timer, random, best, end)?;
    let mut patience = PATIENCE;
    while patience > 0 && best.goes_on(end) {
        let next = changed(&now, random);
        let reached = best.tried(timer, &next)?;
        patience = match reached > here {
            true => PATIENCE,
            false => patience - 1,
        };
        if reached as f64 >= here as f64 * LEVEL {
            (now, here) = (next, here.max(reached));
        }
    }
    Ok(())
}
