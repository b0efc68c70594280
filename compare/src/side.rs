//! The implementations that the second program is compared with, each called in this process.

use rauntiko::raw;
use second::copying::{to_new, to_old};
use second::{desk, run};

/// What a run or a copy answers: the number and the place.
pub type Answered = (u8, usize);

/// A routine that takes a book and writes to an output that it is lent.
pub type OfBook = fn(&[u8], &mut [u8]) -> Answered;

/// What the desk answers: covering's number, or which record is kept; and the map, from one
/// that gives maps.
pub type Desk = (u8, Option<[u8; 66]>);

/// A routine of the desk: two records and their width.
pub type OfRecords = fn(&[u8], &[u8], usize) -> Desk;

/// One implementation.
#[derive(Clone, Copy)]
pub struct Side {
    pub name: &'static str,
    pub run: OfBook,
    pub to_new: OfBook,
    pub to_old: OfBook,
    pub covers: OfRecords,
    pub kept: OfRecords,
}

/// The numbers of a proved routine's answer.
fn of_proved(answer: raw::Answer) -> Answered {
    (answer.number, answer.place)
}

/// The proved routines, as the Rust crate calls them.
pub const PROVED: Side = Side {
    name: "the proved routines",
    run: |book, out| of_proved(raw::run(book, out)),
    to_new: |book, out| of_proved(raw::to_new(book, out)),
    to_old: |book, out| of_proved(raw::to_old(book, out)),
    covers: |first, second, width| {
        let covered = raw::covers(first, second, width);
        (covered.number, Some(covered.map))
    },
    kept: |first, second, width| {
        let kept = raw::kept(first, second, width);
        (kept.which, Some(kept.map))
    },
};

/// The numbers of plain Rust's answer.
fn of_plain(answer: plain::Answer) -> Answered {
    (answer.number, answer.place)
}

/// The exploration in plain Rust, which gives no maps.
pub const PLAIN: Side = Side {
    name: "plain Rust",
    run: |book, out| of_plain(plain::run(book, out)),
    to_new: |book, out| of_plain(plain::to_new(book, out)),
    to_old: |book, out| of_plain(plain::to_old(book, out)),
    covers: |first, second, width| (plain::covers(first, second, width), None),
    kept: |first, second, width| (plain::kept(first, second, width), None),
};

/// The numbers of the second program's answer.
fn of_second(answer: run::Answer) -> Answered {
    (answer.number as u8, answer.place)
}

/// The second program itself, as what the others are compared with.
pub const SECOND: Side = Side {
    name: "the second program",
    run: |book, out| of_second(run::run(book, out)),
    to_new: |book, out| of_second(to_new(book, out)),
    to_old: |book, out| of_second(to_old(book, out)),
    covers: |first, second, width| {
        let covered = desk::covers(first, second, width);
        (covered.number, Some(covered.map))
    },
    kept: |first, second, width| {
        let kept = desk::kept(first, second, width);
        (kept.which, Some(kept.map))
    },
};

/// All that it is compared with, the proved routines first.
pub const SIDES: &[Side] = &[PROVED, PLAIN];

/// A line with how many there are, the second program among them, and who.
pub fn told(sides: &[Side]) -> String {
    let names = sides.iter().map(|side| side.name);
    let all: Vec<&str> = [SECOND.name].into_iter().chain(names).collect();
    format!("{} sides: {}", all.len(), all.join(", "))
}
