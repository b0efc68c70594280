//! What one says of a book: its answer, and the whole of the output that it was lent.

use crate::side::{Answered, Side};
use second::copying::{copy_by, BOOK_ROOM};
use second::run::run_by;
use second::seen::Seen;
use second::union::OUTPUT_ROOM;
use second::way::Way;
use second::width::Width;

/// How much is lent at most: more than is needed, so that what must be left alone can be seen.
pub const LENT: usize = OUTPUT_ROOM + 64;

/// What the output holds before: neither a union nor a book has such a run of bytes.
const BEFORE: [u8; LENT] = before();

/// Each byte by its place.
const fn before() -> [u8; LENT] {
    let mut bytes = [0; LENT];
    let mut at = 0;
    while at < LENT {
        bytes[at] = (at * 7 % 251) as u8;
        at += 1;
    }
    bytes
}

/// What is asked of a book.
#[derive(Clone, Copy, Debug, PartialEq, Eq)]
pub enum Asking {
    /// Its union.
    Run,
    /// Its bytes in this form.
    Copy(Width),
}

impl Asking {
    /// The least room for it.
    pub fn room(self) -> usize {
        match self {
            Asking::Run => OUTPUT_ROOM,
            Asking::Copy(_) => BOOK_ROOM,
        }
    }

    /// It in words.
    pub fn words(self) -> &'static str {
        match self {
            Asking::Run => "run",
            Asking::Copy(Width::Six) => "to_new",
            Asking::Copy(Width::Four) => "to_old",
        }
    }

    /// The second program's answer, counting what is met.
    fn of_second(self, book: &[u8], out: &mut [u8], seen: &mut Seen) -> Answered {
        let answer = match self {
            Asking::Run => run_by(book, out, Way::Right, seen),
            Asking::Copy(wanted) => copy_by(book, out, wanted, seen),
        };
        (answer.number as u8, answer.place)
    }

    /// Another's answer.
    fn of_side(self, side: &Side, book: &[u8], out: &mut [u8]) -> Answered {
        let routine = match self {
            Asking::Run => side.run,
            Asking::Copy(Width::Six) => side.to_new,
            Asking::Copy(Width::Four) => side.to_old,
        };
        routine(book, out)
    }
}

/// An answer and the output that came with it.
#[derive(Clone, PartialEq, Eq)]
pub struct Output {
    pub answered: Answered,
    bytes: [u8; LENT],
}

impl Output {
    /// What the second program says in so much room, counting what is met.
    pub fn of_second(asking: Asking, book: &[u8], room: usize, seen: &mut Seen) -> Output {
        let mut bytes = BEFORE;
        let answered = asking.of_second(book, &mut bytes[..room], seen);
        Output { answered, bytes }
    }

    /// What another says in so much room.
    pub fn of(side: &Side, asking: Asking, book: &[u8], room: usize) -> Output {
        let mut bytes = BEFORE;
        let answered = asking.of_side(side, book, &mut bytes[..room]);
        Output { answered, bytes }
    }

    /// What was written, if it was not refused.
    pub fn written(&self) -> &[u8] {
        match self.answered {
            (0, total) => self.bytes.get(..total).unwrap_or_default(),
            _ => &[],
        }
    }

    /// "No output byte changed" where it is refused; else none after the total.
    pub fn leaves_the_rest(&self) -> bool {
        let rest = self.written().len()..;
        self.bytes.get(rest.clone()) == BEFORE.get(rest)
    }

    /// The answer, and where the output is not the other's.
    pub fn told_beside(&self, other: &Output) -> String {
        let (number, place) = self.answered;
        let both = self.bytes.iter().zip(&other.bytes);
        let differs = |(at, (mine, theirs)): (usize, (&u8, &u8))| {
            (mine != theirs).then(|| format!(", byte {at} of the output is {mine}"))
        };
        let byte = both.enumerate().find_map(differs).unwrap_or_default();
        format!("{number} at {place}{byte}")
    }

    /// Whether refusal 1 was given and the output left alone.
    fn is_refused_for_room(&self) -> bool {
        self.answered == (1, 0) && self.leaves_the_rest()
    }
}

/// All that is asked of a book.
pub const ASKED: [Asking; 3] = [
    Asking::Run,
    Asking::Copy(Width::Six),
    Asking::Copy(Width::Four),
];

/// Who does not refuse a small output for this book, if somebody does not: refusal 1 wins over
/// everything.
pub fn takes_small_output(book: &[u8], sides: &[Side], seen: &mut Seen) -> Option<&'static str> {
    for asking in ASKED {
        for room in [0, 1, asking.room() - 1] {
            if !Output::of_second(asking, book, room, seen).is_refused_for_room() {
                return Some("the second program");
            }
            let takes = |side: &&Side| !Output::of(side, asking, book, room).is_refused_for_room();
            if let Some(side) = sides.iter().find(takes) {
                return Some(side.name);
            }
        }
    }
    None
}
