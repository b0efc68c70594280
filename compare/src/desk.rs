//! Comparing the second program with the others, and with a batch program, at the search desk.

use crate::against::Against;
use crate::limit::{timed, Longest, ALL, PAIR_STEPS};
use crate::overdue::Notes;
use crate::side::{Desk, OfRecords, Side, SECOND};
use second::budget::within;
use second::desk::question_of;
use second::pairs::{answer, Pair};
use second::print::print_question;
use std::time::Duration;

/// What a side says of a pair: of covering, then of keeping.
type Said = [Desk; 2];

/// What was asked, in words.
const ASKED: [&str; 2] = ["covers", "kept"];

/// A comparison of pairs so far.
pub struct Pairs<'s> {
    sides: &'s [Side],
    pub compared: usize,
    /// On how many the second program gave up: there the others are compared with each other.
    pub passed_over: usize,
    /// The first side's longest call.
    pub longest: Longest<Pair>,
    /// And the one under way.
    notes: Notes,
}

impl<'s> Pairs<'s> {
    /// Nothing compared yet; a call of the first side may take so much processor time, if that is
    /// said.
    pub fn limited(sides: &'s [Side], most: Option<Duration>) -> Pairs<'s> {
        Pairs {
            sides,
            compared: 0,
            passed_over: 0,
            longest: Longest::within(most),
            notes: Notes::default(),
        }
    }

    /// Compares all in this process on a pair, number and map; the first difference, told.
    pub fn compare(&mut self, pair: &Pair) -> Result<(), String> {
        self.compare_within(ALL, pair)
    }

    /// The same on an edge pair, where the second program may give up.
    pub fn compare_edge(&mut self, pair: &Pair) -> Result<(), String> {
        self.compare_within(PAIR_STEPS, pair)
    }

    /// The same where the second program takes no more than so many steps. Each is compared with it
    /// or, if it gave up, with the first of the others.
    fn compare_within(&mut self, steps: u64, pair: &Pair) -> Result<(), String> {
        let second = within(steps, || [SECOND.covers, SECOND.kept].map(asked(pair)));
        self.passed_over += second.is_none() as usize;
        let mut first = second.map(|said| (SECOND.name, said));
        let sides = self.sides;
        for (number, side) in sides.iter().enumerate() {
            let theirs = self.side_says(number, pair)?;
            match first {
                None => first = Some((side.name, theirs)),
                Some(mine) => agreed(pair, mine, (side.name, theirs))?,
            }
        }
        self.compared += 1;
        Ok(())
    }

    /// What the side of this number says; too late is an error.
    fn side_says(&mut self, number: usize, pair: &Pair) -> Result<Said, String> {
        let side = self.sides[number];
        let asks = [side.covers, side.kept];
        if number > 0 {
            return Ok(asks.map(asked(pair)));
        }
        let noted = pair.clone();
        let told = move || format!("{}\n{}", side.name, shown(&noted));
        let call = || asks.map(|ask| timed(|| asked(pair)(ask)));
        let said = self.notes.during(Box::new(told.clone()), call);
        for (_, took) in said {
            let late = |what| format!("{what}: {}", told());
            self.longest.count(took, || pair.clone()).map_err(late)?;
        }
        Ok(said.map(|(answer, _)| answer))
    }

    /// Adds what another one has.
    pub fn add(&mut self, other: &Pairs) {
        self.compared += other.compared;
        self.passed_over += other.passed_over;
        self.longest.add(&other.longest);
    }
}

/// Whether the second program answers an edge pair, and does not give up.
pub fn answered(pair: &Pair) -> bool {
    within(PAIR_STEPS, || answer(pair)).is_some()
}

/// Asks a routine of the desk about a pair.
fn asked(pair: &Pair) -> impl Fn(OfRecords) -> Desk + '_ {
    |ask| ask(&pair.first, &pair.second, pair.width)
}

/// Nothing if two say the same of a pair; else how they differ.
fn agreed(
    pair: &Pair,
    (one, mine): (&str, Said),
    (other, theirs): (&str, Said),
) -> Result<(), String> {
    for ((what, mine), theirs) in ASKED.iter().zip(mine).zip(theirs) {
        if !agree(mine, theirs) {
            let told = |answer| told(what, answer);
            return Err(difference(pair, (one, &told(mine)), (other, &told(theirs))));
        }
    }
    Ok(())
}

/// Whether another gives the same number and, if both give a map, the same.
fn agree((number, map): Desk, (their_number, their_map): Desk) -> bool {
    number == their_number && (map.is_none() || their_map.is_none() || their_map == map)
}

/// What the desk answered, in words.
fn told(what: &str, (number, map): Desk) -> String {
    let map = map.map(|map| format!(", map {map:?}"));
    format!("{what} {number}{}", map.unwrap_or_default())
}

/// Compares a batch program on the pairs whose width is a byte; on how many, or the first
/// difference, told.
pub fn compare_batch(against: &Against, pairs: &[Pair]) -> Result<usize, String> {
    let framed = pairs.iter().filter_map(|pair| Some((pair, pair.frame()?)));
    let (pairs, frames): (Vec<&Pair>, Vec<Vec<u8>>) = framed.unzip();
    let said = against.say_of(frames.concat());
    for (i, pair) in pairs.iter().enumerate() {
        let mine = answer(pair);
        let theirs = said.answers.get(i);
        if theirs.map(|theirs| &theirs[..]) != Some(mine.as_bytes()) {
            let theirs = theirs.map(|theirs| String::from_utf8_lossy(theirs));
            let theirs = format!("{theirs:?}");
            let mine = (SECOND.name, mine.trim_end());
            return Err(difference(pair, mine, ("other program", &theirs)));
        }
    }
    said.trouble.map_or(Ok(pairs.len()), Err)
}

/// A difference between two, shown.
fn difference(pair: &Pair, (one, mine): (&str, &str), (other, theirs): (&str, &str)) -> String {
    format!(
        "DIFFERENCE\n{}{one}: {mine}\n{other}: {theirs}",
        shown(pair)
    )
}

/// A pair in bytes, and its questions in words as far as its records are sound.
pub fn shown(pair: &Pair) -> String {
    let Pair {
        width,
        first,
        second,
    } = pair;
    let words = |record: &[u8]| question_of(record, *width).map(|q| print_question(&q));
    let told = [first, second].map(|record| words(record).unwrap_or("malformed".into()));
    let [one, other] = told;
    format!("width {width}\nfirst {first:?}\nsecond {second:?}\n{one}\n{other}\n")
}
