//! Pairs of member records for the search desk: a deterministic source of them, and what
//! the second program says about a pair.

use crate::desk::{covers, kept};
use crate::layout::{ANSWER, UNUSED};
use crate::meeting::meetings;
use crate::random::Random;
use crate::term::{Atom, Question, Term};
use crate::union::record;
use crate::width::{Width, WIDTHS};

/// Two member records, and the width that the desk is told.
#[derive(Clone, Debug, PartialEq, Eq)]
pub struct Pair {
    pub width: usize,
    pub first: Vec<u8>,
    pub second: Vec<u8>,
}

/// Widths that are none, two of them right only when cut to 8 or 32 bits.
const NO_WIDTHS: &[usize] = &[0, 1, 3, 5, 7, 8, 255, 260, (1 << 32) + 6, usize::MAX];

impl Pair {
    /// The pair turned round.
    pub fn turned(&self) -> Pair {
        Pair {
            width: self.width,
            first: self.second.clone(),
            second: self.first.clone(),
        }
    }

    /// As the desk's program reads it: the width in one byte, then each record after its length
    /// in four bytes, low first. A width that is no byte cannot be asked.
    pub fn frame(&self) -> Option<Vec<u8>> {
        let mut bytes = vec![u8::try_from(self.width).ok()?];
        for record in [&self.first, &self.second] {
            bytes.extend((record.len() as u32).to_le_bytes());
            bytes.extend(record);
        }
        Some(bytes)
    }
}

/// What the desk's program writes for a pair: the number that covering gives and which record
/// is kept; then of that one how it covers the other.
pub fn answer(pair: &Pair) -> String {
    let Pair {
        width,
        first,
        second,
    } = pair;
    let number = covers(first, second, *width).number;
    let kept = kept(first, second, *width);
    let line = |which: &str| format!("covers {number} keep {which}\n");
    match kept.which {
        1 => line("first") + &meetings(first, second, *width, &kept.map),
        2 => line("second") + &meetings(second, first, *width, &kept.map),
        _ => line("none"),
    }
}

/// The next pair of either width: two questions, the second often made from the first, now and
/// then damaged or told another width.
pub fn next(random: &mut Random) -> Pair {
    let width = *random.one_of(&WIDTHS);
    let mut makes = Makes {
        width,
        places: *random.one_of(&[1, 2, 2, 2, 3, width.places(), width.places() - 1]),
        random,
    };
    let (first, second) = makes.questions();
    let mut pair = Pair {
        width: width.places(),
        first: record(&first, width),
        second: record(&second, width),
    };
    if random.percent(30) {
        pair = pair.turned();
    }
    if random.percent(12) {
        damage(&mut pair.first, width, random);
    }
    if random.percent(12) {
        damage(&mut pair.second, width, random);
    }
    if random.percent(2) {
        pair.width = width.other().places();
    }
    if random.percent(2) {
        pair.width = *random.one_of(NO_WIDTHS);
    }
    pair
}

/// Questions being made: most of their atoms have so many places.
struct Makes<'r> {
    width: Width,
    places: usize,
    random: &'r mut Random,
}

impl Makes<'_> {
    /// Two questions.
    fn questions(&mut self) -> (Question, Question) {
        let first = self.question();
        let mut second = match self.random.below(3) {
            0 => self.question(),
            1 => special(&first, self.random),
            _ => {
                let special = special(&first, self.random);
                self.longer(&special)
            }
        };
        if self.random.percent(15) {
            second.answer = self.answer_terms();
        }
        (first, second)
    }

    /// Up to eleven atoms over few terms, which need not be in the form, and in half of the
    /// cases an answer record.
    fn question(&mut self) -> Question {
        let many = *self.random.one_of(&[0, 0, 1, 2, 2, 3, 3, 4, 5, 8, 11]);
        let variables = self.random.between(1, 5);
        Question {
            atoms: (0..many).map(|_| self.atom(variables)).collect(),
            answer: self.answer_terms(),
        }
    }

    /// The terms of an answer record, or none.
    fn answer_terms(&mut self) -> Vec<Term> {
        let places = *self.random.one_of(&[0, 0, 0, 0, 0, 0, 1, 1, 1, 2, 3, 4]);
        (0..places).map(|_| self.term(5)).collect()
    }

    /// One atom; now and then of another number of places than the others of its relation.
    fn atom(&mut self, variables: usize) -> Atom {
        let relation = *self.random.one_of(&[0, 0, 1, 63]);
        let places = match self.random.percent(5) {
            true => self.random.between(1, self.width.places()),
            false => self.places,
        };
        let terms = (0..places).map(|_| self.term(variables));
        Atom::new(relation, terms.collect())
    }

    /// A term, one of so many variables or now and then a constant.
    fn term(&mut self, variables: usize) -> Term {
        let last = self.width.desk_variables() - 1;
        match self.random.percent(12) {
            true => Term::Constant(*self.random.one_of(&[0, 1, 126])),
            false => Term::Variable([0, 1, 2, 31, last][self.random.below(variables)]),
        }
    }

    /// The question with some atoms more.
    fn longer(&mut self, question: &Question) -> Question {
        let mut longer = question.clone();
        while longer.atoms.len() < 11 && self.random.percent(60) {
            let at = self.random.below(longer.atoms.len() + 1);
            longer.atoms.insert(at, self.atom(4));
        }
        longer
    }
}

/// The question with variables replaced, so that it is covered.
fn special(question: &Question, random: &mut Random) -> Question {
    let images: Vec<Term> = (0..Width::Six.desk_variables())
        .map(|_| match random.percent(15) {
            true => Term::Constant(random.below(2)),
            false => Term::Variable(random.below(6)),
        })
        .collect();
    question.map(|t| match t {
        Term::Variable(v) => images[v],
        Term::Constant(_) => t,
    })
}

/// A byte changed, bytes taken away or put on; or an answer record that is none.
fn damage(record: &mut Vec<u8>, width: Width, random: &mut Random) {
    match random.below(9) {
        0 => record.truncate(random.below(record.len() + 1)),
        1 => record.resize(record.len() + random.between(1, 6), 0),
        2 => record[0] = *random.one_of(&[0, 0, 1, 2, 11, 12, 255]),
        3 => record.iter_mut().skip(1).take(1).for_each(|b| *b = ANSWER),
        4 => drop(record.splice(1..1, bad_answer(width, random))),
        5 => *record = [&[0][..], &bad_answer(width, random)].concat(),
        6 => answer_place(record, width, random),
        _ => {
            let at = random.below(record.len());
            record[at] = *random.one_of(&[0, 63, 64, 65, 66, 127, 128, 254, 255]);
        }
    }
}

/// The last places of the answer record, of which a sound one of width 6 uses neither.
fn answer_place(record: &mut [u8], width: Width, random: &mut Random) {
    let fifth = *random.one_of(&[0, 128, UNUSED, UNUSED]);
    let sixth = random.below(4) as u8;
    let last = [fifth, *random.one_of(&[sixth, UNUSED])];
    let places = record.get_mut(width.atom() - 1..width.atom() + 1);
    if let Some(places) = places.filter(|_| random.percent(90)) {
        places.copy_from_slice(&last);
        record[1] = ANSWER;
    }
}

/// An answer record without a used place, with one after an unused one, of another relation
/// byte, with more than four places, or sound.
fn bad_answer(width: Width, random: &mut Random) -> Vec<u8> {
    let records: [&[u8]; 7] = [
        &[ANSWER],
        &[ANSWER, 0, UNUSED, 1],
        &[ANSWER - 1, 0],
        &[ANSWER, 0],
        &[ANSWER, 0, 1, 2, 3, 4],
        &[ANSWER, 0, 1, 2, 3, 4, 5],
        &[ANSWER, 0, UNUSED, UNUSED, UNUSED, UNUSED, 1],
    ];
    let mut record = random.one_of(&records).to_vec();
    record.resize(width.atom(), UNUSED);
    record
}
