//! The search desk: covering on member records.

use crate::atom::{
    record_length, Atom, ANSWER, ANSWER_PLACES, FIRST_CONSTANT, FOUR, RELATIONS, SIX, UNUSED,
};
use crate::cover;
use crate::pattern::{Pattern, MOST_ATOMS};
use crate::target::Target;

/// Every variable of a desk record is below this.
const fn desk_variables(places: usize) -> u8 {
    match places {
        SIX => 66,
        _ => 64,
    }
}

/// A sound record: its answer record, or none, and its atoms.
struct Record<const W: usize> {
    answer: Atom<W>,
    count: usize,
    atoms: [Atom<W>; MOST_ATOMS],
}

/// Whether the first record covers the second: 0 no, 1 yes, 2 the first is malformed, 3 the
/// second is; 2 wins. The records have room for so many places, four or six.
pub fn covers(first: &[u8], second: &[u8], places: usize) -> u8 {
    match places {
        FOUR => covers_of::<FOUR>(first, second),
        SIX => covers_of::<SIX>(first, second),
        _ => 2,
    }
}

/// Which of two records to keep: 1 the first if it covers the second, else 2 the second if
/// it covers the first; 0 neither, or one is malformed.
pub fn kept(first: &[u8], second: &[u8], places: usize) -> u8 {
    match places {
        FOUR => kept_of::<FOUR>(first, second),
        SIX => kept_of::<SIX>(first, second),
        _ => 0,
    }
}

/// Covering of records of one width.
fn covers_of<const W: usize>(first: &[u8], second: &[u8]) -> u8 {
    match (Record::<W>::of(first), Record::of(second)) {
        (None, _) => 2,
        (_, None) => 3,
        (Some(first), Some(second)) => first.covers(&second) as u8,
    }
}

/// Keeping of records of one width.
fn kept_of<const W: usize>(first: &[u8], second: &[u8]) -> u8 {
    let (Some(first), Some(second)) = (Record::<W>::of(first), Record::of(second)) else {
        return 0;
    };
    if first.covers(&second) {
        return 1;
    }
    match second.covers(&first) {
        true => 2,
        false => 0,
    }
}

impl<const W: usize> Record<W> {
    /// The record in these bytes, if it is sound. It has an answer record, which is not
    /// counted, exactly if 255 stands after the count.
    fn of(bytes: &[u8]) -> Option<Record<W>> {
        let (&count, rest) = bytes.split_first()?;
        let (count, answered) = (count as usize, rest.first() == Some(&ANSWER));
        let answers = answered as usize;
        if count > MOST_ATOMS || rest.len() != record_length(W) * (count + answers) {
            return None;
        }
        let variables = desk_variables(W);
        let (answer, rest) = rest.split_at(record_length(W) * answers);
        let mut record = Record {
            answer: Atom::NONE,
            count,
            atoms: [Atom::NONE; MOST_ATOMS],
        };
        if answered {
            record.answer =
                has_places(answer, ANSWER_PLACES, variables).then(|| Atom::of(answer))?;
        }
        for (atom, bytes) in record.atoms.iter_mut().zip(rest.chunks(record_length(W))) {
            let sound = (bytes[0] as usize) < RELATIONS && has_places(bytes, W, variables);
            *atom = sound.then(|| Atom::of(bytes))?;
        }
        Some(record)
    }

    /// Its atoms.
    fn atoms(&self) -> &[Atom<W>] {
        &self.atoms[..self.count]
    }

    /// Its relations as bits.
    fn relations(&self) -> u64 {
        let atoms = self.atoms().iter();
        atoms.fold(0, |relations, atom| relations | atom.relation_bit())
    }

    /// Whether this record covers the other. One with a relation or a number of answer places
    /// that the other has not is answered before anything is made ready.
    fn covers(&self, other: &Record<W>) -> bool {
        let beside = self.relations() & !other.relations();
        if beside != 0 || self.answer.used() != other.answer.used() {
            return false;
        }
        let pattern = Pattern::of(self.answer, self.atoms());
        let mut target = Target::new();
        target.fill(other.answer, other.atoms());
        cover::covers(&pattern, &target)
    }
}

/// Whether the first one or more places, at most so many, hold terms, their variables below
/// this one, and the rest is unused.
fn has_places(record: &[u8], most: usize, variables: u8) -> bool {
    let places = &record[1..];
    let is_term = |&term: &u8| term < variables || (FIRST_CONSTANT..UNUSED).contains(&term);
    let used = places.iter().take_while(|term| is_term(term)).count();
    (1..=most).contains(&used) && places[used..].iter().all(|&place| place == UNUSED)
}
