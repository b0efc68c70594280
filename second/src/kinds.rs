//! The kinds of pairs that the search desk is asked about, and how many there were of each.

use crate::cover::{self, Map};
use crate::desk::{covers, question_of};
use crate::layout::{ANSWER, UNUSED};
use crate::pairs::Pair;
use crate::term::{occurs, Question};
use crate::width::Width;

/// What a pair can be: in words, and whether one is such.
pub type Kind = (&'static str, fn(&Judged) -> bool);

/// Every pair is of one of the first seven kinds, and of any of the others.
pub const KINDS: &[Kind] = &[
    ("the first covers the second alone", |p| p.both == (1, 0)),
    ("the second covers the first alone", |p| p.both == (0, 1)),
    ("equivalent", |p| p.both == (1, 1)),
    ("incomparable", |p| p.both == (0, 0)),
    ("the first malformed", |p| p.both == (2, 3)),
    ("the second malformed", |p| p.both == (3, 2)),
    ("both malformed", |p| p.both == (2, 2)),
    ("the first kept, its last map another", |p| {
        p.both.0 == 1 && p.are_maps(|maps| maps.candidates)
    }),
    ("the second kept, its last map another", |p| {
        p.both.0 == 0 && p.are_maps(|maps| maps.candidates)
    }),
    (
        "the first kept, atoms from behind giving another map",
        |p| p.both.0 == 1 && p.are_maps(|maps| maps.atoms),
    ),
    ("answers kept, their last map another", |p| {
        p.are_places(equal) && p.are_maps(|maps| maps.candidates)
    }),
    ("answers on neither", |p| p.places == Some((0, 0))),
    ("answers on the first alone", |p| {
        p.are_places(|a, b| a > b && b == 0)
    }),
    ("answers on the second alone", |p| {
        p.are_places(|a, b| b > a && a == 0)
    }),
    ("answers on one alone, the atoms covered", |p| {
        p.atoms_covered && p.are_places(one_alone)
    }),
    ("answers of unequal places", |p| p.are_places(unequal)),
    ("answers of unequal places, the atoms covered", |p| {
        p.atoms_covered && p.are_places(unequal)
    }),
    ("answers of equal places, covered", |p| {
        p.both.0 == 1 && p.are_places(equal)
    }),
    ("answers of equal places, the atoms alone covered", |p| {
        p.both.0 == 0 && p.atoms_covered && p.are_places(equal)
    }),
    ("answers of four places, covered", |p| {
        p.both.0 == 1 && p.places == Some((4, 4))
    }),
    ("an answer variable in no atom, covering", |p| {
        p.both.0 == 1 && p.is_first(|a| !a.is_bound())
    }),
    ("answers and eleven atoms", |p| {
        p.is_first(|a| a.is_answered() && a.atoms.len() == 11)
    }),
    ("no atoms on either", |p| p.sizes == Some((0, 0))),
    ("no atoms or answers on the first, covering atoms", |p| {
        p.both == (1, 0) && p.places == Some((0, 0)) && p.are_sizes(|a, b| a == 0 && b > 0)
    }),
    ("no atoms or answers on the second, not covered", |p| {
        p.both == (0, 1) && p.places == Some((0, 0)) && p.are_sizes(|a, b| a > 0 && b == 0)
    }),
    ("no atoms on the first, answers covering", |p| {
        p.both.0 == 1 && p.are_places(equal) && p.are_sizes(|a, b| a == 0 && b > 0)
    }),
    ("no atoms on the first, answers not covering", |p| {
        p.both.0 == 0 && p.are_places(equal) && p.are_sizes(|a, _| a == 0)
    }),
    ("no atoms on either, answers covering", |p| {
        p.both.0 == 1 && p.are_places(equal) && p.are_sizes(|a, b| a + b == 0)
    }),
    ("no atoms on the first, answers on one alone", |p| {
        p.are_places(one_alone) && p.are_sizes(|a, _| a == 0)
    }),
    ("no atoms on the first, answers of unequal places", |p| {
        p.are_places(unequal) && p.are_sizes(|a, _| a == 0)
    }),
    ("no atoms, four answer places", |p| {
        p.is_first(|a| a.is_always() && a.answer.len() == 4)
    }),
    ("no atoms, constants alone to answer", |p| {
        p.is_first(|a| a.is_always() && a.is_answered() && a.is_bound())
    }),
    ("malformed: count 0 and bytes after it", |p| {
        p.is_no_always() && p.first.len() > 1 && p.first[1] != ANSWER
    }),
    (
        "malformed: count 0, an answer record that does not fit",
        |p| p.is_no_always() && p.is_no_answered() && p.first.len() != 1 + p.atom(),
    ),
    ("malformed: count 0 and a bad answer record", |p| {
        p.is_no_always() && p.is_no_answered() && p.first.len() == 1 + p.atom()
    }),
    ("malformed: an answer record, as long as without one", |p| {
        p.is_no_answered() && p.first.len() == 1 + p.atom() * p.first[0] as usize
    }),
    ("malformed: an answer record, no place used", |p| {
        p.is_no_answered() && p.first.get(2) == Some(&UNUSED)
    }),
    (
        "malformed: an answer record, a place unused before a used one",
        |p| {
            let gap = |places: &[u8]| places[0] < 64 && places[1] == UNUSED && places[2] != UNUSED;
            p.is_no_answered() && p.first.get(2..6).is_some_and(gap)
        },
    ),
    ("malformed: relation byte 255 after the first", |p| {
        let mut later = p.first.iter().skip(1).step_by(p.atom()).skip(1);
        p.both.0 == 2 && later.any(|relation| *relation == ANSWER)
    }),
    ("width 4, covered", |p| p.is_covered_of(Width::Four)),
    ("width 6, covered", |p| p.is_covered_of(Width::Six)),
    ("width 6, covered by atoms of six places", |p| {
        p.is_covered_of(Width::Six) && p.is_first(|a| has_wide(a, 6))
    }),
    ("width 6, covered by atoms of five places", |p| {
        p.is_covered_of(Width::Six) && p.is_first(|a| has_wide(a, 5))
    }),
    ("width 6, covered, variable 65 sent", |p| {
        p.both.0 == 1 && p.is_first(|a| has_variable(a, 65))
    }),
    ("width 6, answers covered", |p| {
        p.is_covered_of(Width::Six) && p.are_places(equal)
    }),
    ("malformed: another width than 4 or 6", |p| {
        p.width.is_none()
    }),
    ("malformed: told the other width", |p| {
        let other = p.width.map(|width| width.other().places());
        let sound = |record| other.is_some_and(|w| question_of(record, w).is_some());
        p.both == (2, 2) && sound(p.first) && p.first.len() > 1
    }),
    ("malformed: width 6, an answer's fifth place used", |p| {
        p.is_no_six()
            && p.first[1..6]
                .iter()
                .all(|&byte| byte < 66 || byte == ANSWER)
            && p.first[6] != UNUSED
    }),
    (
        "malformed: width 6, an answer's sixth place alone used",
        |p| p.is_no_six() && p.first[6] == UNUSED && p.first[7] != UNUSED,
    ),
];

/// Whether an atom has so many places.
fn has_wide(question: &Question, places: usize) -> bool {
    question.atoms.iter().any(|atom| atom.terms.len() == places)
}

/// Whether this variable stands in an atom.
fn has_variable(question: &Question, variable: usize) -> bool {
    occurs(variable, &question.atoms)
}

/// Whether one record alone has answer places, of these numbers.
fn one_alone(a: usize, b: usize) -> bool {
    (a == 0) != (b == 0)
}

/// Whether both have, but not as many.
fn unequal(a: usize, b: usize) -> bool {
    a > 0 && b > 0 && a != b
}

/// Whether both have as many.
fn equal(a: usize, b: usize) -> bool {
    a > 0 && a == b
}

/// A pair with what there is to say about it.
pub struct Judged<'p> {
    first: &'p [u8],
    /// The width that is told, if it is one.
    width: Option<Width>,
    /// What covering gives, and what it gives for the pair turned round.
    both: (u8, u8),
    /// The first's question, if its record is sound.
    question: Option<Question>,
    /// How many answer places the records have, if both are sound.
    places: Option<(usize, usize)>,
    /// And how many atoms.
    sizes: Option<(usize, usize)>,
    /// Whether the first's atoms alone cover the second's.
    atoms_covered: bool,
    /// What is to say of the maps of the record that is kept, if one is.
    maps: Option<Maps>,
}

/// Which orders other than the right one give another map of one question to another.
struct Maps {
    /// Candidates taken from behind: the last map is not the first one.
    candidates: bool,
    /// Atoms taken from behind.
    atoms: bool,
}

impl Maps {
    /// The maps of the first of these to the second, if there is one.
    fn of(a: &Question, b: &Question) -> Option<Maps> {
        let first = cover::first_map(a, b)?;
        let differs = |other: Option<Map>| {
            let other = other.expect("in whatever order, there is a map");
            let mut images = first.images().iter();
            images.any(|(v, image)| other.image(*v) != Some(*image))
        };
        Some(Maps {
            candidates: differs(cover::first_map(a, &b.turned_round())),
            atoms: differs(cover::first_map(&a.turned_round(), b)),
        })
    }
}

impl Judged<'_> {
    /// A pair, judged.
    pub fn new(pair: &Pair) -> Judged<'_> {
        let Pair {
            width,
            first,
            second,
        } = pair;
        let covers = |a, b| covers(a, b, *width).number;
        let question_of = |record| question_of(record, *width);
        let questions = question_of(first).zip(question_of(second));
        let questions = questions.as_ref();
        let atoms_covered =
            |(a, b): &(Question, Question)| cover::covers(&a.unanswered(), &b.unanswered());
        Judged {
            first,
            width: Width::of(*width),
            both: (covers(first, second), covers(second, first)),
            question: question_of(first),
            places: questions.map(|(a, b)| (a.answer.len(), b.answer.len())),
            sizes: questions.map(|(a, b)| (a.atoms.len(), b.atoms.len())),
            atoms_covered: questions.is_some_and(atoms_covered),
            maps: questions.and_then(|(a, b)| Maps::of(a, b).or_else(|| Maps::of(b, a))),
        }
    }

    /// The bytes of an atom; of no width as of the narrower.
    fn atom(&self) -> usize {
        self.width.unwrap_or(Width::Four).atom()
    }

    /// Whether the records are of this width and the first covers the second.
    fn is_covered_of(&self, width: Width) -> bool {
        self.width == Some(width) && self.both.0 == 1
    }

    /// Whether the first record is malformed, of width 6, and long enough for an answer record,
    /// as which it begins.
    fn is_no_six(&self) -> bool {
        self.is_no_answered() && self.width == Some(Width::Six) && self.first.len() > 7
    }

    /// Whether one record is kept and this holds of its maps.
    fn are_maps(&self, such: fn(&Maps) -> bool) -> bool {
        self.maps.as_ref().is_some_and(such)
    }

    /// Whether both records are sound and this holds of their numbers of answer places.
    fn are_places(&self, such: fn(usize, usize) -> bool) -> bool {
        self.places.is_some_and(|(a, b)| such(a, b))
    }

    /// Whether both records are sound and this holds of their numbers of atoms.
    fn are_sizes(&self, such: fn(usize, usize) -> bool) -> bool {
        self.sizes.is_some_and(|(a, b)| such(a, b))
    }

    /// Whether the first record is sound and this holds of its question.
    fn is_first(&self, such: fn(&Question) -> bool) -> bool {
        self.question.as_ref().is_some_and(such)
    }

    /// Whether the first record is malformed and begins as one with an answer record.
    fn is_no_answered(&self) -> bool {
        self.both.0 == 2 && self.first.get(1) == Some(&ANSWER)
    }

    /// Whether the first record is malformed and begins with the count 0.
    fn is_no_always(&self) -> bool {
        self.both.0 == 2 && self.first.first() == Some(&0)
    }
}

/// How many pairs there were, and how many of each kind.
pub struct Kinds {
    pub pairs: usize,
    pub counts: [usize; KINDS.len()],
}

impl Default for Kinds {
    /// No pair yet.
    fn default() -> Kinds {
        let counts = [0; KINDS.len()];
        Kinds { pairs: 0, counts }
    }
}

impl Kinds {
    /// Adds the pairs of another count.
    pub fn add(&mut self, other: &Kinds) {
        self.pairs += other.pairs;
        for (mine, theirs) in self.counts.iter_mut().zip(&other.counts) {
            *mine += theirs;
        }
    }

    /// Counts a pair.
    pub fn count(&mut self, pair: &Pair) {
        let judged = Judged::new(pair);
        self.pairs += 1;
        for (count, (_, is_such)) in self.counts.iter_mut().zip(KINDS) {
            *count += is_such(&judged) as usize;
        }
    }

    /// A line for each kind with its count.
    pub fn table(&self) -> String {
        let counted = self.counts.iter().zip(KINDS);
        counted
            .map(|(count, (words, _))| format!("{count:>10}  {words}\n"))
            .collect()
    }
}
