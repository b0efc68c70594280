//! Edge books: rules over one relation, and a question whose atoms all may be sent to them.

use super::asked::asked;
use super::atoms::{Drawn, Filling};
use super::change::changed;
use super::disguise::disguised;
use super::heads;
use super::rounds::Rounds;
use crate::book::Book;
use crate::random::Random;
use crate::term::{variables, Atom, Question, Rule, Term};
use crate::width::{Width, WIDTHS};

/// The most rules of a book, and the most atoms of its question.
const RULES: usize = 32;
const ATOMS: usize = 8;

/// In a hundred: books whose question has as many atoms as may be, with words and widening, with a
/// question about named things, with answer places, and changed in one place.
const FULL: usize = 35;
const IN_ROUNDS: usize = 30;
const NAMED: usize = 12;
const ANSWERED: usize = 25;
const CHANGED: usize = 25;

/// The relation of the arrows, which is the first.
const ARROWS: usize = 0;

/// The next edge book, sound, of either form.
pub fn book(random: &mut Random) -> Book {
    let width = *random.one_of(&WIDTHS);
    let book = disguised(plain(width, random), random);
    match random.percent(CHANGED) {
        true => changed(&book, random),
        false => book,
    }
}

/// One as it was thought of, before it is disguised.
fn plain(width: Width, random: &mut Random) -> Book {
    let drawn = Drawn {
        relation: ARROWS,
        places: *random.one_of(&[1, 2, 2, 2, 3, width.places()]),
        filling: Filling::any(random),
    };
    let mut making = Making {
        relations: vec![drawn.places],
        constants: 0,
        rules: Vec::new(),
        atoms: Vec::new(),
    };
    let rounds = random.percent(IN_ROUNDS);
    making.ask(drawn, rounds, random);
    if rounds {
        making.put_rounds(random);
    }
    making.put_rules(drawn, width, random);
    let answer = answer(&making.atoms, random);
    Book {
        width,
        relations: making.relations,
        constants: making.constants,
        rules: making.rules,
        question: Question {
            answer,
            atoms: making.atoms,
        },
        allowed: *random.one_of(&[1000, 1000, 1000, 100, 10]),
    }
}

/// The answer places of a question, if it is to have any: variables of its atoms.
fn answer(atoms: &[Atom], random: &mut Random) -> Vec<Term> {
    let variables = Vec::from_iter(variables(atoms));
    if variables.is_empty() || !random.percent(ANSWERED) {
        return Vec::new();
    }
    let places = random.between(1, 4);
    let chosen = |_| Term::Variable(*random.one_of(&variables));
    (0..places).map(chosen).collect()
}

/// A book being made.
struct Making {
    relations: Vec<usize>,
    constants: usize,
    rules: Vec<Rule>,
    atoms: Vec<Atom>,
}

impl Making {
    /// Puts the question's arrows, often as many as may be; one fewer where a word is asked too. Now
    /// and then the points that they come from are named things.
    fn ask(&mut self, drawn: Drawn, rounds: bool, random: &mut Random) {
        let most = ATOMS - rounds as usize;
        let many = match random.percent(FULL) {
            true => most,
            false => random.between(2, most),
        };
        self.atoms = drawn.atoms(&asked(many, random));
        if random.percent(NAMED) {
            for (name, atom) in self.atoms.iter_mut().enumerate() {
                atom.terms[0] = Term::Constant(name);
            }
            self.constants = many;
        }
    }

    /// Puts words and widening, and asks the narrow atom before or after the others.
    fn put_rounds(&mut self, random: &mut Random) {
        let rounds = Rounds {
            relation: self.relation(4),
            words: *random.one_of(&[2, 4, 8, 16]),
            narrow: self.constants,
        };
        self.constants += rounds.constants();
        self.rules.extend(rounds.rules());
        let at = *random.one_of(&[0, self.atoms.len()]);
        self.atoms.insert(at, rounds.asked());
    }

    /// Puts rules that the arrows go to: one to a few, or as many as there may be, all of one head
    /// or of several.
    fn put_rules(&mut self, drawn: Drawn, width: Width, random: &mut Random) {
        let room = RULES - self.rules.len();
        let many = *random.one_of(&[1, 2, 2, 3, 4, 8, room]);
        let known = *random.one_of(&[4, 4, width.places()]);
        let (mut head, mut more) = (heads::any(random), heads::more_body(random));
        let several = random.percent(60);
        for _ in 0..many.min(room) {
            let by = (self.relation(known), known);
            let drawn = drawn.perhaps_otherwise(random);
            self.rules.push(heads::rule(&head, &more, drawn, by));
            if several {
                (head, more) = (heads::any(random), heads::more_body(random));
            }
        }
    }

    /// A new relation of so many places.
    fn relation(&mut self, places: usize) -> usize {
        self.relations.push(places);
        self.relations.len() - 1
    }
}
