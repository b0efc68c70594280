//! The same book or question under other names and in other orders, of which a search may depend
//! and an answer may not.

use super::parts::shuffled;
use crate::book::Book;
use crate::random::Random;
use crate::term::{Atom, Question, Term};

/// New names for variables, relations and constants: each list has every number once.
struct Names {
    variables: Vec<usize>,
    relations: Vec<usize>,
    constants: Vec<usize>,
}

impl Names {
    /// The term under its new name.
    fn term(&self, term: Term) -> Term {
        match term {
            Term::Variable(v) => Term::Variable(self.variables[v]),
            Term::Constant(c) => Term::Constant(self.constants[c]),
        }
    }

    /// Gives the atoms their new names.
    fn rename(&self, atoms: &mut [Atom]) {
        for atom in atoms {
            *atom = atom.map(|term| self.term(term));
            atom.relation = self.relations[atom.relation];
        }
    }
}

/// The numbers below this one in any order.
fn any_order(many: usize, random: &mut Random) -> Vec<usize> {
    shuffled((0..many).collect(), random)
}

/// The book with all that has a name renamed, and in half of the cases its rules in another order.
/// The question's atoms keep their order, which is the point of many a shape.
pub fn disguised(mut book: Book, random: &mut Random) -> Book {
    let variables = book.width.variables();
    let mut names = Names {
        variables: any_order(variables, random),
        relations: any_order(book.relations.len(), random),
        constants: any_order(book.constants, random),
    };
    for rule in &mut book.rules {
        names.rename(&mut rule.body);
        names.rename(&mut rule.head);
        names.variables = any_order(variables, random);
    }
    names.rename(&mut book.question.atoms);
    for term in &mut book.question.answer {
        *term = names.term(*term);
    }
    let places = book.relations.clone();
    for (relation, places) in places.into_iter().enumerate() {
        book.relations[names.relations[relation]] = places;
    }
    if random.percent(50) {
        book.rules = shuffled(book.rules, random);
    }
    book
}

/// The question with its variables, which are below this number, renamed.
pub fn renamed(question: &Question, variables: usize, random: &mut Random) -> Question {
    let names = any_order(variables, random);
    question.map(|term| match term {
        Term::Variable(v) => Term::Variable(names[v]),
        constant => constant,
    })
}
