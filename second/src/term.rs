//! Terms, atoms, questions and rules ("Words").

use std::collections::BTreeSet;

/// "A term is a variable or a constant."
#[derive(Clone, Copy, Debug, PartialEq, Eq, PartialOrd, Ord, Hash)]
pub enum Term {
    Variable(usize),
    Constant(usize),
}

impl Term {
    /// The number of a variable; none for a constant.
    pub fn variable(&self) -> Option<usize> {
        match self {
            Term::Variable(v) => Some(*v),
            Term::Constant(_) => None,
        }
    }
}

/// "An atom is a relation with one to four terms."
#[derive(Clone, Debug, PartialEq, Eq, PartialOrd, Ord, Hash)]
pub struct Atom {
    pub relation: usize,
    pub terms: Vec<Term>,
}

/// "Question, body and head are conjunctions"; "a question may have one to four answer
/// places".
#[derive(Clone, Debug, PartialEq, Eq)]
pub struct Question {
    /// The terms of the answer record; none if the question is Boolean.
    pub answer: Vec<Term>,
    pub atoms: Vec<Atom>,
}

/// A rule: its body, and the head that applying it adds. "A fact is a rule with an empty
/// body."
#[derive(Clone, Debug, PartialEq, Eq)]
pub struct Rule {
    pub body: Vec<Atom>,
    pub head: Vec<Atom>,
}

impl Atom {
    /// An atom of this relation with these terms.
    pub fn new(relation: usize, terms: Vec<Term>) -> Atom {
        Atom { relation, terms }
    }

    /// The atom with every term replaced by what `to` gives for it.
    pub fn map(&self, mut to: impl FnMut(Term) -> Term) -> Atom {
        Atom::new(self.relation, self.terms.iter().map(|&t| to(t)).collect())
    }
}

impl Question {
    /// The question whether these atoms hold.
    pub fn boolean(atoms: Vec<Atom>) -> Question {
        let answer = Vec::new();
        Question { answer, atoms }
    }

    /// The question whether its atoms hold, for whatever answer.
    pub fn unanswered(&self) -> Question {
        Question::boolean(self.atoms.clone())
    }

    /// The question with every term replaced by what `to` gives for it, asked for the
    /// answer record first.
    pub fn map(&self, mut to: impl FnMut(Term) -> Term) -> Question {
        Question {
            answer: self.answer.iter().map(|&t| to(t)).collect(),
            atoms: self.atoms.iter().map(|atom| atom.map(&mut to)).collect(),
        }
    }

    /// The question with its atoms from the last to the first.
    pub fn turned_round(&self) -> Question {
        let mut turned = self.clone();
        turned.atoms.reverse();
        turned
    }

    /// Whether there is an answer record.
    pub fn is_answered(&self) -> bool {
        !self.answer.is_empty()
    }

    /// Whether it has no atoms: it "holds in every ledger, the empty one too", for every
    /// row that its answer record allows.
    pub fn is_always(&self) -> bool {
        self.atoms.is_empty()
    }

    /// Whether every answer variable stands in some atom.
    pub fn is_bound(&self) -> bool {
        let mut asked = self.answer.iter().filter_map(Term::variable);
        asked.all(|v| occurs(v, &self.atoms))
    }
}

/// The variables that occur in these atoms.
pub fn variables(atoms: &[Atom]) -> BTreeSet<usize> {
    let terms = atoms.iter().flat_map(|atom| &atom.terms);
    terms.filter_map(Term::variable).collect()
}

impl Rule {
    /// Whether nothing stands before the arrow.
    pub fn is_fact(&self) -> bool {
        self.body.is_empty()
    }

    /// "a variable in both body and head is a frontier variable"
    pub fn is_frontier(&self, variable: usize) -> bool {
        occurs(variable, &self.body) && occurs(variable, &self.head)
    }

    /// "one in the head only is existential (an unknown)"
    pub fn is_existential(&self, variable: usize) -> bool {
        !occurs(variable, &self.body) && occurs(variable, &self.head)
    }
}

/// Whether the variable occurs in one of the atoms.
pub fn occurs<'a>(variable: usize, atoms: impl IntoIterator<Item = &'a Atom>) -> bool {
    let mut atoms = atoms.into_iter();
    atoms.any(|atom| atom.terms.contains(&Term::Variable(variable)))
}
