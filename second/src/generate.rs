//! A deterministic source of books: sound ones of several shapes, and damaged ones.

use crate::book::{self, Book};
use crate::damage;
use crate::random::Random;
use crate::shapes::{Shape, SHAPES};
use crate::term::{variables, Atom, Question, Rule, Term};
use crate::width::{Width, WIDTHS};

/// The bytes of the next book: in three of four cases a sound one.
pub fn next(random: &mut Random) -> Vec<u8> {
    let book = sound(random);
    match random.percent(75) {
        true => book::write(&book),
        false => damage::damaged(&book, random),
    }
}

/// A sound book of some shape.
pub fn sound(random: &mut Random) -> Book {
    let shape = *random.one_of(SHAPES);
    let width = *random.one_of(&WIDTHS);
    shaped(shape, width, random)
}

/// In a hundred: relations of a new book that have five or six places.
const WIDER: usize = 15;

/// In a hundred: rules and questions of a new book whose variables are numbered further up.
const NUMBERED_UP: usize = 15;

/// A sound book of this shape and width. One in five of the new books has no wider relation.
pub fn shaped(shape: &'static Shape, width: Width, random: &mut Random) -> Book {
    let many = |random: &mut Random, (least, most): (usize, usize)| random.between(least, most);
    let wider = match width == Width::Six && random.percent(80) {
        true => WIDER,
        false => 0,
    };
    let relations: Vec<usize> = (0..many(random, shape.relations))
        .map(|_| match random.percent(wider) {
            true => random.between(5, 6),
            false => *random.one_of(shape.places),
        })
        .collect();
    let constants = many(random, shape.constants);
    let mut making = Making {
        shape,
        width,
        relations,
        constants,
        random,
    };
    let rules: Vec<Rule> = (0..many(making.random, shape.rules))
        .map(|_| making.rule())
        .collect();
    let atoms = making.question(&rules);
    let answer = making.answer(&atoms);
    let allowed = *making
        .random
        .one_of(&[1, 2, 3, 5, 10, 20, 60, 100, 1000, 1000]);
    Book {
        width,
        relations: making.relations,
        constants,
        rules,
        question: Question { answer, atoms },
        allowed,
    }
}

/// In a hundred: questions with answer places.
const ANSWERED: usize = 50;

/// A book being made.
struct Making<'r> {
    shape: &'static Shape,
    width: Width,
    relations: Vec<usize>,
    constants: usize,
    random: &'r mut Random,
}

impl Making<'_> {
    /// A rule, now and then a fact; the body sees only some of the variables, so that the
    /// head has unknowns.
    fn rule(&mut self) -> Rule {
        let (least, most) = self.shape.rule_variables;
        let variables = self.random.between(least, most);
        let (in_body, in_head, _) = self.shape.constants_in;
        let (of_body, of_head) = self.relations_of_rule();
        let body = match self.random.percent(self.shape.facts) {
            true => 0,
            false => *self.random.one_of(self.shape.body),
        };
        let head = *self.random.one_of(self.shape.head);
        let seen = self.random.between(1, variables);
        let mut rule = Rule {
            body: self.atoms(body, seen, in_body, &of_body),
            head: self.atoms(head, variables, in_head, &of_head),
        };
        self.number_up(&mut [&mut rule.body, &mut rule.head]);
        rule
    }

    /// Now and then, in a new book, numbers all variables of a rule or a question further up.
    fn number_up(&mut self, conjunctions: &mut [&mut Vec<Atom>]) {
        if self.width == Width::Four || !self.random.percent(NUMBERED_UP) {
            return;
        }
        let found = conjunctions.iter().flat_map(|atoms| variables(atoms)).max();
        let most = self.width.variables() - 1 - found.unwrap_or(0);
        let by = self.random.between(0, most);
        let up = |term| match term {
            Term::Variable(v) => Term::Variable(v + by),
            constant => constant,
        };
        let atoms = conjunctions.iter_mut().flat_map(|atoms| atoms.iter_mut());
        atoms.for_each(|atom| *atom = atom.map(up));
    }

    /// The relations for the body and the head of a rule: any, or in a layered book later
    /// ones and earlier ones.
    fn relations_of_rule(&mut self) -> (Vec<usize>, Vec<usize>) {
        let all: Vec<usize> = (0..self.relations.len()).collect();
        if !self.shape.layered {
            return (all.clone(), all);
        }
        let border = self.random.between(1, all.len() - 1);
        (all[border..].to_vec(), all[..border].to_vec())
    }

    /// The answer places of a question with these atoms, if it has any: mostly variables of
    /// the atoms, now and then a constant.
    fn answer(&mut self, atoms: &[Atom]) -> Vec<Term> {
        let variables = Vec::from_iter(variables(atoms));
        let constants = match variables.is_empty() {
            true => 100,
            false => 10,
        };
        let nothing = variables.is_empty() && self.constants == 0;
        if nothing || !self.random.percent(ANSWERED) {
            return Vec::new();
        }
        let places = *self.random.one_of(&[1, 1, 1, 2, 2, 2, 3, 4]);
        let chosen = (0..places).map(|_| match self.term(variables.len().max(1), constants) {
            Term::Variable(i) => Term::Variable(variables[i]),
            constant => constant,
        });
        chosen.collect()
    }

    /// The atoms of a question, mostly of relations that stand in some head; often they begin
    /// with a whole head, so that several are met at once.
    fn question(&mut self, rules: &[Rule]) -> Vec<Atom> {
        let heads: Vec<usize> = rules
            .iter()
            .flat_map(|rule| rule.head.iter().map(|atom| atom.relation))
            .collect();
        let (least, most) = self.shape.question_variables;
        let variables = self.random.between(least, most);
        let many = *self.random.one_of(self.shape.question);
        let mut atoms = Vec::new();
        if !rules.is_empty() && self.random.percent(self.shape.heads_asked) {
            let rule = self.random.one_of(rules);
            atoms = self.asked_head(rule);
        }
        for _ in atoms.len()..many {
            let asked = match heads.is_empty() || self.random.percent(25) {
                true => (0..self.relations.len()).collect(),
                false => heads.clone(),
            };
            atoms.extend(self.atoms(1, variables, self.shape.constants_in.2, &asked));
        }
        self.repeat(&mut atoms);
        self.number_up(&mut [&mut atoms]);
        atoms
    }

    /// A rule's head as question atoms, in some order, now and then two variables made
    /// one or a place filled with another variable.
    fn asked_head(&mut self, rule: &Rule) -> Vec<Atom> {
        let mut atoms = rule.head.clone();
        let turn = self.random.below(atoms.len());
        atoms.rotate_left(turn);
        if self.random.percent(30) {
            let (from, to) = (self.random.below(4), self.random.below(4));
            for atom in &mut atoms {
                *atom = atom.map(|t| match t == Term::Variable(from) {
                    true => Term::Variable(to),
                    false => t,
                });
            }
        }
        if self.random.percent(30) {
            let at = self.random.below(atoms.len());
            let place = self.random.below(atoms[at].terms.len());
            atoms[at].terms[place] = Term::Variable(self.random.below(8));
        }
        atoms
    }

    /// So many atoms of these relations over so many variables.
    fn atoms(
        &mut self,
        many: usize,
        variables: usize,
        constants: usize,
        of: &[usize],
    ) -> Vec<Atom> {
        let mut atoms: Vec<Atom> = (0..many)
            .map(|_| self.atom(variables, constants, of))
            .collect();
        self.repeat(&mut atoms);
        atoms
    }

    /// Now and then puts an atom in the place of another.
    fn repeat(&mut self, atoms: &mut [Atom]) {
        if self.random.percent(self.shape.repeats * atoms.len()) {
            let (from, to) = (
                self.random.below(atoms.len()),
                self.random.below(atoms.len()),
            );
            atoms[to] = atoms[from].clone();
        }
    }

    /// One atom of one of these relations.
    fn atom(&mut self, variables: usize, constants: usize, of: &[usize]) -> Atom {
        let relation = *self.random.one_of(of);
        let terms = (0..self.relations[relation])
            .map(|_| self.term(variables, constants))
            .collect();
        Atom::new(relation, terms)
    }

    /// One term.
    fn term(&mut self, variables: usize, constants: usize) -> Term {
        if self.constants > 0 && self.random.percent(constants) {
            return Term::Constant(self.random.below(self.constants));
        }
        Term::Variable(self.random.below(variables))
    }
}
