//! One-step rewritings: every choice by counting, its classes made from scratch, its
//! validity by the paper's words.

use crate::budget;
use crate::form::form;
use crate::seen::Behaviour;
use crate::term::{occurs, Atom, Question, Rule, Term};

/// A term with the rule's variables kept apart from the question's. A constant is one
/// term wherever it stands.
#[derive(Clone, Copy, Debug, PartialEq, Eq, PartialOrd, Ord)]
pub enum Apart {
    OfQuestion(usize),
    OfRule(usize),
    Constant(usize),
}

/// Sets of terms, no term in two of them.
pub type Classes = Vec<Vec<Apart>>;

/// A question, a rule, and a digit for each question atom: 0 leaves it, 1 to h sends
/// it to that head atom. The answer record has no digit: it is "always left".
pub struct Choice<'a> {
    pub question: &'a Question,
    pub rule: &'a Rule,
    pub digits: Vec<usize>,
}

/// The question's variables and constants as terms kept apart.
pub fn of_question(term: Term) -> Apart {
    match term {
        Term::Variable(v) => Apart::OfQuestion(v),
        Term::Constant(c) => Apart::Constant(c),
    }
}

/// The rule's variables and constants as terms kept apart.
pub fn of_rule(term: Term) -> Apart {
    match term {
        Term::Variable(v) => Apart::OfRule(v),
        Term::Constant(c) => Apart::Constant(c),
    }
}

/// (h + 1)^n: how many choices there are, the one that leaves every atom among them.
pub fn choice_count(h: usize, n: usize) -> u64 {
    (h as u64 + 1).pow(n as u32)
}

/// The digits of a choice's number in base h + 1, "the first atom being the most
/// significant digit".
pub fn digits_of(number: u64, h: usize, n: usize) -> Vec<usize> {
    let mut digits = vec![0; n];
    put_digits(number, h, &mut digits);
    digits
}

/// Puts the digits of a choice's number there.
fn put_digits(number: u64, h: usize, digits: &mut [usize]) {
    let base = h as u64 + 1;
    let mut rest = number;
    for digit in digits.iter_mut().rev() {
        *digit = (rest % base) as usize;
        rest /= base;
    }
}

/// Calls `visit` with each choice in which "relations must agree", in ascending order,
/// until `visit` answers false or the budget is used up. Nothing else is skipped.
pub fn for_each_choice(
    question: &Question,
    rule: &Rule,
    visit: &mut dyn FnMut(u64, &Choice) -> bool,
) {
    let (n, h) = (question.atoms.len(), rule.head.len());
    let mut number = 1;
    let mut choice = Choice {
        question,
        rule,
        digits: vec![0; n],
    };
    while number < choice_count(h, n) && budget::take(budget::CHOICE) {
        put_digits(number, h, &mut choice.digits);
        match first_disagreement(&question.atoms, rule, &choice.digits) {
            Some(at) => {
                // No choice with these digits up to `at` agrees.
                let below = choice_count(h, n - 1 - at);
                number = (number / below + 1) * below;
            }
            None => {
                if !visit(number, &choice) {
                    return;
                }
                number += 1;
            }
        }
    }
}

/// The first question atom that is sent to a head atom of another relation.
fn first_disagreement(question: &[Atom], rule: &Rule, digits: &[usize]) -> Option<usize> {
    digits
        .iter()
        .zip(question)
        .position(|(&digit, atom)| digit > 0 && rule.head[digit - 1].relation != atom.relation)
}

impl Choice<'_> {
    /// The question atoms that are left. The answer record always is.
    pub fn left(&self) -> Vec<&Atom> {
        let pairs = self.question.atoms.iter().zip(&self.digits);
        let left = pairs.filter(|(_, &digit)| digit == 0);
        left.map(|(atom, _)| atom).collect()
    }

    /// The question atoms that are sent, each with its head atom.
    pub fn sent(&self) -> Vec<(&Atom, &Atom)> {
        let pairs = self.question.atoms.iter().zip(&self.digits);
        let sent = pairs.filter(|(_, &digit)| digit > 0);
        sent.map(|(atom, &digit)| (atom, &self.rule.head[digit - 1]))
            .collect()
    }

    /// The question atoms that are sent.
    pub fn unified(&self) -> Vec<&Atom> {
        let sent = self.sent().into_iter();
        sent.map(|(atom, _)| atom).collect()
    }

    /// "terms at equal places are put in one class, as coarse as this requires and no
    /// coarser"
    pub fn classes(&self) -> Classes {
        let mut classes = Classes::new();
        for (atom, head) in self.sent() {
            for (&t, &u) in atom.terms.iter().zip(&head.terms) {
                put_together(&mut classes, of_question(t), of_rule(u));
            }
        }
        classes
    }

    /// What is wrong with the classes; nothing if the choice is valid: "no class has two
    /// constants, and a class with an existential variable has otherwise only question
    /// variables that occur in no left atom", the answer record among them.
    pub fn faults(&self, classes: &Classes) -> Vec<Behaviour> {
        self.faults_against(classes, &self.question.answer, &self.left())
    }

    /// The same, with this answer record and these atoms in the place of what is left.
    pub fn faults_against(
        &self,
        classes: &Classes,
        answer: &[Term],
        left: &[&Atom],
    ) -> Vec<Behaviour> {
        let mut faults = Vec::new();
        for class in classes {
            let constants = class.iter().filter(|t| is_constant(t)).count();
            if constants > 1 {
                faults.push(Behaviour::TwoConstants);
            }
            for unknown in class.iter().filter(|t| self.is_unknown(t)) {
                let others = class.iter().filter(|other| *other != unknown);
                let fault = |other| self.fault_beside_unknown(other, answer, left);
                faults.extend(others.filter_map(fault));
            }
        }
        faults
    }

    /// What is wrong with this term standing in a class beside an unknown, if anything.
    fn fault_beside_unknown(
        &self,
        other: &Apart,
        answer: &[Term],
        left: &[&Atom],
    ) -> Option<Behaviour> {
        let answered = |v| answer.contains(&Term::Variable(v));
        let is_left = |v| occurs(v, left.iter().copied());
        match *other {
            Apart::Constant(_) => Some(Behaviour::UnknownConstant),
            Apart::OfRule(v) if self.rule.is_existential(v) => Some(Behaviour::UnknownUnknown),
            Apart::OfRule(_) => Some(Behaviour::UnknownFrontier),
            Apart::OfQuestion(v) if is_left(v) => Some(Behaviour::UnknownLeft),
            Apart::OfQuestion(v) if answered(v) => Some(Behaviour::UnknownAnswer),
            Apart::OfQuestion(_) => None,
        }
    }

    /// Whether the term is an existential variable of the rule.
    pub fn is_unknown(&self, term: &Apart) -> bool {
        match *term {
            Apart::OfRule(v) => self.rule.is_existential(v),
            _ => false,
        }
    }

    /// "The rewriting is the left atoms, then the rule's body, each class replaced by its
    /// constant or else one variable of it", before the form is taken.
    pub fn unformed(&self, classes: &Classes) -> Question {
        let left_term = |t| plain(replaced(classes, of_question(t)));
        let body_term = |t| plain(replaced(classes, of_rule(t)));
        let left = self.left().into_iter().map(|atom| atom.map(left_term));
        let body = self.rule.body.iter().map(|atom| atom.map(body_term));
        let answer = self.question.answer.iter().copied();
        Question {
            answer: answer.map(left_term).collect(),
            atoms: left.chain(body).collect(),
        }
    }

    /// The rewriting in its form.
    pub fn rewriting(&self, classes: &Classes) -> Question {
        form(&self.unformed(classes))
    }

    /// How many pieces are sent: sets of sent atoms glued by question variables that
    /// stand in a class with an unknown (source document 000, section 4.1).
    pub fn pieces(&self, classes: &Classes) -> usize {
        let mut pieces: Vec<Vec<&Atom>> = Vec::new();
        for (atom, _) in self.sent() {
            let glued = |piece: &Vec<&Atom>| piece.iter().any(|b| self.glued(classes, atom, b));
            let (touching, mut apart): (Vec<_>, Vec<_>) = pieces.into_iter().partition(glued);
            let mut joined: Vec<&Atom> = touching.into_iter().flatten().collect();
            joined.push(atom);
            apart.push(joined);
            pieces = apart;
        }
        pieces.len()
    }

    /// Whether two question atoms share a variable that meets an unknown.
    fn glued(&self, classes: &Classes, a: &Atom, b: &Atom) -> bool {
        let meets = |t: Term| {
            let with = classes.iter().find(|class| class.contains(&of_question(t)));
            with.is_some_and(|class| class.iter().any(|u| self.is_unknown(u)))
        };
        a.terms.iter().any(|t| b.terms.contains(t) && meets(*t))
    }
}

/// Makes one class of the classes of two terms.
fn put_together(classes: &mut Classes, t: Apart, u: Apart) {
    let at = |term| classes.iter().position(|class| class.contains(term));
    match (at(&t), at(&u)) {
        (None, None) if t == u => classes.push(vec![t]),
        (None, None) => classes.push(vec![t, u]),
        (Some(i), None) => classes[i].push(u),
        (None, Some(j)) => classes[j].push(t),
        (Some(i), Some(j)) if i == j => (),
        (Some(i), Some(j)) => {
            let later = classes.swap_remove(i.max(j));
            classes[i.min(j)].extend(later);
        }
    }
}

/// What stands for a term: its class's constant or else the least variable of it.
fn replaced(classes: &Classes, term: Apart) -> Apart {
    let Some(class) = classes.iter().find(|class| class.contains(&term)) else {
        return term;
    };
    let constant = class.iter().find(|t| is_constant(t));
    *constant.or(class.iter().min()).unwrap()
}

/// Whether the term is a constant.
pub fn is_constant(term: &Apart) -> bool {
    matches!(term, Apart::Constant(_))
}

/// A term kept apart as a plain one: even numbers for the question, odd for the rule.
fn plain(term: Apart) -> Term {
    match term {
        Apart::OfQuestion(v) => Term::Variable(2 * v),
        Apart::OfRule(v) => Term::Variable(2 * v + 1),
        Apart::Constant(c) => Term::Constant(c),
    }
}
