//! The form in which questions are kept.

use crate::term::{Atom, Question, Term};

/// "Equal atoms are dropped but for the first, then variables are numbered 0, 1, ..
/// by first appearance." The answer record comes first, and equals no atom.
pub fn form(question: &Question) -> Question {
    number(&question.answer, &distinct(&question.atoms))
}

/// The atoms without those that are equal to an earlier one.
pub fn distinct(atoms: &[Atom]) -> Vec<&Atom> {
    let mut kept: Vec<&Atom> = Vec::new();
    for atom in atoms {
        if !kept.contains(&atom) {
            kept.push(atom);
        }
    }
    kept
}

/// The question of this answer record and these atoms with its variables numbered by first
/// appearance.
fn number(answer: &[Term], atoms: &[&Atom]) -> Question {
    let mut met: Vec<usize> = Vec::new();
    let mut numbered = |term| match term {
        Term::Constant(_) => term,
        Term::Variable(v) => {
            let known = met.iter().position(|&w| w == v);
            Term::Variable(known.unwrap_or_else(|| {
                met.push(v);
                met.len() - 1
            }))
        }
    };
    Question {
        answer: answer.iter().map(|&term| numbered(term)).collect(),
        atoms: atoms.iter().map(|atom| atom.map(&mut numbered)).collect(),
    }
}
