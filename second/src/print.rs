//! What the printing program prints.

use crate::layout::width_of;
use crate::run::{run_by, Answer};
use crate::seen::Seen;
use crate::term::{Atom, Question, Term};
use crate::union::{self, OUTPUT_ROOM};
use crate::way::Way;
use crate::width::Width;

/// The most bytes of its input that the program reads.
pub const INPUT: usize = 65_536;

/// What is printed for this input.
pub fn print(input: &[u8]) -> String {
    print_by(input, Way::Right, &mut Seen::default())
}

/// The same in a given way, counting what is met.
pub fn print_by(input: &[u8], way: Way, seen: &mut Seen) -> String {
    let book = &input[..input.len().min(INPUT)];
    let mut output = [0; OUTPUT_ROOM];
    let answer = run_by(book, &mut output, way, seen);
    print_answer(answer, &output, width_of(book))
}

/// The lines for an answer and its output: "The first line has members and explored;
/// each other line is a member", or a refusal's "number, then place".
fn print_answer(answer: Answer, output: &[u8], width: Width) -> String {
    if answer.number != 0 {
        return format!("refused {} at {}\n", answer.number, answer.place);
    }
    let (members, explored) = union::read(&output[..answer.place], width);
    let mut text = format!("members {} explored {}\n", members.len(), explored);
    for member in &members {
        text += &print_question(member);
        text.push('\n');
    }
    text
}

/// What is printed in the place of no atoms.
pub const ALWAYS: &str = "always";

/// A question's answer record, such as a(v0), if it has one, and its atoms; without atoms
/// it is "printed as `always` after any answer record".
pub fn print_question(question: &Question) -> String {
    let atoms = match question.is_always() {
        true => ALWAYS.into(),
        false => print_atoms(&question.atoms),
    };
    match question.is_answered() {
        false => atoms,
        true => format!("{} {atoms}", print_answer_record(&question.answer)),
    }
}

/// An answer record, such as a(v0).
pub fn print_answer_record(terms: &[Term]) -> String {
    format!("a{}", print_terms(terms))
}

/// Atoms, a space between two.
pub fn print_atoms(atoms: &[Atom]) -> String {
    let atoms: Vec<String> = atoms.iter().map(print_atom).collect();
    atoms.join(" ")
}

/// An atom "as relation number and terms (v variable, c constant)".
pub fn print_atom(atom: &Atom) -> String {
    format!("r{}{}", atom.relation, print_terms(&atom.terms))
}

/// Terms in parentheses, a comma between two.
pub fn print_terms(terms: &[Term]) -> String {
    let terms: Vec<String> = terms.iter().map(print_term).collect();
    format!("({})", terms.join(","))
}

/// A term, such as v0 or c0.
pub fn print_term(term: &Term) -> String {
    match term {
        Term::Variable(v) => format!("v{v}"),
        Term::Constant(c) => format!("c{c}"),
    }
}
