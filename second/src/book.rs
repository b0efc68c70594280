//! The stored book: reading it and writing it. Where its parts stand is in `layout`, what
//! is refused in `refuse`.

use crate::layout::{self, Header, RuleAt, ANSWER, FIRST_CONSTANT, UNUSED};
use crate::refuse::{faults, least, Fault};
use crate::seen::{Behaviour, Seen};
use crate::term::{Atom, Question, Rule, Term};
use crate::width::Width;

/// A sound book.
#[derive(Clone, Debug, PartialEq, Eq)]
pub struct Book {
    /// In which form it is written.
    pub width: Width,
    /// The number of places of each relation.
    pub relations: Vec<usize>,
    pub constants: usize,
    pub rules: Vec<Rule>,
    pub question: Question,
    /// Explorations allowed, L.
    pub allowed: usize,
}

/// Reads a book: the book, or the least (number, place) that applies.
pub fn read(bytes: &[u8], seen: &mut Seen) -> Result<Book, Fault> {
    let faults = faults(bytes);
    match least(&faults) {
        None => {
            let book = decode(bytes);
            mark_limits(&book, bytes.len(), seen);
            Ok(book)
        }
        Some(least) => {
            mark_faults(&faults, least, seen);
            Err(*least)
        }
    }
}

/// The book that these bytes hold, given that nothing is wrong with them.
fn decode(bytes: &[u8]) -> Book {
    let header = Header::of(bytes).unwrap();
    let width = header.width;
    let places = &bytes[width.header()..header.rules_begin()];
    let rules = layout::rules(&header, bytes).found;
    Book {
        width,
        relations: places.iter().map(|&places| places as usize).collect(),
        constants: header.constants,
        rules: rules
            .iter()
            .map(|rule| decode_rule(bytes, rule, width))
            .collect(),
        question: decode_question(&bytes[header.question_at..], width),
        allowed: header.allowed,
    }
}

/// The rule that stands there.
fn decode_rule(bytes: &[u8], rule: &RuleAt, width: Width) -> Rule {
    let atom = |&at: &usize| decode_atom(&bytes[at..at + width.atom()]);
    Rule {
        body: rule.body.iter().map(atom).collect(),
        head: rule.head.iter().map(atom).collect(),
    }
}

/// The question that these bytes hold, five or seven for each atom and for the answer record,
/// which stands first if there is one. A sound question has no relation 255.
pub fn decode_question(bytes: &[u8], width: Width) -> Question {
    let (answer, atoms) = match bytes.first() == Some(&ANSWER) {
        true => bytes.split_at(width.atom()),
        false => bytes.split_at(0),
    };
    Question {
        answer: answer.chunks(width.atom()).flat_map(decode_terms).collect(),
        atoms: atoms.chunks(width.atom()).map(decode_atom).collect(),
    }
}

/// The atom that these bytes hold.
fn decode_atom(bytes: &[u8]) -> Atom {
    Atom::new(bytes[0] as usize, decode_terms(bytes))
}

/// The terms in the used places of an atom or an answer record.
fn decode_terms(bytes: &[u8]) -> Vec<Term> {
    let used = bytes[1..].iter().take_while(|&&byte| byte != UNUSED);
    used.map(|&byte| decode_term(byte)).collect()
}

/// The term that a byte of a used place is.
pub fn decode_term(byte: u8) -> Term {
    match byte {
        FIRST_CONSTANT.. => Term::Constant((byte - FIRST_CONSTANT) as usize),
        _ => Term::Variable(byte as usize),
    }
}

/// The byte of a term.
pub fn encode_term(term: Term) -> u8 {
    match term {
        Term::Variable(v) => v as u8,
        Term::Constant(c) => FIRST_CONSTANT + c as u8,
    }
}

/// The bytes of a question: the answer record if there is one, then the atoms.
pub fn encode_question(question: &Question, width: Width) -> Vec<u8> {
    let mut bytes = Vec::new();
    if question.is_answered() {
        bytes.extend(encode(ANSWER, &question.answer, width));
    }
    let atoms = question.atoms.iter();
    bytes.extend(atoms.flat_map(|atom| encode_atom(atom, width)));
    bytes
}

/// The bytes of an atom.
fn encode_atom(atom: &Atom, width: Width) -> Vec<u8> {
    encode(atom.relation as u8, &atom.terms, width)
}

/// A relation byte and the places of this width, these terms in the first.
fn encode(relation: u8, terms: &[Term], width: Width) -> Vec<u8> {
    let mut bytes = vec![UNUSED; width.atom()];
    bytes[0] = relation;
    for (byte, term) in bytes[1..].iter_mut().zip(terms) {
        *byte = encode_term(*term);
    }
    bytes
}

/// The bytes of a rule: "two bytes, the body's and the head's atom counts, then body
/// atoms, then head atoms".
fn encode_rule(rule: &Rule, width: Width) -> Vec<u8> {
    let mut bytes = vec![rule.body.len() as u8, rule.head.len() as u8];
    let atoms = rule.body.iter().chain(&rule.head);
    atoms.for_each(|atom| bytes.extend(encode_atom(atom, width)));
    bytes
}

/// The bytes of a book.
pub fn write(book: &Book) -> Vec<u8> {
    let width = book.width;
    let rules = book.rules.iter().flat_map(|rule| encode_rule(rule, width));
    let rules: Vec<u8> = rules.collect();
    let question = encode_question(&book.question, width);
    let rules_at = width.header() + book.relations.len();
    let question_at = rules_at + rules.len();
    let words = [
        book.relations.len(),
        book.constants,
        book.rules.len(),
        book.question.atoms.len(),
        book.allowed,
        width.header(),
        rules_at,
        question_at,
        question_at + question.len(),
        width.places(),
    ];
    let mut bytes: Vec<u8> = Vec::new();
    for word in &words[..width.words()] {
        bytes.extend((*word as u16).to_le_bytes());
    }
    bytes.extend(book.relations.iter().map(|&places| places as u8));
    bytes.extend(rules);
    bytes.extend(question);
    bytes
}

/// Counts what the faults of a refused book show.
fn mark_faults(faults: &[Fault], least: &Fault, seen: &mut Seen) {
    for fault in faults {
        let winning = (fault.number, fault.place) == (least.number, least.place);
        seen.mark_if(winning, fault.why);
    }
    seen.mark_if(least.place > 255, Behaviour::BookPlaceOver255);
    let also = |number: usize| faults.iter().any(|f| f.number == number);
    let numbers = faults.iter().any(|f| f.number != least.number);
    seen.mark_if(numbers, Behaviour::CompetingNumbers);
    let unbound_too = least.number == 7 && also(11);
    seen.mark_if(unbound_too, Behaviour::SevenBeforeEleven);
    let mut alike = faults.iter().filter(|f| f.number == least.number);
    let places = alike.any(|f| f.place != least.place);
    seen.mark_if(places, Behaviour::CompetingPlaces);
}

/// Counts which limits a sound book is at.
fn mark_limits(book: &Book, length: usize, seen: &mut Seen) {
    seen.mark_if(book.relations.len() == 64, Behaviour::Relations64);
    seen.mark_if(book.constants == 127, Behaviour::Constants127);
    seen.mark_if(book.rules.len() == 32, Behaviour::Rules32);
    seen.mark_if(book.rules.is_empty(), Behaviour::Rules0);
    let facts: Vec<&Rule> = book.rules.iter().filter(|rule| rule.is_fact()).collect();
    let longest = facts.iter().any(|fact| fact.head.len() == 4);
    seen.mark_if(!facts.is_empty(), Behaviour::Facts);
    seen.mark_if(longest, Behaviour::FactOfFour);
    seen.mark_if(facts.len() == 32, Behaviour::Facts32);
    seen.mark_if(book.question.atoms.len() == 8, Behaviour::Question8);
    seen.mark_if(book.allowed == 1, Behaviour::Allowed1);
    seen.mark_if(book.allowed == 1000, Behaviour::Allowed1000);
    let answered = book.question.is_answered();
    let of = |width: Width, bytes: usize| book.width == width && length == bytes;
    seen.mark_if(
        of(Width::Four, 1466) && !answered,
        Behaviour::LargestBoolean,
    );
    seen.mark_if(of(Width::Four, 1471), Behaviour::LargestOld);
    seen.mark_if(of(Width::Six, 2003), Behaviour::LargestBook);
    seen.mark_if(of(Width::Four, 24), Behaviour::SmallestBook);
    seen.mark_if(of(Width::Six, 28), Behaviour::SmallestNew);
}
