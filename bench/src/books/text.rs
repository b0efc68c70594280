//! From rules and a question to a book: relations and constants are declared as they appear.

use crate::task::{Pace, Task, Work};
use second::{book, source};

/// A book in words: what its makers give.
pub struct Words {
    pub kind: &'static str,
    pub name: String,
    pub rules: Vec<String>,
    pub question: String,
    pub allowed: usize,
    pub pace: Pace,
}

/// A book of an ordinary kind: its name says kind, rules and shape.
pub fn ordinary(kind: &'static str, shape: &str, rules: Vec<String>, question: &str) -> Words {
    Words {
        kind,
        name: format!("{}-{}-{shape}", kind.replace(' ', "-"), rules.len()),
        rules,
        question: question.into(),
        allowed: 1000,
        pace: Pace::Ordinary,
    }
}

impl Words {
    /// The same book with so many explorations allowed.
    pub fn allowing(self, allowed: usize) -> Words {
        Words { allowed, ..self }
    }

    /// The book's text, declarations first.
    pub fn text(&self) -> String {
        let asked = self.question.split(':').next_back().unwrap_or("");
        let said: Vec<&str> = self.rules.iter().map(String::as_str).collect();
        let said = said.into_iter().chain([asked]);
        let mut known = Vec::new();
        said.for_each(|line| declare(line, &mut known));
        let rules: String = self.rules.iter().map(|r| format!("rule {r}\n")).collect();
        let (known, asked) = (known.concat(), &self.question);
        format!("{known}{rules}question {asked}\nallow {}\n", self.allowed)
    }

    /// The book's bytes, ready to be timed.
    pub fn task(self) -> Task {
        let text = self.text();
        let read = source::read(&text).unwrap_or_else(|what| panic!("{}: {what}", self.name));
        Task {
            kind: self.kind,
            name: self.name,
            rules: self.rules.len(),
            pace: self.pace,
            work: Work::Run(book::write(&read.book)),
        }
    }
}

/// Declares what this line has and `known` does not: relations, and constants by their capitals.
fn declare(line: &str, known: &mut Vec<String>) {
    for piece in line.split(')').filter(|piece| piece.contains('(')) {
        let (before, terms) = piece.split_once('(').unwrap_or_default();
        let name = before.rsplit([' ', '>']).next().unwrap_or_default();
        let places = terms.split(',').count();
        let constants = terms.split(',').map(str::trim);
        let constants = constants.filter(|term| term.starts_with(|c: char| c.is_uppercase()));
        let lines = constants.map(|constant| format!("constant {constant}\n"));
        for line in lines.chain([format!("relation {name} {places}\n")]) {
            if !known.contains(&line) {
                known.push(line);
            }
        }
    }
}

/// So many atoms, a space between two.
pub fn atoms(many: usize, atom: impl Fn(usize) -> String) -> String {
    let atoms: Vec<String> = (0..many).map(atom).collect();
    atoms.join(" ")
}

/// Rules of a list of words: `NAME1(..) -> NAME0(..)` and on, each word narrower than the one
/// before it; so many rules, over these places.
pub fn chain(name: &str, rules: usize, places: &str) -> Vec<String> {
    let rule = |i: usize| format!("{name}{}({places}) -> {name}{i}({places})", i + 1);
    (0..rules).map(rule).collect()
}

/// Rules of a list of words that all are narrower than the first.
pub fn fan(name: &str, rules: usize, places: &str) -> Vec<String> {
    let rule = |i: usize| format!("{name}{i}({places}) -> {name}0({places})");
    (1..=rules).map(rule).collect()
}

/// Three rules that widen an atom of four places, one place at a time, where it has the constant K.
pub fn widening(name: &str) -> Vec<String> {
    let narrow = ["K,y,z,u", "x,K,z,u", "x,y,K,u"];
    let rule = |narrow: &str| format!("{name}(x,y,z,u) -> {name}({narrow})");
    narrow.map(rule).into()
}
