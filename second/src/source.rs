//! The text form of books, which people read and write.
//!
//! ```text
//! # a comment, to the end of the line
//! relation parent 2                  a relation and its number of places
//! constant Maria Giorgos             constants
//! rule person(x) -> parent(x,y)      body, arrow, head
//! question parent(v,Maria)           one question
//! allow 100                          explorations allowed
//! ```
//!
//! A rule may have nothing before the arrow, as in `rule -> dark(y)`: a fact.
//!
//! A question with answer places has them before a colon, as in `question a(x,Maria) :
//! parent(x,y)`. Every answer variable stands in an atom of the question.
//!
//! Relations and constants are numbered as they are declared, and are declared before
//! they are used. Any other name in a place is a variable of that rule or question; one
//! that begins with a capital must be declared, so a misspelt constant is no variable.
//! Variables get the numbers 0, 1, .. as they appear, but `v7` always is number 7.
//!
//! A book is in the old form unless a relation has five or six places, or a line `places 6`
//! asks for the new one. In the new form a rule or a question may have 48 variables once that
//! is said; in the old one 32.

use crate::book::Book;
use crate::print::{print_atoms, print_terms, ALWAYS};
use crate::term::{Atom, Question, Rule, Term};
use crate::width::{Width, ANSWER_PLACES};
use std::fmt::Write;

/// A book with the names that its source gives to relations and constants.
pub struct Source {
    pub book: Book,
    pub relations: Vec<String>,
    pub constants: Vec<String>,
}

/// What was read so far.
#[derive(Default)]
struct Reading {
    /// Whether the new form is asked for.
    new: bool,
    relations: Vec<(String, usize)>,
    constants: Vec<String>,
    rules: Vec<Rule>,
    question: Option<Question>,
    allowed: Option<usize>,
}

/// Reads a source, or says on which line what is wrong.
pub fn read(text: &str) -> Result<Source, String> {
    let mut reading = Reading::default();
    for (i, line) in text.lines().enumerate() {
        let line = line.split('#').next().unwrap().trim();
        let said = reading.line(line);
        said.map_err(|what| format!("line {}: {what}", i + 1))?;
    }
    reading.end()
}

impl Reading {
    /// Reads one line, its comment taken away.
    fn line(&mut self, line: &str) -> Result<(), String> {
        let (word, rest) = line.split_once(char::is_whitespace).unwrap_or((line, ""));
        match word {
            "" => Ok(()),
            "places" => self.places(rest),
            "relation" => self.relation(rest),
            "constant" => self.constants(rest),
            "rule" => self.rule(rest),
            "question" => self.question(rest),
            "allow" => self.allow(rest),
            _ => Err(format!("`{word}` begins no line")),
        }
    }

    /// `places 6`
    fn places(&mut self, rest: &str) -> Result<(), String> {
        self.new = true;
        match rest.trim() {
            "6" => Ok(()),
            other => Err(format!(
                "`places {other}`: say 6, or nothing for the old form"
            )),
        }
    }

    /// The form that the lines so far ask for.
    fn width(&self) -> Width {
        let most = self.relations.iter().map(|(_, places)| *places).max();
        match self.new {
            true => Width::Six,
            false => Width::having(most.unwrap_or(0)),
        }
    }

    /// `relation NAME PLACES`
    fn relation(&mut self, rest: &str) -> Result<(), String> {
        let words: Vec<&str> = rest.split_whitespace().collect();
        let [name, places] = words[..] else {
            return Err("a relation has a name and a number of places".into());
        };
        self.new_name(name)?;
        let places = number(places, 1, Width::Six.places(), "places")?;
        self.relations.push((name.into(), places));
        within(self.relations.len(), 64, "relations")
    }

    /// `constant NAME ..`
    fn constants(&mut self, rest: &str) -> Result<(), String> {
        for name in rest.split_whitespace() {
            self.new_name(name)?;
            self.constants.push(name.into());
        }
        within(self.constants.len(), 127, "constants")
    }

    /// Whether a name is well made and not declared yet.
    fn new_name(&self, name: &str) -> Result<(), String> {
        let known = self.relations.iter().any(|(r, _)| r == name);
        if known || self.constants.iter().any(|c| c == name) {
            return Err(format!("`{name}` is declared twice"));
        }
        match name.chars().all(is_of_name) {
            true => Ok(()),
            false => Err(format!("`{name}` is no name")),
        }
    }

    /// `rule BODY -> HEAD` or `rule -> HEAD`
    fn rule(&mut self, rest: &str) -> Result<(), String> {
        let (body, head) = rest.split_once("->").ok_or("a rule has an arrow `->`")?;
        let mut names = Names::of(rest, self.width());
        let rule = Rule {
            body: self.atoms(body, &mut names)?,
            head: some(self.atoms(head, &mut names)?)?,
        };
        within(rule.body.len(), 4, "body atoms")?;
        within(rule.head.len(), 4, "head atoms")?;
        self.rules.push(rule);
        within(self.rules.len(), 32, "rules")
    }

    /// `question ATOMS` or `question a(TERMS) : ATOMS`
    fn question(&mut self, rest: &str) -> Result<(), String> {
        let mut names = Names::of(rest, self.width());
        let (answer, atoms) = match rest.split_once(':') {
            None => (Vec::new(), rest),
            Some((answer, atoms)) => (self.answer(answer, &mut names)?, atoms),
        };
        let atoms = some(self.atoms(atoms, &mut names)?)?;
        within(atoms.len(), 8, "question atoms")?;
        let question = Question { answer, atoms };
        if !question.is_bound() {
            return Err("an answer variable stands in no atom".into());
        }
        match self.question.replace(question) {
            None => Ok(()),
            Some(_) => Err("a second question".into()),
        }
    }

    /// The answer places, `a(TERMS)`.
    fn answer(&self, text: &str, names: &mut Names) -> Result<Vec<Term>, String> {
        let inside = text.trim().strip_prefix("a(");
        let inside = inside.and_then(|text| text.strip_suffix(')'));
        let answer = self.terms(inside.ok_or("answer places are written a(..)")?, names)?;
        within(answer.len(), ANSWER_PLACES, "answer places")?;
        Ok(answer)
    }

    /// `allow NUMBER`
    fn allow(&mut self, rest: &str) -> Result<(), String> {
        let allowed = number(rest.trim(), 1, 1000, "explorations allowed")?;
        match self.allowed.replace(allowed) {
            None => Ok(()),
            Some(_) => Err("a second `allow`".into()),
        }
    }

    /// Atoms, or none, with nothing but space between them.
    fn atoms(&self, text: &str, names: &mut Names) -> Result<Vec<Atom>, String> {
        let mut atoms = Vec::new();
        let mut rest = text.trim();
        while !rest.is_empty() {
            let (name, after) = rest.split_once('(').ok_or("an atom has parentheses")?;
            let (terms, after) = after
                .split_once(')')
                .ok_or("an atom ends in a parenthesis")?;
            atoms.push(self.atom(name.trim(), terms, names)?);
            rest = after.trim();
        }
        Ok(atoms)
    }

    /// One atom.
    fn atom(&self, name: &str, terms: &str, names: &mut Names) -> Result<Atom, String> {
        let found = self.relations.iter().position(|(r, _)| r == name);
        let relation = found.ok_or(format!("`{name}` is no relation"))?;
        let (terms, places) = (self.terms(terms, names)?, self.relations[relation].1);
        match terms.len() == places {
            true => Ok(Atom::new(relation, terms)),
            false => Err(format!(
                "`{name}` has {places} places and not {}",
                terms.len()
            )),
        }
    }

    /// One or more terms, a comma between two.
    fn terms(&self, text: &str, names: &mut Names) -> Result<Vec<Term>, String> {
        text.split(',').map(|term| self.term(term, names)).collect()
    }

    /// One term.
    fn term(&self, text: &str, names: &mut Names) -> Result<Term, String> {
        let name = text.trim();
        if name.is_empty() || !name.chars().all(is_of_name) {
            return Err(format!("`{name}` is no term"));
        }
        if let Some(c) = self.constants.iter().position(|c| c == name) {
            return Ok(Term::Constant(c));
        }
        match name.starts_with(|c: char| c.is_uppercase()) {
            true => Err(format!("constant `{name}` is not declared")),
            false => names.number(name).map(Term::Variable),
        }
    }

    /// The book, once every line was read.
    fn end(self) -> Result<Source, String> {
        let width = self.width();
        let (relations, places) = self.relations.into_iter().unzip();
        Ok(Source {
            book: Book {
                width,
                relations: places,
                constants: self.constants.len(),
                rules: self.rules,
                question: self.question.ok_or("there is no question")?,
                allowed: self.allowed.ok_or("there is no `allow`")?,
            },
            relations,
            constants: self.constants,
        })
    }
}

/// The variables of one rule or question: name and number.
struct Names {
    known: Vec<(String, usize)>,
    fixed: Vec<usize>,
    /// How many there may be.
    most: usize,
}

impl Names {
    /// No variable yet; the numbers of all `vN` in the text are set aside.
    fn of(text: &str, width: Width) -> Names {
        let (words, most) = (text.split(|c: char| !is_of_name(c)), width.variables());
        Names {
            known: Vec::new(),
            fixed: words.filter_map(|word| fixed_number(word, most)).collect(),
            most,
        }
    }

    /// The number of the variable of this name.
    fn number(&mut self, name: &str) -> Result<usize, String> {
        if let Some(number) = fixed_number(name, self.most) {
            return Ok(number);
        }
        if let Some((_, number)) = self.known.iter().find(|(known, _)| known == name) {
            return Ok(*number);
        }
        let taken = |n: &usize| self.fixed.contains(n) || self.known.iter().any(|(_, m)| m == n);
        let free = (0..self.most).find(|n| !taken(n));
        let number = free.ok_or(format!("more than {} variables", self.most))?;
        self.known.push((name.into(), number));
        Ok(number)
    }
}

/// The number of a variable that is written `v0` to `v31`, or to what the most allow.
fn fixed_number(name: &str, most: usize) -> Option<usize> {
    let number: usize = name.strip_prefix('v')?.parse().ok()?;
    (number < most && name == format!("v{number}")).then_some(number)
}

/// Whether a character may stand in a name.
fn is_of_name(c: char) -> bool {
    c.is_alphanumeric() || c == '_' || c == '\''
}

/// A number between two bounds.
fn number(text: &str, least: usize, most: usize, what: &str) -> Result<usize, String> {
    let read: Option<usize> = text.parse().ok();
    read.filter(|n| (least..=most).contains(n))
        .ok_or(format!("{what}: `{text}` is not {least} to {most}"))
}

/// The atoms, of which there must be one: only a body may be empty.
fn some(atoms: Vec<Atom>) -> Result<Vec<Atom>, String> {
    match atoms.is_empty() {
        true => Err("no atom".into()),
        false => Ok(atoms),
    }
}

/// Whether there are not too many of a thing.
fn within(many: usize, most: usize, what: &str) -> Result<(), String> {
    match many <= most {
        true => Ok(()),
        false => Err(format!("more than {most} {what}")),
    }
}

/// A source for a book, from which the same bytes come back.
pub fn show(book: &Book) -> String {
    let mut text = String::new();
    if book.width == Width::Six {
        writeln!(text, "places 6").unwrap();
    }
    for (i, places) in book.relations.iter().enumerate() {
        writeln!(text, "relation r{i} {places}").unwrap();
    }
    for c in 0..book.constants {
        writeln!(text, "constant c{c}").unwrap();
    }
    for rule in &book.rules {
        let arrow = match rule.is_fact() {
            true => "->",
            false => " ->",
        };
        let (body, head) = (print_atoms(&rule.body), print_atoms(&rule.head));
        writeln!(text, "rule {body}{arrow} {head}").unwrap();
    }
    let (answer, atoms) = (&book.question.answer, &book.question.atoms);
    let asked = with_answer(answer, &print_terms(answer), &print_atoms(atoms));
    writeln!(text, "question {asked}").unwrap();
    writeln!(text, "allow {}", book.allowed).unwrap();
    text
}

/// A question in the text form: its answer places, if it has any, before a colon.
fn with_answer(answer: &[Term], places: &str, atoms: &str) -> String {
    match answer.is_empty() {
        true => atoms.into(),
        false => format!("a{places} : {atoms}"),
    }
}

impl Source {
    /// A question in the names of this source.
    pub fn tell(&self, question: &Question) -> String {
        let atoms: Vec<String> = question.atoms.iter().map(|a| self.tell_atom(a)).collect();
        let atoms = match question.is_always() {
            true => ALWAYS.into(),
            false => atoms.join(" "),
        };
        let places = self.tell_terms(&question.answer);
        with_answer(&question.answer, &places, &atoms)
    }

    /// An atom in the names of this source.
    fn tell_atom(&self, atom: &Atom) -> String {
        let name = &self.relations[atom.relation];
        format!("{name}{}", self.tell_terms(&atom.terms))
    }

    /// Terms in the names of this source, in parentheses.
    fn tell_terms(&self, terms: &[Term]) -> String {
        let terms: Vec<String> = terms.iter().map(|term| self.tell_term(term)).collect();
        format!("({})", terms.join(","))
    }

    /// A term in the names of this source.
    fn tell_term(&self, term: &Term) -> String {
        match term {
            Term::Variable(v) => format!("v{v}"),
            Term::Constant(c) => self.constants[*c].clone(),
        }
    }
}
