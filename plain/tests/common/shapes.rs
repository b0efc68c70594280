//! Shapes that are hard for a program without the tricks of this one.

#![allow(dead_code)]

use super::common::book_of;
use second::book::{self, Book};
use second::pairs::Pair;
use second::random::Random;
use second::term::{variables, Atom, Question, Rule, Term};
use second::width::{Width, WIDTHS};

/// Books with many choices, by name.
pub fn hard() -> Vec<(String, Vec<u8>)> {
    let mut books = vec![
        named("seven atoms, two rules", two_rules(5)),
        named("eight atoms, two rules", two_rules(6)),
    ];
    books.extend(of_many(8, 32));
    let made = |(name, text): (String, String)| (name, book_of(&text));
    books.into_iter().map(made).collect()
}

/// The same with fewer atoms and rules.
pub fn smaller() -> Vec<(String, String)> {
    let mut books: Vec<_> = (0..4)
        .map(|pairs| named("two rules", two_rules(pairs)))
        .collect();
    for atoms in 2..5 {
        books.extend(of_many(atoms, 3));
    }
    books
}

/// Books with so many question atoms and rules; with 8 atoms there are 390,624 choices.
fn of_many(atoms: usize, rules: usize) -> Vec<(String, String)> {
    let of = |head: &str, places: usize, asked: String| many(head, places, &asked, rules);
    let equal = of("p(x) p(x) p(x) p(x)", 1, loose(1, atoms));
    let unlike = of("p(x) p(y) p(z) p(w)", 1, loose(1, atoms));
    vec![
        named("390,624, equal heads", equal),
        named("390,624, unlike heads", unlike),
        named("390,624, loose pairs", of(PAIRS, 2, loose(2, atoms))),
        named("390,624, a path", of(PAIRS, 2, steps(atoms, atoms + 1))),
        named("390,624, a ring", of(PAIRS, 2, steps(atoms, atoms))),
        named("390,624, a grown ring", of(GROWN, 2, steps(atoms, atoms))),
        named("390,624, a ring and an atom", of(PAIRS, 2, tail(atoms))),
        named("390,624, a knot", of(KNOT, 2, steps(atoms, atoms))),
        named("390,624, a knot and an atom", of(KNOT, 2, tail(atoms))),
    ]
}

/// A text with a name.
fn named(name: &str, text: String) -> (String, String) {
    (name.to_string(), text)
}

/// A head of four atoms with four variables.
const PAIRS: &str = "p(x,y) p(z,w) p(x,z) p(y,w)";

/// A head with unknowns.
const GROWN: &str = "p(x,u) p(u,v) p(v,y) p(z,w)";

/// A head in which everything meets.
const KNOT: &str = "p(x,y) p(y,x) p(x,x) p(y,y)";

/// A rule that turns a pair round and one that grows, and a question of loose pairs and one
/// that goes both ways.
fn two_rules(pairs: usize) -> String {
    let asked: Vec<String> = (0..pairs).map(|i| format!("p(x{i},y{i})")).collect();
    format!(
        "relation p 2\nrelation s 4\nrule s(a,b,c,d) -> p(a,b) p(b,a)\n\
         rule s(a,b,c,d) p(e,f) p(g,h) p(i,j) -> p(a,b) p(b,c) p(c,d) p(a,d)\n\
         question {} p(z,w) p(w,z)\nallow 1000\n",
        asked.join(" ")
    )
}

/// So many rules with this head, and a body of one atom each.
fn many(head: &str, places: usize, question: &str, rules: usize) -> String {
    let relations: Vec<String> = (0..rules).map(|i| format!("relation q{i} 4\n")).collect();
    let rules: Vec<String> = (0..rules)
        .map(|i| format!("rule q{i}(x,y,z,w) -> {head}\n"))
        .collect();
    format!(
        "relation p {places}\n{}{}question {question}\nallow 1000\n",
        relations.concat(),
        rules.concat()
    )
}

/// Atoms that share nothing.
fn loose(places: usize, atoms: usize) -> String {
    let places = |i: usize| (0..places).map(|k| format!("a{i}_{k}")).collect::<Vec<_>>();
    let atom = |i: usize| format!("p({})", places(i).join(","));
    (0..atoms).map(atom).collect::<Vec<_>>().join(" ")
}

/// So many steps round so many things.
fn steps(steps: usize, things: usize) -> String {
    let step = |i: usize| format!("p(a{},a{})", i % things, (i + 1) % things);
    (0..steps).map(step).collect::<Vec<_>>().join(" ")
}

/// Steps round things, and an atom beside them.
fn tail(atoms: usize) -> String {
    format!("{} p(a0,b)", steps(atoms - 1, atoms - 1))
}

/// The record of these pairs.
fn record(pairs: &[(u8, u8)]) -> Vec<u8> {
    let atoms = pairs.iter().flat_map(|&(a, b)| [0, a, b, 255, 255]);
    let mut bytes = vec![pairs.len() as u8];
    bytes.extend(atoms);
    bytes
}

/// Whether a record has an even number of atoms.
pub fn is_even(record: &[u8]) -> bool {
    record[0].is_multiple_of(2)
}

/// Rings of each length and graphs with two sides and both directions, which only even rings
/// go round.
pub fn rings() -> Vec<(String, Vec<u8>, Vec<u8>)> {
    let both = |edges: &[(u8, u8)]| {
        let there = edges.iter().copied();
        let back = edges.iter().map(|&(a, b)| (b, a));
        record(&there.chain(back).collect::<Vec<_>>())
    };
    let graphs = [
        ("a star", both(&[(0, 1), (0, 2), (0, 3), (0, 4), (0, 5)])),
        ("a path", both(&[(0, 1), (1, 2), (2, 3), (3, 4), (4, 5)])),
        ("a square", both(&[(0, 1), (1, 2), (2, 3), (3, 0), (0, 5)])),
        ("a tree", both(&[(0, 1), (0, 2), (1, 3), (1, 4), (2, 5)])),
    ];
    let mut rings = Vec::new();
    for length in 3..=11 {
        let ring: Vec<(u8, u8)> = (0..length).map(|i| (i, (i + 1) % length)).collect();
        for (name, graph) in &graphs {
            rings.push((format!("{length} on {name}"), record(&ring), graph.clone()));
        }
    }
    rings
}

/// Two records of width 4 as a pair.
pub fn pair((first, second): (Vec<u8>, Vec<u8>)) -> Pair {
    Pair {
        width: 4,
        first,
        second,
    }
}

/// Two records of so many atoms of one relation over some variables.
pub fn dense(random: &mut Random, atoms: usize) -> (Vec<u8>, Vec<u8>) {
    let places = random.between(2, 4);
    let mut one = |most: usize| {
        let variables = random.between(2, most);
        let mut bytes = vec![atoms as u8];
        for _ in 0..atoms {
            let term = |place| match place < places {
                true => random.below(variables) as u8,
                false => 255,
            };
            bytes.push(0);
            bytes.extend((0..4).map(term));
        }
        bytes
    };
    (one(3 * atoms), one(5))
}

/// A book in which most choices are between many: few relations, long heads, a question whose
/// atoms hang together, now and then constants, answers and unknowns.
pub fn crowded(random: &mut Random) -> Vec<u8> {
    let width = *random.one_of(&WIDTHS);
    let places = match width {
        Width::Four => [1, 2, 2, 2, 3],
        Width::Six => [1, 2, 2, 5, 6],
    };
    let relations: Vec<usize> = (0..random.between(2, 3))
        .map(|_| *random.one_of(&places))
        .collect();
    let constants = *random.one_of(&[0, 0, 1, 2]);
    let mut crowd = Crowd {
        relations,
        constants,
        random,
    };
    let rules = (0..crowd.random.between(1, 3)).map(|_| crowd.rule());
    let rules = rules.collect();
    let asked = crowd.random.between(3, 6);
    let many = crowd.random.between(2, 7);
    let atoms = crowd.atoms(asked, many);
    let answer = crowd.answer(&atoms);
    let allowed = crowd.random.between(1, 4);
    book::write(&Book {
        width,
        relations: crowd.relations,
        constants,
        rules,
        question: Question { answer, atoms },
        allowed,
    })
}

/// A crowded book being made.
struct Crowd<'r> {
    relations: Vec<usize>,
    constants: usize,
    random: &'r mut Random,
}

impl Crowd<'_> {
    /// A rule, mostly with a short body of few of its variables.
    fn rule(&mut self) -> Rule {
        let body = *self.random.one_of(&[0, 1, 1, 1, 1, 2]);
        let head = self.random.between(1, 4);
        let (seen, all) = (self.random.between(1, 4), self.random.between(2, 5));
        Rule {
            body: self.atoms(body, seen),
            head: self.atoms(head, all),
        }
    }

    /// So many atoms over so many variables.
    fn atoms(&mut self, many: usize, variables: usize) -> Vec<Atom> {
        (0..many).map(|_| self.atom(variables)).collect()
    }

    /// An atom.
    fn atom(&mut self, variables: usize) -> Atom {
        let relation = self.random.below(self.relations.len());
        let places = self.relations[relation];
        let terms = (0..places).map(|_| match self.constants > 0 && self.random.percent(10) {
            true => Term::Constant(self.random.below(self.constants)),
            false => Term::Variable(self.random.below(variables)),
        });
        Atom::new(relation, terms.collect())
    }

    /// No answer, or one or two variables of the atoms.
    fn answer(&mut self, atoms: &[Atom]) -> Vec<Term> {
        let variables = Vec::from_iter(variables(atoms));
        let places = *self.random.one_of(&[0, 0, 0, 1, 2]);
        let places = if variables.is_empty() { 0 } else { places };
        let asked = (0..places).map(|_| Term::Variable(*self.random.one_of(&variables)));
        asked.collect()
    }
}
