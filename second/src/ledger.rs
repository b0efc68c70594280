//! The second check of what a complete union promises: on a ledger of named things, for
//! each row of named things, the question has the row after some rule applications exactly
//! when some member has it before any. A Boolean question has the row without places.

use crate::book::Book;
use crate::chase::{reach, SMALL};
use crate::cover::holds;
use crate::random::Random;
use crate::term::{Atom, Question, Term};
use std::collections::{BTreeMap, BTreeSet};

/// Named things, one for each answer place.
pub type Row = Vec<Term>;

/// What a check of one ledger found: how many rows both have, how many both have not, how
/// many the bounded chase left open; and the rows on which they disagree.
#[derive(Clone, Debug, Default, PartialEq, Eq)]
pub struct Checked {
    pub yes: usize,
    pub no: usize,
    pub undecided: usize,
    pub disagreed: Vec<Row>,
}

/// Chases the ledger and asks the members of it, for every row over the things in play.
pub fn check(book: &Book, members: &[Question], ledger: &[Atom]) -> Checked {
    let things = things(book, ledger);
    let question = &book.question;
    // A yes ends the chase; with answer places there may always be one row more.
    let enough = |facts: &[Atom]| !question.is_answered() && holds(question, &[], facts);
    let reached = reach(&book.rules, ledger, SMALL, enough);
    let by_chase = rows(question, &reached.facts, &things);
    let of_member = |member: &Question| rows(member, ledger, &things);
    let by_members: BTreeSet<Row> = members.iter().flat_map(of_member).collect();
    let more: Vec<Row> = by_members.difference(&by_chase).cloned().collect();
    let fewer = by_chase.difference(&by_members).cloned();
    let all = things.len().pow(question.answer.len() as u32);
    let neither = all - by_chase.union(&by_members).count();
    let mut found = Checked {
        yes: by_chase.intersection(&by_members).count(),
        disagreed: fewer.collect(),
        ..Checked::default()
    };
    match reached.whole {
        true => {
            found.no = neither;
            found.disagreed.extend(more);
        }
        false => found.undecided = neither + more.len(),
    }
    found
}

/// The named things in play: those of the ledger, the rules and the question, and one that
/// stands nowhere.
fn things(book: &Book, ledger: &[Atom]) -> Vec<Term> {
    let rules = book.rules.iter();
    let of_rules = rules.flat_map(|rule| rule.body.iter().chain(&rule.head));
    let atoms = of_rules.chain(&book.question.atoms).chain(ledger);
    let terms = atoms.flat_map(|atom| &atom.terms);
    let constant = |term: &&Term| term.variable().is_none();
    let named = terms.chain(&book.question.answer).filter(constant);
    let mut things: BTreeSet<Term> = named.copied().collect();
    let next = things.last().map_or(0, |last| match last {
        Term::Constant(c) | Term::Variable(c) => c + 1,
    });
    things.insert(Term::Constant(next));
    things.into_iter().collect()
}

/// The rows over these things that the question has in the facts, found place by place: a
/// row has a map only if its beginning has one.
pub fn rows(question: &Question, facts: &[Atom], things: &[Term]) -> BTreeSet<Row> {
    let begun = |places: usize| Question {
        answer: question.answer[..places].to_vec(),
        atoms: question.atoms.clone(),
    };
    let mut rows = vec![Row::new()];
    rows.retain(|row| holds(&begun(0), row, facts));
    for places in 1..=question.answer.len() {
        let longer = |row: &Row| {
            things
                .iter()
                .map(|thing| [&row[..], &[*thing]].concat())
                .collect()
        };
        let all: Vec<Row> = rows.iter().flat_map::<Vec<Row>, _>(longer).collect();
        let asked = begun(places);
        rows = all
            .into_iter()
            .filter(|row| holds(&asked, row, facts))
            .collect();
    }
    rows.into_iter().collect()
}

/// Ledgers that may tell a union from a wrong one: the empty one, in which only what is
/// simply known holds; each member as it stands, members with things made one or a fact
/// taken away, and facts by chance.
pub fn ledgers(book: &Book, members: &[Question], random: &mut Random) -> Vec<Vec<Atom>> {
    let mut ledgers: Vec<Vec<Atom>> = vec![Vec::new()];
    for _ in 0..4 {
        let member = random.one_of(members);
        ledgers.push(apart(book, &member.atoms));
        ledgers.push(nearly(book, member, random));
        ledgers.push(body(book, random));
        ledgers.push(by_chance(book, random));
    }
    ledgers
}

/// The atoms with each variable replaced by a named thing of its own.
fn apart(book: &Book, atoms: &[Atom]) -> Vec<Atom> {
    frozen(atoms, |v| book.constants + v)
}

/// The atoms with each variable replaced by one of few named things.
fn together(book: &Book, atoms: &[Atom], random: &mut Random) -> Vec<Atom> {
    frozen(atoms, |_| random.below(book.constants + 2))
}

/// The atoms with each variable replaced by the named thing that `name` gives it.
fn frozen(atoms: &[Atom], mut name: impl FnMut(usize) -> usize) -> Vec<Atom> {
    let mut named: BTreeMap<usize, Term> = BTreeMap::new();
    let mut thing = |term| match term {
        Term::Constant(_) => term,
        Term::Variable(v) => *named.entry(v).or_insert_with(|| Term::Constant(name(v))),
    };
    atoms.iter().map(|atom| atom.map(&mut thing)).collect()
}

/// A member over few things, a fact taken away or a place changed, and a few facts more. A
/// member without atoms has nothing to take away or change.
fn nearly(book: &Book, member: &Question, random: &mut Random) -> Vec<Atom> {
    let mut ledger = together(book, &member.atoms, random);
    if ledger.len() > 1 && random.percent(50) {
        let gone = random.below(ledger.len());
        ledger.remove(gone);
    }
    if !ledger.is_empty() && random.percent(30) {
        let at = random.below(ledger.len());
        let place = random.below(ledger[at].terms.len());
        ledger[at].terms[place] = Term::Constant(random.below(book.constants + 2));
    }
    if random.percent(40) {
        ledger.push(fact(book, random));
    }
    ledger
}

/// The bodies of one or two rules over few things.
fn body(book: &Book, random: &mut Random) -> Vec<Atom> {
    if book.rules.is_empty() {
        return by_chance(book, random);
    }
    let mut ledger = Vec::new();
    for _ in 0..random.between(1, 3) {
        let rule = random.one_of(&book.rules);
        ledger.extend(together(book, &rule.body, random));
    }
    ledger
}

/// Facts by chance.
fn by_chance(book: &Book, random: &mut Random) -> Vec<Atom> {
    let many = random.between(1, 6);
    (0..many).map(|_| fact(book, random)).collect()
}

/// One fact by chance.
fn fact(book: &Book, random: &mut Random) -> Atom {
    let relation = random.below(book.relations.len());
    let thing = |_| Term::Constant(random.below(book.constants + 2));
    Atom::new(relation, (0..book.relations[relation]).map(thing).collect())
}
