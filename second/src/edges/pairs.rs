//! Edge pairs: two records of which the one hardly covers the other, or just not.

use super::atoms::{Drawn, Filling};
use super::disguise::renamed;
use super::graphs::{ring, scattered, Arrow};
use super::parts::{ground, part_among_unrelated, reordered, shuffled};
use crate::pairs::Pair;
use crate::random::Random;
use crate::term::{variables, Atom, Question, Term};
use crate::union::record;
use crate::width::{Width, ANSWER_PLACES, WIDTHS};

/// The most atoms of a record at the desk.
const MOST: usize = 11;

/// The next edge pair, of either width.
pub fn pair(random: &mut Random) -> Pair {
    let width = *random.one_of(&WIDTHS);
    let (mut first, mut second) = match random.below(8) {
        0..=3 => graphs(width, random),
        4 => rings(width, random),
        5 => fails_last(width, random),
        _ => image(width, random),
    };
    if random.percent(25) {
        change_one(&mut second, random);
    }
    if random.percent(20) {
        answer_both(&mut first, &mut second, random);
    }
    let mut named = |question| {
        let question = renamed(&question, width.desk_variables(), random);
        record(&question, width)
    };
    let pair = Pair {
        width: width.places(),
        first: named(first),
        second: named(second),
    };
    match random.percent(20) {
        true => pair.turned(),
        false => pair,
    }
}

/// How many atoms a record has: in half of the cases as many as may be.
fn size(random: &mut Random) -> usize {
    match random.percent(50) {
        true => MOST,
        false => random.between(3, MOST),
    }
}

/// How the arrows of a pair look: one relation of two places or more.
fn drawn(width: Width, random: &mut Random) -> Drawn {
    Drawn {
        relation: *random.one_of(&[0, 0, 63]),
        places: *random.one_of(&[2, 2, 2, 3, width.places()]),
        filling: Filling::any(random),
    }
}

/// A question with an atom for each arrow.
fn question(drawn: Drawn, arrows: &[Arrow]) -> Question {
    Question::boolean(drawn.atoms(arrows))
}

/// A part among unrelated arrows, to be placed on a graph; the places that are filled may be so
/// otherwise there.
fn graphs(width: Width, random: &mut Random) -> (Question, Question) {
    let (mine, theirs) = (size(random), size(random));
    let first = part_among_unrelated(mine, random);
    let first = reordered(first, random);
    let second = ground(theirs, random);
    let second = reordered(second, random);
    let drawn = drawn(width, random);
    let other = drawn.perhaps_otherwise(random);
    (question(drawn, &first), question(other, &second))
}

/// A ring, neighbours late, to be placed on rings and other graphs.
fn rings(width: Width, random: &mut Random) -> (Question, Question) {
    let (mine, theirs) = (size(random), size(random));
    let first = match random.percent(70) {
        true => scattered(ring(mine)),
        false => reordered(ring(mine), random),
    };
    let second = ground(theirs, random);
    let drawn = drawn(width, random);
    (question(drawn, &first), question(drawn, &second))
}

/// Atoms that go anywhere, and a last one, of another relation, that goes nowhere or just there.
fn fails_last(width: Width, random: &mut Random) -> (Question, Question) {
    let (mine, theirs) = (size(random) - 1, size(random) - 1);
    let drawn = drawn(width, random);
    let first = part_among_unrelated(mine, random);
    let second = ground(theirs, random);
    let (mut first, mut second) = (question(drawn, &first), question(drawn, &second));
    let last = |term| Atom::new(1, vec![term]);
    let named = Term::Constant(random.below(2));
    first
        .atoms
        .push(last(*random.one_of(&[named, Term::Variable(0)])));
    second.atoms.push(last(Term::Constant(0)));
    (first, second)
}

/// Atoms over few variables, and what some map makes of them, in another order: a yes that has to
/// be looked for, and with one atom changed mostly a no.
fn image(width: Width, random: &mut Random) -> (Question, Question) {
    let (many, places) = (size(random), random.between(2, width.places()));
    let relations = random.between(1, 2);
    let variables = random.between(2, 12);
    let atom = |_| {
        let relation = random.below(relations);
        let terms = (0..places).map(|_| Term::Variable(random.below(variables)));
        Atom::new(relation, terms.collect())
    };
    let first = Question::boolean((0..many).map(atom).collect());
    let fewer = random.between(2, 8);
    let images: Vec<usize> = (0..variables).map(|_| random.below(fewer)).collect();
    let mapped = first.map(|term| match term {
        Term::Variable(v) => Term::Variable(images[v]),
        constant => constant,
    });
    let mut second = Question::boolean(shuffled(mapped.atoms, random));
    if random.percent(70) {
        change_one(&mut second, random);
    }
    (first, second)
}

/// Puts another variable of the question into one place of one atom.
fn change_one(question: &mut Question, random: &mut Random) {
    let variables = Vec::from_iter(variables(&question.atoms));
    let at = random.below(question.atoms.len());
    let place = random.below(question.atoms[at].terms.len());
    question.atoms[at].terms[place] = Term::Variable(*random.one_of(&variables));
}

/// Gives both answer records of as many places, of their first variables or of any.
fn answer_both(first: &mut Question, second: &mut Question, random: &mut Random) {
    let places = random.between(1, ANSWER_PLACES);
    for question in [first, second] {
        let variables = Vec::from_iter(variables(&question.atoms));
        let chosen = |_| Term::Variable(*random.one_of(&variables));
        question.answer = (0..places).map(chosen).collect();
    }
}
