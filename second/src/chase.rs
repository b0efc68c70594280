//! A bounded forward chase: applying rules to facts until enough is known, nothing new
//! comes, or a bound is met. Facts are atoms: a constant is a named thing, a variable an
//! unknown.

use crate::cover::{for_each_map, holds, some_map, Map};
use crate::term::{variables, Atom, Question, Rule, Term};

/// How far a chase goes.
#[derive(Clone, Copy)]
pub struct Bounds {
    pub rounds: usize,
    pub facts: usize,
    /// Maps of one rule's body in one round.
    pub maps: usize,
}

/// The bounds for small ledgers.
pub const SMALL: Bounds = Bounds {
    rounds: 12,
    facts: 60,
    maps: 4000,
};

/// What a chase found out about the question.
#[derive(Clone, Copy, Debug, PartialEq, Eq)]
pub enum Chased {
    /// It holds after some applications.
    Holds,
    /// It does not hold, and nothing new comes.
    Fails,
    /// A bound was met.
    Undecided,
}

/// What a chase reached.
pub struct Reached {
    pub facts: Vec<Atom>,
    /// Whether nothing new comes after these facts.
    pub whole: bool,
}

/// Applies the rules to the facts, round by round, and asks the question for this row.
pub fn chase(
    rules: &[Rule],
    ledger: &[Atom],
    question: &Question,
    row: &[Term],
    bounds: Bounds,
) -> Chased {
    let reached = reach(rules, ledger, bounds, |facts| holds(question, row, facts));
    match (holds(question, row, &reached.facts), reached.whole) {
        (true, _) => Chased::Holds,
        (false, true) => Chased::Fails,
        (false, false) => Chased::Undecided,
    }
}

/// Applies the rules to the facts, round by round, until the facts are `enough`.
pub fn reach(
    rules: &[Rule],
    ledger: &[Atom],
    bounds: Bounds,
    enough: impl Fn(&[Atom]) -> bool,
) -> Reached {
    let mut facts = Facts {
        atoms: ledger.to_vec(),
        unknowns: variables(ledger).last().map_or(0, |v| v + 1),
    };
    let mut whole = false;
    for _ in 0..bounds.rounds {
        let before = facts.atoms.len();
        let stopped = enough(&facts.atoms);
        if stopped
            || !rules
                .iter()
                .all(|rule| facts.apply_everywhere(rule, bounds))
        {
            break;
        }
        if facts.atoms.len() == before {
            whole = true;
            break;
        }
    }
    Reached {
        facts: facts.atoms,
        whole,
    }
}

/// Facts, and how many unknowns they have.
struct Facts {
    atoms: Vec<Atom>,
    unknowns: usize,
}

impl Facts {
    /// Applies the rule for every map of its body into the facts as they are now; false
    /// if a bound is met.
    fn apply_everywhere(&mut self, rule: &Rule, bounds: Bounds) -> bool {
        let mut maps: Vec<Map> = Vec::new();
        for_each_map(&rule.body, &self.atoms, &Map::default(), &mut |map| {
            maps.push(map.clone());
            maps.len() <= bounds.maps
        });
        for map in &maps {
            self.apply(rule, map);
            if self.atoms.len() > bounds.facts {
                return false;
            }
        }
        maps.len() <= bounds.maps
    }

    /// "a map of its body into the facts adds the head, frontier variables mapped alike
    /// and each existential variable replaced by a fresh unknown". Where the head holds
    /// already for these frontier variables, what it would add says nothing new.
    fn apply(&mut self, rule: &Rule, map: &Map) {
        let mut map = map.only(|v| rule.is_frontier(v));
        if some_map(&rule.head, &self.atoms, &map) {
            return;
        }
        for v in variables(&rule.head) {
            if rule.is_existential(v) {
                map.put(v, Term::Variable(self.unknowns));
                self.unknowns += 1;
            }
        }
        for atom in &rule.head {
            let fact = atom.map(|t| match t {
                Term::Variable(v) => map.image(v).unwrap(),
                Term::Constant(_) => t,
            });
            if !self.atoms.contains(&fact) {
                self.atoms.push(fact);
            }
        }
    }
}
