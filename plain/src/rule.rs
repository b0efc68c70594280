//! A rule made ready to be met.

use crate::atom::{byte_of, is_variable, record_length, Atom, VARIABLES};
use crate::classes::{HELD, UNKNOWN};

/// The most atoms of a body or a head.
pub const RULE_ATOMS: usize = 4;

/// A rule, its variables kept apart from the question's by being numbered after them.
pub struct Rule<const W: usize> {
    body: [Atom<W>; RULE_ATOMS],
    head: [Atom<W>; RULE_ATOMS],
    bodies: usize,
    heads: usize,
    /// The body's relations as bits.
    pub relations: u64,
    /// For each head atom the bytes that no map changes.
    pub fixed: [u64; RULE_ATOMS],
    /// For each head atom the bytes that hold unknowns.
    pub unknown: [u64; RULE_ATOMS],
    /// Whether the head has unknowns.
    pub has_unknowns: bool,
    /// Whether the head has constants.
    pub has_constants: bool,
    /// For each variable if it is an unknown or a frontier variable.
    pub said: [u8; VARIABLES],
}

impl<const W: usize> Rule<W> {
    /// The rule with the body and the head in these bytes. Of equal head atoms only the first
    /// is kept: what is sent to another gives the same classes, and so rewritings that were
    /// seen before and are covered ever after.
    pub fn of(body: &[u8], head: &[u8]) -> Rule<W> {
        let mut rule = Rule {
            body: [Atom::NONE; RULE_ATOMS],
            head: [Atom::NONE; RULE_ATOMS],
            bodies: 0,
            heads: 0,
            relations: 0,
            fixed: [0; RULE_ATOMS],
            unknown: [0; RULE_ATOMS],
            has_unknowns: false,
            has_constants: false,
            said: [0; VARIABLES],
        };
        for atom in body.chunks_exact(record_length(W)) {
            rule.body[rule.bodies] = Atom::of(atom).moved(VARIABLES);
            rule.relations |= rule.body[rule.bodies].relation_bit();
            rule.bodies += 1;
        }
        for atom in head
            .chunks_exact(record_length(W))
            .map(|atom| Atom::<W>::of(atom).moved(VARIABLES))
        {
            if !rule.head().contains(&atom) {
                rule.head[rule.heads] = atom;
                rule.fixed[rule.heads] = atom.fixed();
                rule.heads += 1;
            }
        }
        rule.say();
        rule
    }

    /// The body's atoms.
    pub fn body(&self) -> &[Atom<W>] {
        &self.body[..self.bodies]
    }

    /// The head's atoms.
    pub fn head(&self) -> &[Atom<W>] {
        &self.head[..self.heads]
    }

    /// Says of the head's variables what they are: unknown, unless they stand in the body.
    fn say(&mut self) {
        let mut in_body = 0_u64;
        for term in self.body[..self.bodies]
            .iter()
            .flat_map(|atom| atom.terms())
        {
            if is_variable(term) {
                in_body |= 1 << (term as usize - VARIABLES);
            }
        }
        for at in 0..self.heads {
            for (place, term) in self.head[at].terms().enumerate() {
                if !is_variable(term) {
                    self.has_constants = true;
                    continue;
                }
                let variable = term as usize - VARIABLES;
                let unknown = in_body >> variable & 1 == 0;
                self.has_unknowns |= unknown;
                self.said[variable] = if unknown { UNKNOWN } else { HELD };
                self.unknown[at] |= byte_of(place) * unknown as u64;
            }
        }
    }
}
