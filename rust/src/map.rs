//! The map by which one record covers another.

use crate::raw::MAP;
use crate::union::{Term, UNUSED};
use std::fmt;

/// Where the variables of a record go, so that each of its atoms becomes an atom of another
/// record. It prints as `v0 to c1, v2 to v0`.
///
/// Of all maps it is the first, when atoms are taken in order and candidates in order.
#[derive(Clone, Copy, PartialEq, Eq, Hash)]
pub struct Map {
    bytes: [u8; MAP],
}

impl Map {
    /// The map in these bytes, which the desk wrote.
    pub(crate) fn written(bytes: [u8; MAP]) -> Map {
        Map { bytes }
    }

    /// The term that this variable goes to; none if it does not stand in the record that
    /// covers.
    pub fn term(&self, variable: u8) -> Option<Term> {
        let byte = self.bytes.get(usize::from(variable));
        byte.filter(|&&byte| byte != UNUSED)
            .map(|&byte| Term::of(byte))
    }

    /// Where a term of the record that covers goes. Constants stay, and so does a variable that
    /// does not stand in it.
    pub fn image(&self, term: Term) -> Term {
        match term {
            Term::Variable(variable) => self.term(variable).unwrap_or(term),
            Term::Constant(_) => term,
        }
    }

    /// The variables of the record that covers, ascending, each with the term that it goes to.
    pub fn iter(&self) -> impl Iterator<Item = (u8, Term)> + '_ {
        let variables = 0..MAP as u8;
        variables.filter_map(|variable| Some((variable, self.term(variable)?)))
    }

    /// The map as the search desk writes it, a byte for each variable.
    pub fn as_bytes(&self) -> &[u8; MAP] {
        &self.bytes
    }
}

impl fmt::Display for Map {
    fn fmt(&self, f: &mut fmt::Formatter<'_>) -> fmt::Result {
        for (number, (variable, term)) in self.iter().enumerate() {
            let before = if number == 0 { "" } else { ", " };
            write!(f, "{before}{} to {term}", Term::Variable(variable))?;
        }
        Ok(())
    }
}

impl fmt::Debug for Map {
    fn fmt(&self, f: &mut fmt::Formatter<'_>) -> fmt::Result {
        write!(f, "Map({self})")
    }
}
