//! A union in the words of the printing program.

use crate::union::{Atom, Member, Term, Terms, Union};
use std::fmt::{Display, Formatter, Result};

impl Display for Union {
    /// `members 2 explored 2` and a line for each member, every line with its end.
    fn fmt(&self, f: &mut Formatter<'_>) -> Result {
        let (many, explored) = (self.members().len(), self.explored());
        writeln!(f, "members {many} explored {explored}")?;
        self.members()
            .try_for_each(|member| writeln!(f, "{member}"))
    }
}

impl Display for Member<'_> {
    /// The answer record, if there is one, and the atoms: `a(v0,c1) r1(v0)`; without atoms
    /// `always` stands in their place.
    fn fmt(&self, f: &mut Formatter<'_>) -> Result {
        if self.answer().len() > 0 {
            write!(f, "a{} ", self.answer())?;
        }
        if self.atoms().len() == 0 {
            return write!(f, "always");
        }
        separated(f, " ", self.atoms())
    }
}

impl Display for Atom<'_> {
    /// The relation's number and the terms: `r2(v1,v0)`.
    fn fmt(&self, f: &mut Formatter<'_>) -> Result {
        write!(f, "r{}{}", self.relation(), self.terms())
    }
}

impl Display for Terms<'_> {
    /// In parentheses, a comma between two.
    fn fmt(&self, f: &mut Formatter<'_>) -> Result {
        write!(f, "(")?;
        separated(f, ",", self.clone())?;
        write!(f, ")")
    }
}

impl Display for Term {
    /// `v0` or `c0`.
    fn fmt(&self, f: &mut Formatter<'_>) -> Result {
        match self {
            Term::Variable(number) => write!(f, "v{number}"),
            Term::Constant(number) => write!(f, "c{number}"),
        }
    }
}

/// Items with something between two.
fn separated<T: Display>(
    f: &mut Formatter<'_>,
    between: &str,
    items: impl Iterator<Item = T>,
) -> Result {
    for (number, item) in items.enumerate() {
        let before = if number == 0 { "" } else { between };
        write!(f, "{before}{item}")?;
    }
    Ok(())
}
