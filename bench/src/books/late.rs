//! The worst books by their coverings: what cannot be placed comes last.

use super::choices::worst;
use super::text::{atoms, Words};
use crate::task::Pace;

/// The books.
pub fn books() -> Vec<Words> {
    let (nowhere, not_met) = (fits_nowhere(), do_not_meet());
    vec![
        worst(
            "covering-fits-nowhere",
            nowhere.0,
            &nowhere.1,
            Pace::Ordinary,
        ),
        worst(
            "covering-do-not-meet",
            not_met.0,
            &not_met.1,
            Pace::Ordinary,
        ),
        worst(
            "covering-unrelated-3",
            unrelated(),
            &cycle_after(3),
            Pace::Ordinary,
        ),
        worst(
            "covering-unrelated-4",
            unrelated(),
            &cycle_after(4),
            Pace::Heavy,
        ),
        worst(
            "covering-unrelated-5",
            unrelated(),
            &cycle_after(5),
            Pace::Slow,
        ),
    ]
}

/// Seven atoms with ten candidates each before the one that has none.
fn fits_nowhere() -> (Vec<String>, String) {
    let rule = format!("{} q(C1) -> q(C0)", four_places(3));
    (vec![rule], format!("{} q(C0)", four_places(7)))
}

/// Six atoms with eight candidates each before two that have one each but share a variable.
fn do_not_meet() -> (Vec<String>, String) {
    let rule = format!("{} s(y) t(z) -> s(z)", four_places(2));
    (vec![rule], format!("{} q(z) s(z)", four_places(6)))
}

/// So many atoms of four places, every variable once.
fn four_places(many: usize) -> String {
    atoms(many, |i| format!("p(a{i},b{i},d{i},e{i})"))
}

/// Two rules over one relation. The second leaves many atoms of it, none of which go in a ring.
fn unrelated() -> Vec<String> {
    vec![
        "s(a,b,c,d) -> p(a,b) p(b,a)".into(),
        "s(a,b,c,d) p(e,f) p(g,h) p(i,j) -> p(a,b) p(b,c) p(c,d) p(a,d)".into(),
    ]
}

/// So many atoms that share nothing with the rest, then a ring of two: the ring has no place where
/// there is none, and the others are placed again and again before that is seen.
fn cycle_after(many: usize) -> String {
    let unrelated = atoms(many, |i| format!("p(x{i},y{i})"));
    format!("{unrelated} p(z,w) p(w,z)")
}
