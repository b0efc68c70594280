//! The search desk: covering between two member records.

use crate::map::Map;
use crate::raw;
use crate::width::Width;
use std::fmt;

/// A record that is none: it has 0 to 11 atoms of the width that is told and exactly fitting
/// length, with relations 0 to 63 and the used places first.
#[derive(Clone, Copy, Debug, PartialEq, Eq)]
pub enum Malformed {
    /// The first is, whatever the second is.
    First,
    /// The second alone is.
    Second,
}

impl fmt::Display for Malformed {
    fn fmt(&self, f: &mut fmt::Formatter<'_>) -> fmt::Result {
        let which = match self {
            Malformed::First => "first",
            Malformed::Second => "second",
        };
        write!(
            f,
            "the {which} record is malformed; give a count of 0 to 11 and after it an answer \
             record, if there is one, and that many atoms, five bytes each, or seven where the \
             width is six"
        )
    }
}

impl std::error::Error for Malformed {}

/// If the first record covers the second (wherever the second holds, so does the first), the
/// map that shows it: where the first's variables go. None if it does not cover it.
///
/// ```
/// use rauntiko::{Term, Width};
///
/// // p(v0,v1) covers p(c0,v0), and not the other way.
/// let (any, named) = ([1, 0, 0, 1, 255, 255], [1, 0, 128, 0, 255, 255]);
/// let map = rauntiko::covers(&any, &named, Width::Four)?.expect("it covers");
/// assert_eq!(map.term(0), Some(Term::Constant(0)));
/// assert_eq!(map.term(1), Some(Term::Variable(0)));
/// assert_eq!(map.term(2), None);
/// assert_eq!(map.to_string(), "v0 to c0, v1 to v0");
/// assert_eq!(rauntiko::covers(&named, &any, Width::Four)?, None);
/// # Ok::<(), rauntiko::Malformed>(())
/// ```
pub fn covers(first: &[u8], second: &[u8], width: Width) -> Result<Option<Map>, Malformed> {
    let covered = raw::covers(first, second, width.places());
    match covered.number {
        2 => Err(Malformed::First),
        3 => Err(Malformed::Second),
        1 => Ok(Some(Map::written(covered.map))),
        _ => Ok(None),
    }
}

/// The record to keep of two, and why the other may be dropped.
#[derive(Clone, Copy, Debug, PartialEq, Eq)]
pub struct Kept<'r> {
    /// The record that covers the other.
    pub record: &'r [u8],
    /// The record that it covers.
    pub dropped: &'r [u8],
    /// Where the variables of the record that is kept go.
    pub map: Map,
}

/// The record to keep of two, the one that covers the other, with the map that shows it; the
/// first if they are equivalent. None if they are malformed or incomparable.
///
/// ```
/// use rauntiko::Width;
///
/// let (any, named) = ([1, 0, 0, 255, 255, 255], [1, 0, 128, 255, 255, 255]);
/// let kept = rauntiko::kept(&named, &any, Width::Four).expect("one covers the other");
/// assert_eq!((kept.record, kept.dropped), (&any[..], &named[..]));
/// assert_eq!(kept.map.to_string(), "v0 to c0");
/// ```
pub fn kept<'r>(first: &'r [u8], second: &'r [u8], width: Width) -> Option<Kept<'r>> {
    let raw::Kept { which, map } = raw::kept(first, second, width.places());
    let (record, dropped) = match which {
        1 => (first, second),
        2 => (second, first),
        _ => return None,
    };
    Some(Kept {
        record,
        dropped,
        map: Map::written(map),
    })
}

/// The record to keep of two, without the map.
pub fn keep<'r>(first: &'r [u8], second: &'r [u8], width: Width) -> Option<&'r [u8]> {
    kept(first, second, width).map(|kept| kept.record)
}
