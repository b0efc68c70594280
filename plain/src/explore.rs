//! The exploration of a book's question.

use crate::bits::bits;
use crate::book::Book;
use crate::choices::{admit_all, Workshop};
use crate::classes::Classes;
use crate::form::Form;
use crate::members::{Members, Stop};
use crate::options::Asked;
use crate::seen::Seen;
use crate::target::Target;
use crate::Answer;

/// A complete run: the members, and how many questions were taken up.
pub struct Explored<const W: usize> {
    pub members: Members<W>,
    pub explored: usize,
}

/// Explores until no member is unexplored, or gives refusal 8, 9 or 10.
pub fn explore<const W: usize>(book: &Book<W>) -> Result<Explored<W>, Answer> {
    let mut work = Workshop {
        members: Members::new(book.question),
        classes: Classes::new(),
        target: Target::new(),
        seen: Seen::default(),
        turns: 0,
    };
    let mut explored = 0;
    while work.members.is_one_unexplored() {
        if explored == book.allowed {
            return Err(Answer::new(10, explored));
        }
        explored += 1;
        let form = work.members.take_up();
        if let Err(Stop::Refused(number)) = explore_one(book, form, &mut work) {
            return Err(Answer::new(number, explored));
        }
    }
    let members = work.members;
    Ok(Explored { members, explored })
}

/// Goes through the rules in book order, but for those with no relation of the question in
/// their heads: they have no choice that is valid.
fn explore_one<const W: usize>(
    book: &Book<W>,
    form: Form<W>,
    work: &mut Workshop<W>,
) -> Result<(), Stop> {
    let heads = form.atoms().iter().map(|atom| atom.relation() as usize);
    let rules = heads.fold(0, |rules, relation| rules | book.by_head[relation]);
    if rules == 0 {
        return Ok(());
    }
    let asked = Asked::new(form);
    bits(rules as u64).try_for_each(|rule| admit_all(&asked, book.rule(rule), work))
}
