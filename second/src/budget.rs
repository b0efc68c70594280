//! A budget of steps for the second program's searches. They try everything, and on some books
//! and records that takes minutes: whoever cannot wait gives them a budget, and gets no answer
//! once it is used up. The budget stands beside the searches and not in what they say, so that
//! they still read like the paper.

use std::cell::Cell;

thread_local! {
    /// What is left of this thread's budget; without one, more than can be used up.
    static LEFT: Cell<u64> = const { Cell::new(u64::MAX) };
}

/// The steps of one choice: its classes, its validity and its rewriting take about as long as
/// placing so many atoms.
pub const CHOICE: u64 = 20;

/// What the work answers, if it takes this thread fewer steps than these. A step is an atom tried
/// on another; a choice counts for several. None: it gave up.
pub fn within<T>(steps: u64, work: impl FnOnce() -> T) -> Option<T> {
    let before = LEFT.replace(steps);
    let answer = work();
    let left = LEFT.replace(before);
    (left > 0).then_some(answer)
}

/// Takes so many steps from the budget; whether any are left. A search that is told no ends at
/// once, and what it answers is thrown away.
pub fn take(steps: u64) -> bool {
    let left = LEFT.get().saturating_sub(steps);
    LEFT.set(left);
    left > 0
}
