//! The exploration, in the paper's order.

use crate::book::Book;
use crate::form::form;
use crate::seen::Seen;
use crate::term::{Question, Rule};
use crate::unify::for_each_choice;
use crate::watch;
use crate::way::Way;

/// The most members a union has.
pub const ROOM: usize = 64;

/// The most atoms a member has.
pub const MOST_ATOMS: usize = 8;

/// The end of a run.
#[derive(Clone, Debug, PartialEq, Eq)]
pub enum Outcome {
    /// The members in order of arrival, and how many questions were taken up.
    Complete {
        members: Vec<Question>,
        explored: usize,
    },
    /// A refusal, 8 to 10, with its place.
    Refused { number: usize, place: usize },
}

/// A member with its number of arrival and its distance from the question.
pub struct Member {
    pub question: Question,
    pub arrival: usize,
    pub steps: usize,
    pub explored: bool,
}

/// The state of a run.
pub struct Run<'a> {
    pub book: &'a Book,
    pub members: Vec<Member>,
    pub arrivals: usize,
    pub taken: usize,
    pub removals: usize,
    way: Way,
}

/// Explores the book's question as the paper says.
pub fn explore(book: &Book, seen: &mut Seen) -> Outcome {
    explore_by(book, Way::Right, seen)
}

/// Explores the book's question in the given way.
pub fn explore_by(book: &Book, way: Way, seen: &mut Seen) -> Outcome {
    let mut run = Run {
        book,
        members: Vec::new(),
        arrivals: 0,
        taken: 0,
        removals: 0,
        way,
    };
    watch::question(&book.question, seen);
    run.append(form(&book.question), 0, seen);
    let end = run.explore_all(seen);
    watch::end(&run, end, seen);
    match end {
        Ok(()) => Outcome::Complete {
            members: run.members.into_iter().map(|m| m.question).collect(),
            explored: run.taken,
        },
        // "questions taken up", which at 10 is L.
        Err(number) => Outcome::Refused {
            number,
            place: run.taken,
        },
    }
}

impl Run<'_> {
    /// "Take up the oldest unexplored member"; "before taking up another member, apply
    /// 10"; "when none is unexplored the run is complete". A refusal gives its number.
    fn explore_all(&mut self, seen: &mut Seen) -> Result<(), usize> {
        while let Some(oldest) = self.oldest_unexplored() {
            if self.taken == self.book.allowed {
                return Err(10);
            }
            self.taken += 1;
            self.members[oldest].explored = true;
            if self.way.explores(self.taken) {
                self.explore_member(oldest, seen)?;
            }
        }
        Ok(())
    }

    /// Where the oldest unexplored member stands. One without atoms is a member like any
    /// other.
    pub fn oldest_unexplored(&self) -> Option<usize> {
        let waits = |m: &Member| !m.explored && self.way.takes_up(&m.question);
        self.members.iter().position(waits)
    }

    /// Goes "through rules in book order, choices in theirs"; "if the member taken up is
    /// itself removed, its exploration stops at once, after the append".
    fn explore_member(&mut self, at: usize, seen: &mut Seen) -> Result<(), usize> {
        let member = &self.members[at];
        let (question, arrival) = (member.question.clone(), member.arrival);
        let (steps, mut found) = (member.steps + 1, 0);
        let (book, way) = (self.book, self.way);
        for rule in book.rules.iter().filter(|rule| way.tries(rule)) {
            found += self.explore_rule(&question, rule, arrival, steps, seen)?;
            if self.stops(arrival) {
                break;
            }
        }
        watch::explored(&question, found, self.stops(arrival), seen);
        Ok(())
    }

    /// Admits the rewritings of the question with one rule; how many there were.
    fn explore_rule(
        &mut self,
        question: &Question,
        rule: &Rule,
        arrival: usize,
        steps: usize,
        seen: &mut Seen,
    ) -> Result<usize, usize> {
        let (mut found, mut end) = (0, Ok(()));
        for_each_choice(question, rule, &mut |_, choice| {
            if let Some(classes) = self.way.valid(choice, seen) {
                let unformed = choice.unformed(&classes);
                watch::valid_choice(choice, &classes, &unformed, seen);
                found += 1;
                end = self.admit(form(&unformed), steps, seen);
            }
            end.is_ok() && !self.stops(arrival)
        });
        watch::choices(question, rule, seen);
        end.map(|()| found)
    }

    /// "If a member covers the new rewriting it is dropped. Otherwise apply refusal 8,
    /// remove every member that it covers, apply 9, and append it."
    fn admit(&mut self, new: Question, steps: usize, seen: &mut Seen) -> Result<(), usize> {
        watch::rewriting(&new, seen);
        let covering = |m: &Member| self.way.covers(&m.question, &new);
        if let Some(first) = self.members.iter().position(covering) {
            watch::dropped(&self.members, first, &new, seen);
            return Ok(());
        }
        watch::uncovered(&self.members, &new, seen);
        if self.way.counted(&new) > MOST_ATOMS {
            return Err(8);
        }
        let before = self.members.len();
        self.remove_covered_by(&new, seen);
        let members = match self.way.frees_room() {
            true => self.members.len(),
            false => before,
        };
        if members == ROOM {
            return Err(9);
        }
        self.append(new, steps, seen);
        Ok(())
    }

    /// Removes every member that the new rewriting covers.
    fn remove_covered_by(&mut self, new: &Question, seen: &mut Seen) {
        let (way, members) = (self.way, std::mem::take(&mut self.members));
        let covered = |m: &Member| way.covers(new, &m.question);
        let (removed, kept) = members.into_iter().partition(covered);
        self.members = kept;
        self.removals += removed.len();
        watch::removed(&removed, self.members.len(), seen);
        watch::removed_by(new, removed.len(), self.members.len(), seen);
    }

    /// Appends a member.
    fn append(&mut self, question: Question, steps: usize, seen: &mut Seen) {
        watch::appended(&question, steps, seen);
        self.members.push(Member {
            question,
            arrival: self.arrivals,
            steps,
            explored: false,
        });
        self.arrivals += 1;
    }

    /// Whether exploring the member with this number of arrival stops: it was removed.
    fn stops(&self, arrival: usize) -> bool {
        let there = self.members.iter().any(|m| m.arrival == arrival);
        !there && self.way.stops_when_removed()
    }
}
