//! The members of a union while it is made.

use crate::bits::bits;
use crate::cover::covers;
use crate::form::{Form, MEMBER_ATOMS};
use crate::pattern::Pattern;
use crate::target::Target;

/// The most members.
pub const MOST_MEMBERS: usize = 64;

/// A member: its question, and the same made ready to cover others.
struct Member<const W: usize> {
    form: Form<W>,
    pattern: Pattern<W>,
}

/// Why the exploration of a member ends early.
#[derive(Clone, Copy, Debug, PartialEq, Eq)]
pub enum Stop {
    /// The member taken up was removed.
    Removed,
    /// A refusal, 8 or 9.
    Refused(u8),
}

/// The members. Each keeps its seat as long as it is one, so that none is moved when another
/// is removed, and sets of members are the bits of their seats.
pub struct Members<const W: usize> {
    seats: Vec<Member<W>>,
    /// The seats that are taken, as bits.
    taken: u64,
    /// The relations of the member in each seat, as bits; they refute most coverings and
    /// stand close together.
    relations: [u64; MOST_MEMBERS],
    /// The seats in order of arrival.
    order: [u8; MOST_MEMBERS],
    count: usize,
    /// How many of them are explored: the first, for members are taken up as they arrived.
    explored: usize,
    /// The seat of the member taken up.
    taken_up: u8,
    /// The seat of the member that covered last. It is asked first: any that covers will do,
    /// and the next rewriting is often much like the one before.
    last: usize,
}

impl<const W: usize> Members<W> {
    /// The question as the first member.
    pub fn new(question: Form<W>) -> Members<W> {
        let mut members = Members {
            seats: Vec::with_capacity(MOST_MEMBERS),
            taken: 0,
            relations: [0; MOST_MEMBERS],
            order: [0; MOST_MEMBERS],
            count: 0,
            explored: 0,
            taken_up: 0,
            last: 0,
        };
        members.append(question, Pattern::of(question.answer, question.atoms()));
        members
    }

    /// How many members there are.
    pub fn count(&self) -> usize {
        self.count
    }

    /// The questions of the members in order of arrival.
    pub fn forms(&self) -> impl Iterator<Item = &Form<W>> {
        let order = self.order[..self.count].iter();
        order.map(|&seat| &self.seats[seat as usize].form)
    }

    /// Whether a member is unexplored.
    pub fn is_one_unexplored(&self) -> bool {
        self.explored < self.count
    }

    /// Takes up the oldest unexplored member.
    pub fn take_up(&mut self) -> Form<W> {
        self.taken_up = self.order[self.explored];
        self.explored += 1;
        self.seats[self.taken_up as usize].form
    }

    /// The members with no relation but these, as bits.
    pub fn among(&self, relations: u64) -> u64 {
        let mut among = 0;
        for (seat, of_member) in self.relations[..self.seats.len()].iter().enumerate() {
            among |= ((of_member & !relations == 0) as u64) << seat;
        }
        among & self.taken
    }

    /// Those of these members with no relation but these.
    #[inline]
    pub fn having_only(&self, members: u64, relations: u64) -> u64 {
        let mut having = members;
        for seat in bits(members) {
            having &= !(((self.relations[seat] & !relations != 0) as u64) << seat);
        }
        having
    }

    /// Whether one of these members covers the target.
    #[inline]
    pub fn cover(&mut self, near: u64, target: &Target<W>) -> bool {
        if near == 0 {
            return false;
        }
        let last = near & 1 << self.last;
        if last != 0 && covers(&self.seats[self.last].pattern, target) {
            return true;
        }
        let covering = |&seat: &usize| covers(&self.seats[seat].pattern, target);
        match bits(near & !last).find(covering) {
            Some(seat) => {
                self.last = seat;
                true
            }
            None => false,
        }
    }

    /// Admits a rewriting that no member covers: refusal 8, members that it covers removed,
    /// refusal 9, appended.
    pub fn admit(&mut self, rewriting: &mut Target<W>) -> Result<(), Stop> {
        let form = Form::of(rewriting.answer, rewriting.atoms());
        if form.count > MEMBER_ATOMS {
            return Err(Stop::Refused(8));
        }
        let pattern = Pattern::of(form.answer, form.atoms());
        let covered = self.covered_by(&pattern, rewriting);
        if covered != 0 {
            self.remove(covered);
        }
        if self.count == MOST_MEMBERS {
            return Err(Stop::Refused(9));
        }
        self.append(form, pattern);
        match covered >> self.taken_up & 1 {
            1 => Err(Stop::Removed),
            _ => Ok(()),
        }
    }

    /// The members that the pattern covers, as bits.
    fn covered_by(&self, pattern: &Pattern<W>, target: &mut Target<W>) -> u64 {
        let mut covered = 0;
        for (seat, member) in self.seats.iter().enumerate() {
            let beside = pattern.relations & !self.relations[seat];
            let is_there = self.taken >> seat & 1 == 1;
            if beside == 0 && is_there && pattern.marks & !member.pattern.marks == 0 {
                target.fill(member.form.answer, member.form.atoms());
                covered |= (covers(pattern, target) as u64) << seat;
            }
        }
        covered
    }

    /// Removes these members.
    fn remove(&mut self, members: u64) {
        self.taken &= !members;
        let (count, explored) = (self.count, self.explored);
        (self.count, self.explored) = (0, 0);
        for at in 0..count {
            let seat = self.order[at];
            if self.taken >> seat & 1 == 1 {
                self.order[self.count] = seat;
                self.count += 1;
                self.explored += (at < explored) as usize;
            }
        }
    }

    /// Appends a member in a free seat.
    fn append(&mut self, form: Form<W>, pattern: Pattern<W>) {
        let seat = self.taken.trailing_ones() as usize;
        self.relations[seat] = pattern.relations;
        self.taken |= 1 << seat;
        self.order[self.count] = seat as u8;
        self.count += 1;
        let member = Member { form, pattern };
        match self.seats.get_mut(seat) {
            Some(free) => *free = member,
            None => self.seats.push(member),
        }
    }
}
