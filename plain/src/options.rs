//! Which head atoms each atom of a question can be sent to, before any choice is made.

use crate::atom::{byte_of, is_variable, Atom};
use crate::bits::bits;
use crate::form::{Form, MEMBER_ATOMS};
use crate::rule::Rule;

/// A member taken up.
pub struct Asked<const W: usize> {
    pub form: Form<W>,
    /// Its relations as bits.
    pub relations: u64,
    /// Whether an atom has constants.
    pub has_constants: bool,
    /// For each atom the bytes of variables that stand nowhere else.
    alone: [u64; MEMBER_ATOMS],
}

/// The head atoms that each of the question's atoms can still be sent to: a byte for each
/// atom, the head atoms as its bits. An atom that is decided has none.
#[derive(Clone, Copy, Debug, PartialEq, Eq)]
pub struct Options(pub u64);

/// The variables of an atom that stand in these bytes, as bits.
fn variables_in<const W: usize>(atom: Atom<W>, bytes: u64) -> u64 {
    let mut variables = 0;
    for (place, term) in atom.terms().enumerate() {
        let counts = is_variable(term) && bytes & byte_of(place) != 0;
        variables |= (counts as u64) << (term % 64);
    }
    variables
}

impl<const W: usize> Asked<W> {
    /// A member about to be explored.
    pub fn new(form: Form<W>) -> Asked<W> {
        let mut asked = Asked {
            form,
            relations: form
                .atoms()
                .iter()
                .fold(0, |all, atom| all | atom.relation_bit()),
            has_constants: form.atoms().iter().any(|atom| atom.has_constants()),
            alone: [0; MEMBER_ATOMS],
        };
        let (mut once, mut again) = (0, variables_in(form.answer, u64::MAX));
        for &atom in form.atoms() {
            for place in 0..atom.used() {
                let variable = variables_in(atom, byte_of(place));
                again |= once & variable;
                once |= variable;
            }
        }
        for (at, &atom) in form.atoms().iter().enumerate() {
            let is_alone = |&place: &usize| variables_in(atom, byte_of(place)) & once & !again != 0;
            let places = (0..W).filter(is_alone);
            asked.alone[at] = places.fold(0, |bytes, place| bytes | byte_of(place));
        }
        asked
    }

    /// The atoms.
    pub fn atoms(&self) -> &[Atom<W>] {
        self.form.atoms()
    }

    /// All atoms as bits.
    pub fn all(&self) -> u16 {
        (1 << self.form.count) - 1
    }

    /// The head atoms that an atom can be sent to by itself: of the same relation, with no
    /// two constants and no unknown and constant at one place.
    ///
    /// A head atom is passed over if it differs from an earlier one only where variables that
    /// stand nowhere else meet it. Such a variable joins a class and makes no difference to
    /// anything that is left or in the body or still to be sent. So whatever follows gives the
    /// same rewritings as with the earlier one; these were seen, and a rewriting that was
    /// once dropped or admitted is covered by some member ever after: a member goes only for
    /// one that covers it.
    fn heads(&self, at: usize, rule: &Rule<W>) -> u8 {
        let (atom, alone) = (self.atoms()[at], self.alone[at]);
        let (fixed, head) = (atom.fixed(), rule.head());
        let mut heads = 0;
        for (d, to) in head.iter().enumerate() {
            let clash = (atom.0 ^ to.0) & fixed & rule.fixed[d] | rule.unknown[d] & fixed;
            let alike = |earlier: usize| (head[earlier].0 ^ to.0) & !alone == 0;
            if clash == 0 && !bits(heads as u64).any(alike) {
                heads |= 1 << d;
            }
        }
        heads
    }
}

impl Options {
    /// The head atoms that each atom can be sent to by itself. An atom that no head atom can
    /// meet is left in every choice.
    pub fn of<const W: usize>(asked: &Asked<W>, rule: &Rule<W>) -> Options {
        let mut options = Options(0);
        for at in 0..asked.form.count {
            options.0 |= (asked.heads(at, rule) as u64) << (8 * at);
        }
        options
    }

    /// How many there are.
    #[inline]
    pub fn count(self) -> u32 {
        self.0.count_ones()
    }

    /// The first atom that can be sent, if there is one.
    #[inline]
    pub fn first(self) -> Option<usize> {
        let zeros = self.0.trailing_zeros() as usize;
        (self.0 != 0).then_some(zeros / 8)
    }

    /// The head atoms that an atom can be sent to, as bits.
    #[inline]
    pub fn heads(self, at: usize) -> u8 {
        (self.0 >> (8 * at)) as u8
    }

    /// The options with an atom decided.
    #[inline]
    pub fn without(self, at: usize) -> Options {
        Options(self.0 & !(255 << (8 * at)))
    }

    /// The options without sending an atom to a head atom.
    #[inline]
    pub fn without_head(self, at: usize, head: usize) -> Options {
        Options(self.0 & !(1 << (8 * at + head)))
    }

    /// The atoms that can be sent, as bits. A byte is at most 15, so with 127 more its highest
    /// bit is set exactly if it is not 0; a product brings the eight bits together.
    #[inline]
    pub fn atoms(self) -> u16 {
        let some = ((self.0 + 0x7f7f_7f7f_7f7f_7f7f) >> 7) & 0x0101_0101_0101_0101;
        (some.wrapping_mul(0x0102_0408_1020_4080) >> 56) as u16
    }
}
