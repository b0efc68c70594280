//! What was gone through before with this rule on this question, so that it is not gone
//! through again.

use crate::atom::Atom;
use crate::form::MEMBER_ATOMS;
use crate::options::Options;
use crate::rule::RULE_ATOMS;

/// Two words that tell what the atoms are, the answer record, the question's atoms, body and
/// head.
const WORDS: usize = 3 + MEMBER_ATOMS + 2 * RULE_ATOMS;

/// How many states are remembered; a later one takes the place of an earlier one.
const ROOM: usize = 1 << 11;

/// Where a choice stands, with all on which the rewritings that come from here depend.
#[derive(Clone, Copy, PartialEq, Eq)]
pub struct State {
    words: [u64; WORDS],
    count: usize,
}

impl State {
    /// A state of this rule's turn, with this told of what is decided and these options, and
    /// without atoms yet.
    pub fn new(turn: u32, told: u32, options: Options) -> State {
        let mut words = [0; WORDS];
        words[0] = (turn as u64) << 32 | told as u64;
        words[1] = options.0;
        State { words, count: 2 }
    }

    /// Adds an atom.
    #[inline]
    pub fn push<const W: usize>(&mut self, atom: Atom<W>) {
        self.words[self.count] = atom.0;
        self.count += 1;
    }

    /// Where the state is remembered.
    fn at(&self) -> usize {
        let mut hash = 0_u64;
        for word in &self.words[..self.count] {
            hash = (hash.rotate_left(5) ^ word).wrapping_mul(0x9e37_79b9_7f4a_7c15);
        }
        (hash >> 32) as usize % ROOM
    }
}

/// The states gone through. The room is made when it is first wanted: short runs do without.
#[derive(Default)]
pub struct Seen {
    states: Vec<State>,
}

impl Seen {
    /// Whether this state was gone through.
    pub fn has(&self, state: &State) -> bool {
        self.states.get(state.at()) == Some(state)
    }

    /// Remembers a state.
    pub fn remember(&mut self, state: &State) {
        if self.states.is_empty() {
            self.states = vec![State::new(0, 0, Options(0)); ROOM];
        }
        self.states[state.at()] = *state;
    }
}
