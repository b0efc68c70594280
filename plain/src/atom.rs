//! Atoms, each packed into one word, so that two are compared at once. All that has atoms is
//! made for each width W, four places and six, so that the narrower ones wait for no others.

/// The places of an atom in the old form of a book.
pub const FOUR: usize = 4;

/// The same in the new form: the most there are.
pub const SIX: usize = 6;

/// The most answer places.
pub const ANSWER_PLACES: usize = 4;

/// The bytes of an atom or an answer record as stored: the relation, then the places.
pub const fn record_length(places: usize) -> usize {
    1 + places
}

/// How many variables a rule, a book's question and a member may have.
pub const fn variables(places: usize) -> usize {
    8 * places
}

/// The most of them.
pub const VARIABLES: usize = variables(SIX);

/// The most relations.
pub const RELATIONS: usize = 64;

/// The byte in an unused place.
pub const UNUSED: u8 = 255;

/// The relation byte of an answer record.
pub const ANSWER: u8 = 255;

/// The byte of the first constant.
pub const FIRST_CONSTANT: u8 = 128;

/// How many bytes may stand in a place: the length of a table of terms.
pub const TERMS: usize = 256;

/// Where the number of used places stands.
const USED: u32 = 56;

/// An atom or an answer record: in the lowest byte its relation, then its places, in the
/// highest byte how many of them are used.
#[derive(Clone, Copy, Debug, PartialEq, Eq)]
pub struct Atom<const W: usize>(pub u64);

/// How far up the byte of a place stands.
const fn shift(place: usize) -> u32 {
    8 * (place as u32 + 1)
}

/// The whole byte of a place.
pub const fn byte_of(place: usize) -> u64 {
    255 << shift(place)
}

/// Whether the byte in a place is a variable's.
pub fn is_variable(term: u8) -> bool {
    term < FIRST_CONSTANT
}

impl<const W: usize> Atom<W> {
    /// Bit 0 of every byte that holds a place.
    const LOW: u64 = {
        let mut bits = 0;
        let mut place = 0;
        while place < W {
            bits |= 1 << shift(place);
            place += 1;
        }
        bits
    };

    /// The bytes that hold the places.
    pub const ALL_PLACES: u64 = Self::LOW * 255;

    /// The bytes of the atom as stored.
    pub const RECORD: usize = record_length(W);

    /// No record, every place unused: what a Boolean question has for an answer record.
    pub const NONE: Atom<W> = Atom(Self::ALL_PLACES);

    /// The sound atom that the first bytes hold: used places first.
    #[inline]
    pub fn of(bytes: &[u8]) -> Atom<W> {
        let mut word = [0; 8];
        word[..Self::RECORD].copy_from_slice(&bytes[..Self::RECORD]);
        let bits = u64::from_le_bytes(word);
        // A place is unused exactly if its byte has all bits; so the last used one is where
        // the highest bit is that it has not.
        let used = ((!bits & Self::ALL_PLACES) | 1).ilog2() / 8;
        Atom(bits | (used as u64) << USED)
    }

    /// Writes the bytes of the atom at the front of the output.
    pub fn write(self, out: &mut [u8]) {
        out[..Self::RECORD].copy_from_slice(&self.0.to_le_bytes()[..Self::RECORD]);
    }

    /// Its relation, or `ANSWER`.
    pub fn relation(self) -> u8 {
        self.0 as u8
    }

    /// How many places are used.
    pub fn used(self) -> usize {
        (self.0 >> USED) as usize
    }

    /// The term in a place.
    #[inline]
    pub fn place(self, place: usize) -> u8 {
        (self.0 >> shift(place)) as u8
    }

    /// Its terms.
    pub fn terms(self) -> impl Iterator<Item = u8> {
        (0..self.used()).map(move |place| self.place(place))
    }

    /// The atom with this term in a place.
    pub fn with(self, place: usize, term: u8) -> Atom<W> {
        Atom(self.0 & !byte_of(place) | (term as u64) << shift(place))
    }

    /// The atom with each term replaced by what the table has for it. The table keeps
    /// `UNUSED`, so that all places can be looked up alike.
    #[inline]
    pub fn through(self, table: &[u8; TERMS]) -> Atom<W> {
        let mut bits = self.0 & !Self::ALL_PLACES;
        for place in 0..W {
            bits |= (table[self.place(place) as usize] as u64) << shift(place);
        }
        Atom(bits)
    }

    /// The atom with so much added to the number of every variable.
    pub fn moved(self, by: usize) -> Atom<W> {
        let variables = !(self.0 >> 7) & Self::LOW;
        Atom(self.0 + variables * by as u64)
    }

    /// The bytes that no map changes: constants, unused places, and what is no place.
    pub fn fixed(self) -> u64 {
        let high = (self.0 >> 7) & Self::LOW;
        !Self::ALL_PLACES | (high * 255)
    }

    /// Whether one of its terms is a constant.
    pub fn has_constants(self) -> bool {
        self.terms().any(|term| !is_variable(term))
    }

    /// A few bits for the constants that it has, and where. What covers another has no bit
    /// that the other has not, since constants go to themselves.
    pub fn marks(self) -> u64 {
        let mut marks = 0;
        for (place, term) in self.terms().enumerate() {
            let mark = term as usize * 5 + place * 17 + self.relation() as usize * 11;
            marks |= (!is_variable(term) as u64) << (mark % 64);
        }
        marks
    }

    /// Its relation and number of places in one number. An atom goes only to one of its kind.
    #[inline]
    pub fn kind(self) -> usize {
        let used = self.used().wrapping_sub(1) % W;
        self.relation() as usize % RELATIONS + RELATIONS * used
    }

    /// The relation as a bit.
    #[inline]
    pub fn relation_bit(self) -> u64 {
        1 << (self.relation() as usize % RELATIONS)
    }
}
