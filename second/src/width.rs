//! The two forms of a stored book, told apart by how many places an atom has room for.

/// "A new book form has a tenth header word, 6, relations at 20 with one to six places, atoms
/// and answer records of seven bytes". The old one has room for four.
#[derive(Clone, Copy, Debug, PartialEq, Eq, PartialOrd, Ord)]
pub enum Width {
    Four,
    Six,
}

/// Both, the old one first.
pub const WIDTHS: [Width; 2] = [Width::Four, Width::Six];

/// "but still at most four answer places"
pub const ANSWER_PLACES: usize = 4;

impl Width {
    /// The width of so many places, if it is one.
    pub fn of(places: usize) -> Option<Width> {
        WIDTHS.into_iter().find(|width| width.places() == places)
    }

    /// The width whose relations stand at this offset; "anything else is judged as old".
    pub fn told_by(relations_at: usize) -> Width {
        match relations_at {
            20 => Width::Six,
            _ => Width::Four,
        }
    }

    /// The narrowest width with so many places.
    pub fn having(places: usize) -> Width {
        match places {
            0..=4 => Width::Four,
            _ => Width::Six,
        }
    }

    /// The other one.
    pub fn other(self) -> Width {
        match self {
            Width::Four => Width::Six,
            Width::Six => Width::Four,
        }
    }

    /// The most places of a relation.
    pub fn places(self) -> usize {
        match self {
            Width::Four => 4,
            Width::Six => 6,
        }
    }

    /// The bytes of an atom or an answer record: the relation, then the places.
    pub fn atom(self) -> usize {
        1 + self.places()
    }

    /// How many words the header has.
    pub fn words(self) -> usize {
        match self {
            Width::Four => 9,
            Width::Six => 10,
        }
    }

    /// The bytes of the header, where the relations stand.
    pub fn header(self) -> usize {
        2 * self.words()
    }

    /// How many variables a rule or a question may have: "variables run 0 to 47", in the old
    /// form 0 to 31.
    pub fn variables(self) -> usize {
        8 * self.places()
    }

    /// How many a record of the desk may have: "in the desk's records 0 to 65", in the old form
    /// 0 to 63.
    pub fn desk_variables(self) -> usize {
        match self {
            Width::Four => 64,
            Width::Six => 66,
        }
    }
}
