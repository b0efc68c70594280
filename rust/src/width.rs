//! How many places an atom has room for.

/// The places that an atom or an answer record has room for: four in the old form of a book, six
/// in the new one. A union is as wide as its book; its bytes do not say it.
#[derive(Clone, Copy, Debug, PartialEq, Eq, Hash)]
pub enum Width {
    /// Atoms of five bytes.
    Four,
    /// Atoms of seven bytes.
    Six,
}

impl Width {
    /// The width of a book: the relations' offset tells it, and whatever is not new is old.
    ///
    /// ```
    /// use rauntiko::Width;
    ///
    /// assert_eq!(Width::of_book(&[0; 40]), Width::Four);
    /// let mut book = [0; 40];
    /// book[10] = 20;
    /// assert_eq!(Width::of_book(&book), Width::Six);
    /// ```
    pub fn of_book(book: &[u8]) -> Width {
        match book.get(10..12) {
            Some(&[20, 0]) => Width::Six,
            _ => Width::Four,
        }
    }

    /// How many places these are.
    pub fn places(self) -> usize {
        match self {
            Width::Four => 4,
            Width::Six => 6,
        }
    }

    /// The bytes of an atom or an answer record: the relation, then the places.
    pub(crate) fn atom(self) -> usize {
        1 + self.places()
    }
}
