//! The refusals, each with a message: what is wrong, where, and what to do.

use std::fmt;

/// One line for each refusal: its number, its name, what is wrong, where (`{}` is the place),
/// and what to do.
macro_rules! refusals {
    ($($number:literal $name:ident: $what:literal, $at:literal, $help:literal;)*) => {
        /// Why there is no union or no copy. A refusal says nothing of the question's truth, and no byte
        /// of any output is written. Each carries its place.
        #[derive(Clone, Copy, Debug, PartialEq, Eq)]
        #[non_exhaustive]
        pub enum Refusal {
            $(
                #[doc = concat!("Number ", $number, ": ", $what, ".")]
                $name(usize),
            )*
        }

        impl Refusal {
            /// The refusal of this number and place; none for 0, which is no refusal, and for
            /// a number that no routine gives.
            pub fn of(number: u8, place: usize) -> Option<Refusal> {
                match number {
                    $($number => Some(Refusal::$name(place)),)*
                    _ => None,
                }
            }

            /// Its number in the build paper.
            pub fn number(&self) -> u8 {
                match self {
                    $(Refusal::$name(_) => $number,)*
                }
            }

            /// Its place: a byte's offset in the book, a count of questions taken up, or 0
            /// where there is nothing to tell.
            pub fn place(&self) -> usize {
                match *self {
                    $(Refusal::$name(place) => place,)*
                }
            }

            /// What is wrong, where, and what to do.
            fn words(&self) -> [&'static str; 3] {
                match self {
                    $(Refusal::$name(_) => [$what, $at, $help],)*
                }
            }
        }
    };
}

refusals! {
    1 OutputTooSmall: "the output has under 4,104 bytes, for a copy under 2,003",
        "nothing was read",
        "lend an output of at least `raw::OUTPUT_ROOM` bytes, for a copy `raw::BOOK_ROOM`";
    2 BookTooShort: "the book has under 18 bytes, in the new form under 20", "in its header",
        "give all of the book";
    3 CountOutOfBounds: "a count in the header is outside its bounds, or a tenth word is not 6",
        "in the header",
        "keep to 1 to 64 relations, up to 127 constants, up to 32 rules, 1 to 8 question atoms, \
         1 to 1,000 explorations, and 6 where relations stand at 20";
    4 PartsDoNotFit: "the offsets, the total and the book's length do not fit", "in bytes 10 to 17",
        "write the offsets as the parts lie end to end, and give neither fewer nor more bytes";
    5 RelationPlaces: "a relation has no places or more than 4, in the new form 6", "at byte {}",
        "give each relation 1 to 4 places, in the new form 1 to 6";
    6 RuleExtent: "a rule's atom counts are not 0 to 4 in the body and 1 to 4 in the head, or the \
         rules do not end where the question begins", "at byte {}",
        "mend the counts there or the question's offset";
    7 AtomByte: "a relation number or a place byte is not allowed", "at byte {}",
        "name relations and constants that the header declares, variables 0 to 31, in the new \
         form 0 to 47, and 255 in unused places alone, which a fifth answer place is";
    8 TooManyAtoms: "a new question has more than 8 atoms", "with {} questions taken up",
        "ask for less at once, or take out the rule that lets questions grow for ever";
    9 TooManyMembers: "the union would have a 65th member", "with {} questions taken up",
        "ask for less at once, or with fewer rules";
    10 AllowanceUsedUp: "questions are left and the allowance is used up", "with {} taken up",
        "allow more explorations, up to 1,000";
    11 UnboundAnswer: "an answer variable stands in no atom of the question", "at byte {}",
        "put it into an atom, or leave that answer place out";
    13 NoOldForm: "a relation has more than 4 places or a variable is above 31", "at byte {}",
        "keep the book in the new form, or narrow the relation and number variables from 0";
}

impl fmt::Display for Refusal {
    fn fmt(&self, f: &mut fmt::Formatter<'_>) -> fmt::Result {
        let [what, at, help] = self.words();
        let at = at.replace("{}", &self.place().to_string());
        write!(f, "refusal {}: {what}, {at}; {help}", self.number())
    }
}

impl std::error::Error for Refusal {}
