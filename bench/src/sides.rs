//! The two programs that are measured.

/// The output's room: as much as any form of book may ask for.
pub const ROOM: usize = 4104;

/// One of the two programs.
pub struct Side {
    pub name: &'static str,
    /// One book: the answer's number and place.
    pub run: fn(&[u8], &mut [u8]) -> (u8, usize),
    /// Covering at the search desk, of records of so many places.
    pub covers: fn(&[u8], &[u8], usize) -> u8,
}

/// The proved program, called as a library.
pub const PROVED: Side = Side {
    name: "proved",
    run: |book, out| {
        let answer = rauntiko::raw::run(book, out);
        (answer.number, answer.place)
    },
    covers: |first, second, width| rauntiko::raw::covers(first, second, width).number,
};

/// The same exploration in plain Rust.
pub const PLAIN: Side = Side {
    name: "plain",
    run: |book, out| {
        let answer = plain::run(book, out);
        (answer.number, answer.place)
    },
    covers: plain::covers,
};

/// Both, the proved one first.
pub const SIDES: [Side; 2] = [PROVED, PLAIN];
