//! The functions of the archive as C sees them, and the only unsafe code of this crate.
//!
//! A lent slice goes as a pointer and a length, a lent word as a pointer. Nothing checks
//! these declarations against Rattle's: the tests compare what both sides give.

extern "C" {
    fn rauntiko_run(
        book: *const u8,
        book_len: usize,
        out: *mut u8,
        out_len: usize,
        place: *mut usize,
    ) -> u8;

    fn rauntiko_covers(
        first: *const u8,
        first_len: usize,
        second: *const u8,
        second_len: usize,
        width: usize,
        map: *mut u8,
        map_len: usize,
    ) -> u8;

    fn rauntiko_kept(
        first: *const u8,
        first_len: usize,
        second: *const u8,
        second_len: usize,
        width: usize,
        map: *mut u8,
        map_len: usize,
    ) -> u8;

    fn rauntiko_to_new(
        book: *const u8,
        book_len: usize,
        out: *mut u8,
        out_len: usize,
        place: *mut usize,
    ) -> u8;

    fn rauntiko_to_old(
        book: *const u8,
        book_len: usize,
        out: *mut u8,
        out_len: usize,
        place: *mut usize,
    ) -> u8;
}

// Why the calls are sound: each pointer comes from a slice that is borrowed during the call,
// with that slice's length, and the borrows keep what is written apart from all else. The
// functions require nothing of the bytes; they are proved to stay inside the slices.

/// A function of a book that writes bytes and gives a number and a place.
type OfBook = unsafe extern "C" fn(*const u8, usize, *mut u8, usize, *mut usize) -> u8;

/// Its number, and the place.
fn call(function: OfBook, book: &[u8], out: &mut [u8]) -> (u8, usize) {
    let mut place = 0;
    let (bytes, room) = (out.as_mut_ptr(), out.len());
    // SAFETY: as said above; `place` is a word of this function.
    let number = unsafe { function(book.as_ptr(), book.len(), bytes, room, &mut place) };
    (number, place)
}

/// Runs a book.
pub fn run(book: &[u8], out: &mut [u8]) -> (u8, usize) {
    call(rauntiko_run, book, out)
}

/// Copies a book into the new form.
pub fn to_new(book: &[u8], out: &mut [u8]) -> (u8, usize) {
    call(rauntiko_to_new, book, out)
}

/// Copies a book into the old form.
pub fn to_old(book: &[u8], out: &mut [u8]) -> (u8, usize) {
    call(rauntiko_to_old, book, out)
}

/// A function of two records and their width that gives a number and a map.
type OfTwo = unsafe extern "C" fn(*const u8, usize, *const u8, usize, usize, *mut u8, usize) -> u8;

/// Its number, and as much of the map as there is room for.
fn ask(function: OfTwo, first: &[u8], second: &[u8], width: usize, map: &mut [u8]) -> u8 {
    let (one, two) = (
        (first.as_ptr(), first.len()),
        (second.as_ptr(), second.len()),
    );
    let (bytes, room) = (map.as_mut_ptr(), map.len());
    // SAFETY: as said above.
    unsafe { function(one.0, one.1, two.0, two.1, width, bytes, room) }
}

/// What covering gives, and the map.
pub fn covers(first: &[u8], second: &[u8], width: usize, map: &mut [u8]) -> u8 {
    ask(rauntiko_covers, first, second, width, map)
}

/// Which of the two is kept, and the map.
pub fn kept(first: &[u8], second: &[u8], width: usize, map: &mut [u8]) -> u8 {
    ask(rauntiko_kept, first, second, width, map)
}

#[cfg(test)]
mod tests {
    use super::{covers, kept};

    /// q(v0) p(v0,v63) and q(c0) p(c0,v5): the first covers the second alone.
    const GENERAL: &[u8] = &[2, 1, 0, 255, 255, 255, 0, 0, 63, 255, 255];
    const SPECIAL: &[u8] = &[2, 1, 128, 255, 255, 255, 0, 128, 5, 255, 255];

    /// p(v0,v1,v2,v3,v4,v65) and p(c0,..,c0): the same, with six places.
    const WIDE: &[u8] = &[1, 0, 0, 1, 2, 3, 4, 65];
    const POINT: &[u8] = &[1, 0, 128, 128, 128, 128, 128, 128];

    /// What stands in a buffer before.
    const BEFORE: u8 = 77;

    /// The map of the first to the second.
    fn map() -> [u8; 66] {
        let mut map = [255; 66];
        (map[0], map[63]) = (128, 5);
        map
    }

    /// The map of the first to the second of those with six places.
    fn wide_map() -> [u8; 66] {
        let mut map = [255; 66];
        map[..5].fill(128);
        map[65] = 128;
        map
    }

    /// That a buffer of each room gets this number, as many of the 66 bytes as it has room for,
    /// and nothing else.
    fn lent(ask: impl Fn(&mut [u8]) -> u8, number: u8, map: [u8; 66]) {
        for room in [0, 1, 2, 63, 64, 65, 66, 67, 100] {
            let mut bytes = vec![BEFORE; room];
            assert_eq!(ask(&mut bytes), number, "room {room}");
            let written = room.min(66);
            assert_eq!(bytes[..written], map[..written], "room {room}");
            assert!(bytes[written..].iter().all(|&byte| byte == BEFORE));
        }
    }

    #[test]
    fn as_much_of_the_map_is_written_as_there_is_room_for() {
        lent(|bytes| covers(GENERAL, SPECIAL, 4, bytes), 1, map());
        lent(|bytes| kept(GENERAL, SPECIAL, 4, bytes), 1, map());
        lent(|bytes| kept(SPECIAL, GENERAL, 4, bytes), 2, map());
        lent(|bytes| covers(WIDE, POINT, 6, bytes), 1, wide_map());
        lent(|bytes| kept(POINT, WIDE, 6, bytes), 2, wide_map());
    }

    #[test]
    fn without_a_covering_all_of_the_map_is_255() {
        let none = [255; 66];
        lent(|bytes| covers(SPECIAL, GENERAL, 4, bytes), 0, none);
        lent(|bytes| covers(&[], GENERAL, 4, bytes), 2, none);
        lent(|bytes| covers(GENERAL, &[12], 4, bytes), 3, none);
        lent(|bytes| kept(GENERAL, &[12], 4, bytes), 0, none);
        lent(|bytes| kept(GENERAL, &GENERAL[..6], 4, bytes), 0, none);
        lent(|bytes| covers(POINT, WIDE, 6, bytes), 0, none);
        for width in [0, 5, 6, 7, 255, 256 + 4, usize::MAX] {
            lent(|bytes| covers(GENERAL, SPECIAL, width, bytes), 2, none);
            lent(|bytes| kept(GENERAL, SPECIAL, width, bytes), 0, none);
        }
    }
}
