//! Small sets kept as the bits of a word.

/// The numbers of the bits that are set, smallest first.
#[inline]
pub fn bits(mut set: u64) -> impl Iterator<Item = usize> {
    std::iter::from_fn(move || {
        if set == 0 {
            return None;
        }
        let least = set.trailing_zeros() as usize;
        set &= set - 1;
        Some(least)
    })
}
