//! Records of the search desk, made by hand.

/// An unused place.
pub const U: u8 = 255;

/// A record of these atoms.
pub fn record(atoms: &[[u8; 5]]) -> Vec<u8> {
    let mut bytes = vec![atoms.len() as u8];
    atoms.iter().for_each(|atom| bytes.extend(atom));
    bytes
}

/// A record of these atoms with an answer record before them.
pub fn answered(answer: [u8; 4], atoms: &[[u8; 5]]) -> Vec<u8> {
    let mut bytes = record(atoms);
    let [a, b, c, d] = answer;
    bytes.splice(1..1, [255, a, b, c, d]);
    bytes
}
