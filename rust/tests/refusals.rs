//! Each refusal has its number, its place and a message.

use rauntiko::{rewrite, Refusal};
use second::damage::damaged;
use second::generate;
use second::random::Random;
use std::collections::BTreeSet;

#[test]
fn every_number_has_a_refusal_with_its_place() {
    for number in (1..=11).chain([13]) {
        let refusal = Refusal::of(number, 345).unwrap();
        assert_eq!((refusal.number(), refusal.place()), (number, 345));
        let text = refusal.to_string();
        assert!(text.starts_with(&format!("refusal {number}: ")), "{text}");
        assert!(!text.contains("{}") && !text.contains("  "), "{text}");
        assert_eq!(text.matches("; ").count(), 1, "what to do: {text}");
        assert_eq!(text.contains("345"), number > 4, "{text}");
    }
    assert_eq!(Refusal::of(0, 48), None);
    assert_eq!(Refusal::of(12, 0), None);
    assert_eq!(Refusal::of(14, 0), None);
}

#[test]
fn generated_books_meet_every_refusal_but_the_first() {
    let mut random = Random::new(12);
    let mut met = BTreeSet::new();
    for _ in 0..4000 {
        let book = generate::sound(&mut random);
        let whole = second::book::write(&book);
        for bytes in [whole, damaged(&book, &mut random)] {
            met.extend(rewrite(&bytes).err().map(|refusal| refusal.number()));
        }
    }
    assert!(met.into_iter().eq(2..=11));
}

#[test]
fn a_refusal_is_an_error() {
    fn asked(book: &[u8]) -> Result<usize, Box<dyn std::error::Error>> {
        Ok(rewrite(book)?.members().len())
    }
    let told = asked(&[]).unwrap_err().to_string();
    assert_eq!(
        told,
        "refusal 2: the book has under 18 bytes, in the new form under 20, in its header; \
         give all of the book"
    );
}
