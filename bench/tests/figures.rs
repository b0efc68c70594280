//! Medians, quartiles, the page's marked part and the command line.

use bench::figures::figures;
use bench::options::Options;
use bench::page::{replaced, BEGIN, END};
use bench::table::micros;

#[test]
fn quartiles_stand_between_neighbours() {
    let odd = figures(vec![5.0, 1.0, 3.0]);
    assert_eq!((odd.lower, odd.median, odd.upper), (2.0, 3.0, 4.0));
    let even = figures(vec![4.0, 1.0, 2.0, 3.0]);
    assert_eq!((even.lower, even.median, even.upper), (1.75, 2.5, 3.25));
    let one = figures(vec![7.0]);
    assert_eq!((one.lower, one.median, one.upper), (7.0, 7.0, 7.0));
}

#[test]
fn times_keep_three_digits() {
    assert_eq!(micros(1_234.0), "1.23");
    assert_eq!(micros(12_345.0), "12.3");
    assert_eq!(micros(1_234_567.0), "1235");
}

#[test]
fn only_the_marked_part_is_replaced() {
    let page = format!("before\n{BEGIN}\nold\n{END}\nafter\n");
    let wanted = format!("before\n{BEGIN}\n\nnew\n\n{END}\nafter\n");
    assert_eq!(replaced(&page, "new\n"), Ok(wanted.clone()));
    assert_eq!(replaced(&wanted, "new\n"), Ok(wanted));
    assert!(replaced("no marker", "new").is_err());
}

#[test]
fn a_wrong_word_is_refused() {
    let read = |words: &str| Options::read(words.split_whitespace().map(String::from));
    assert!(read("--quick --only words --side plain").is_ok());
    assert!(read("--quick --write").is_err());
    assert!(read("--side other").is_err());
    assert!(read("--faster").is_err());
}
