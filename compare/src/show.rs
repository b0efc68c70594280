//! Showing a book and what is said about it.

use second::print::print;
use second::seen::Seen;
use second::{book, refuse, source};

/// What the second program prints for a book.
pub fn printed(book: &[u8]) -> Vec<u8> {
    print(book).into_bytes()
}

/// A book as a source if it is sound, else its faults; and its bytes.
pub fn shown(bytes: &[u8]) -> String {
    let told = match book::read(bytes, &mut Seen::default()) {
        Ok(book) => source::show(&book),
        Err(_) => {
            let faults = refuse::faults(bytes);
            let lines = faults.iter().take(10).map(|f| format!("{f:?}\n"));
            lines.collect()
        }
    };
    let numbers: Vec<String> = bytes.iter().take(200).map(|b| b.to_string()).collect();
    let many = bytes.len();
    format!("{told}{many} bytes: {}\n", numbers.join(" "))
}

/// The first lines of what a program printed.
pub fn first_lines(output: &[u8]) -> String {
    let text = String::from_utf8_lossy(output);
    let lines = text.split_inclusive('\n').take(24);
    lines.collect()
}
