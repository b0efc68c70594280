//! The measured part of docs/SPEED.md.

use std::fs;

/// The line before the part that is written by the benchmark.
pub const BEGIN: &str = "<!-- measured: the benchmark writes from here -->";

/// The line after it.
pub const END: &str = "<!-- measured: to here -->";

/// The page with what stands between the two lines replaced, or what is wrong with it.
pub fn replaced(page: &str, part: &str) -> Result<String, String> {
    let (before, rest) = page.split_once(BEGIN).ok_or("no first marker line")?;
    let (_, after) = rest.split_once(END).ok_or("no second marker line")?;
    Ok(format!("{before}{BEGIN}\n\n{part}\n{END}{after}"))
}

/// Writes the part to the page.
pub fn write(part: &str) -> Result<(), String> {
    let path = concat!(env!("CARGO_MANIFEST_DIR"), "/../docs/SPEED.md");
    let page = fs::read_to_string(path).map_err(|e| format!("{path}: {e}"))?;
    let page = replaced(&page, part).map_err(|what| format!("{path}: {what}"))?;
    fs::write(path, page).map_err(|e| format!("{path}: {e}"))
}
