//! What was measured on.

use std::fs::read_to_string;
use std::process::Command;

/// More processes than this at once, and the numbers are said to be provisional.
const QUIET: f64 = 1.5;

/// Lines about the processor, the compilers and how busy the machine is.
pub fn lines() -> String {
    let processors = std::thread::available_parallelism().map_or(0, |n| n.get());
    format!(
        "- Processor: {}, {processors} of them. {}\n\
         - Plain Rust: {}, its LLVM {}; level 3, one code unit, for any x86-64.\n\
         - The proved code: {}, whose compiler gets one LLVM module at -O3 for any x86-64.\n",
        processor(),
        busy(),
        said("rustc", &["--version"], ""),
        said("rustc", &["-vV"], "LLVM version: "),
        said("rt", &["version"], ""),
    )
}

/// Whether the machine was quiet when the benchmark began, by the system's mean over a minute.
fn busy() -> String {
    let text = read_to_string("/proc/loadavg").unwrap_or_default();
    let load: Option<f64> = text.split(' ').next().and_then(|word| word.parse().ok());
    match load {
        None => "How busy it was is not known.".into(),
        Some(load) if load <= QUIET => "It was quiet.".into(),
        Some(load) => format!(
            "**Provisional**: it was not quiet;\n  {load:.1} processes ran or waited when this began."
        ),
    }
}

/// The processor's name.
fn processor() -> String {
    let text = read_to_string("/proc/cpuinfo").unwrap_or_default();
    let named = text.lines().find(|line| line.starts_with("model name"));
    let name = named.and_then(|line| line.split_once(':'));
    name.map_or("unknown", |(_, name)| name.trim()).to_string()
}

/// The first line that a command says and that begins so; what follows that beginning.
fn said(command: &str, words: &[&str], beginning: &str) -> String {
    let output = Command::new(command).args(words).output();
    let text = output.map(|output| String::from_utf8_lossy(&output.stdout).into_owned());
    let text = text.unwrap_or_default();
    let line = text.lines().find_map(|line| line.strip_prefix(beginning));
    line.map_or(format!("{command} (not on the path)"), |line| {
        line.trim().into()
    })
}
