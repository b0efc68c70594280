//! The table, in Markdown.

use crate::figures::Figures;
use crate::task::Task;
use crate::timing::Measured;

/// The table's head.
pub const HEAD: &str = "| kind | rules | book | members | explored | proved µs | plain µs | ratio | quartiles | samples |\n\
|---|---:|---|---:|---:|---:|---:|---:|---:|---:|\n";

/// One line: what was measured, with members and explored questions if there is a union.
pub fn line(task: &Task, counts: Option<(usize, usize)>, measured: &Measured) -> String {
    let count = |of: fn((usize, usize)) -> usize| counts.map_or("".into(), |c| of(c).to_string());
    let rules = match task.rules {
        0 => String::new(),
        rules => rules.to_string(),
    };
    format!(
        "| {} | {rules} | {} | {} | {} | {} | {} | {} | {} | {} |\n",
        task.kind,
        task.name,
        count(|c| c.0),
        count(|c| c.1),
        micros(measured.proved.median),
        micros(measured.plain.median),
        digits(measured.ratio.median),
        quartiles(&measured.ratio),
        measured.samples,
    )
}

/// The two quartiles.
fn quartiles(figures: &Figures) -> String {
    format!("{} to {}", digits(figures.lower), digits(figures.upper))
}

/// Nanoseconds as microseconds.
pub fn micros(nanoseconds: f64) -> String {
    digits(nanoseconds / 1000.0)
}

/// A number in three digits, or in as many as stand before the point.
fn digits(number: f64) -> String {
    match number {
        ..10.0 => format!("{number:.2}"),
        ..100.0 => format!("{number:.1}"),
        _ => format!("{number:.0}"),
    }
}

/// The ratios of one class and size.
struct Class {
    kind: &'static str,
    rules: usize,
    ratios: Vec<f64>,
}

/// The classes that were measured, each with its ratios, in the order of the tasks.
#[derive(Default)]
pub struct Classes {
    classes: Vec<Class>,
}

impl Classes {
    /// Counts a task's ratio in its class. What is among the worst has no sizes.
    pub fn count(&mut self, task: &Task, measured: &Measured) {
        let rules = match task.kind {
            "worst known" => 0,
            _ => task.rules,
        };
        let same = |class: &&mut Class| (class.kind, class.rules) == (task.kind, rules);
        let ratio = measured.ratio.median;
        match self.classes.iter_mut().find(same) {
            Some(class) => class.ratios.push(ratio),
            None => self.classes.push(Class {
                kind: task.kind,
                rules,
                ratios: vec![ratio],
            }),
        }
    }

    /// A table of the classes: how many books, the least, the middle and the greatest ratio.
    pub fn table(&self) -> String {
        let mut table = String::from("| kind | rules | books | least | mean | greatest |\n");
        table += "|---|---:|---:|---:|---:|---:|\n";
        table.extend(self.classes.iter().map(Class::line));
        table
    }
}

impl Class {
    /// The class's line; the mean is the geometric one, as ratios multiply.
    fn line(&self) -> String {
        let many = self.ratios.len();
        let mean = (self.ratios.iter().map(|r| r.ln()).sum::<f64>() / many as f64).exp();
        let least = self.ratios.iter().copied().fold(f64::INFINITY, f64::min);
        let greatest = self.ratios.iter().copied().fold(0.0, f64::max);
        let rules = match self.rules {
            0 => String::new(),
            rules => rules.to_string(),
        };
        let kind = self.kind;
        let [least, mean, greatest] = [least, mean, greatest].map(digits);
        format!("| {kind} | {rules} | {many} | {least} | {mean} | {greatest} |\n")
    }
}
