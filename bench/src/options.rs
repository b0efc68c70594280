//! The command line.

use crate::sides::{Side, SIDES};
use crate::task::Pace;
use crate::timing::{Effort, FULL, QUICK};

/// How the command is used.
pub const USAGE: &str = "bench [--quick | --slow] [--write] [--only NAME] [--side proved|plain]
  --quick       a few seconds: each book a few times, both answers compared
  --slow        also what takes many seconds to minutes
  --write       put the tables into docs/SPEED.md
  --only NAME   only what begins with NAME, whatever its pace
  --side SIDE   time this side alone, for some seconds a book: to be profiled";

/// What is asked for.
#[derive(Default)]
pub struct Options {
    pub quick: bool,
    pub slow: bool,
    pub write: bool,
    pub only: Option<String>,
    pub side: Option<Side>,
}

impl Options {
    /// Reads the words after the command's name.
    pub fn read(words: impl Iterator<Item = String>) -> Result<Options, String> {
        let mut words = words;
        let mut options = Options::default();
        while let Some(word) = words.next() {
            match word.as_str() {
                "--quick" => options.quick = true,
                "--slow" => options.slow = true,
                "--write" => options.write = true,
                "--only" => options.only = Some(words.next().ok_or(USAGE)?),
                "--side" => options.side = Some(side(&words.next().ok_or(USAGE)?)?),
                _ => return Err(USAGE.into()),
            }
        }
        match options.quick && options.write {
            true => Err("a quick run is not for the page".into()),
            false => Ok(options),
        }
    }

    /// Whether a task of this name and pace is asked for.
    pub fn wants(&self, name: &str, pace: Pace) -> bool {
        match (&self.only, pace) {
            (Some(only), _) => name.starts_with(only.as_str()),
            (None, Pace::Ordinary) => true,
            (None, Pace::Heavy) => !self.quick,
            (None, Pace::Slow) => self.slow,
        }
    }

    /// How much is measured.
    pub fn effort(&self) -> &'static Effort {
        match self.quick {
            true => &QUICK,
            false => &FULL,
        }
    }
}

/// The side of this name.
fn side(name: &str) -> Result<Side, String> {
    let found = SIDES.into_iter().find(|side| side.name == name);
    found.ok_or(USAGE.into())
}
