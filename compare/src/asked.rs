//! What a command line asks for.

use crate::against::{Against, PATIENCE};
use crate::blocks::{processors, Until};
use std::path::PathBuf;
use std::time::{Duration, Instant};

/// The words that every comparer knows, each with a number after it.
const NUMBERS: &[&str] = &["--seconds", "--count", "--seed", "--threads", "--limit"];

/// What is asked for; what is not said has its usual value.
pub struct Asked {
    pub against: Option<Against>,
    pub program: Option<Against>,
    /// The programs that copy into the new form and into the old one.
    pub to_new: Option<Against>,
    pub to_old: Option<Against>,
    pub books: PathBuf,
    pub seconds: u64,
    pub count: Option<u64>,
    pub seed: u64,
    pub threads: u64,
    /// How much processor time a call of the proved routines may take.
    pub limit: Option<Duration>,
}

impl Default for Asked {
    /// A minute, on all processors, from seed 1 on.
    fn default() -> Asked {
        Asked {
            against: None,
            program: None,
            to_new: None,
            to_old: None,
            books: PathBuf::from(concat!(env!("CARGO_MANIFEST_DIR"), "/../books")),
            seconds: 60,
            count: None,
            seed: 1,
            threads: processors() as u64,
            limit: None,
        }
    }
}

impl Asked {
    /// Reads a command line that knows, beside the numbers, these words; what follows
    /// `--against` is the other program's.
    pub fn read(words: impl IntoIterator<Item = String>, more: &[&str]) -> Result<Asked, String> {
        let mut asked = Asked::default();
        let mut words = words.into_iter();
        while let Some(word) = words.next() {
            if word == "--against" {
                asked.against = Some(program(words.collect())?);
                break;
            }
            if !NUMBERS.contains(&&word[..]) && !more.contains(&&word[..]) {
                return Err(format!("{word} is not known"));
            }
            let value = words.next().ok_or(format!("{word} wants a value"))?;
            asked.take(&word, value)?;
        }
        Ok(asked)
    }

    /// Takes a known word with its value.
    fn take(&mut self, word: &str, value: String) -> Result<(), String> {
        let number = || value.parse().map_err(|_| format!("{word} wants a number"));
        match word {
            "--books" => self.books = PathBuf::from(value),
            "--program" => self.program = Some(program(vec![value])?),
            "--to-new" => self.to_new = Some(program(vec![value])?),
            "--to-old" => self.to_old = Some(program(vec![value])?),
            "--seconds" => self.seconds = number()?,
            "--count" => self.count = Some(number()?),
            "--seed" => self.seed = number()?,
            "--threads" => self.threads = number()?,
            "--limit" => self.limit = Some(seconds(&value).ok_or("--limit wants seconds")?),
            _ => return Err(format!("{word} is not known")),
        }
        Ok(())
    }

    /// The first seed, how many are generated from now on, and by how many threads.
    pub fn blocks(&self) -> (u64, Until, usize) {
        let until = match self.count {
            Some(count) => Until::Count(count as usize),
            None => Until::Time(Instant::now() + Duration::from_secs(self.seconds)),
        };
        (self.seed, until, self.threads as usize)
    }
}

/// So many seconds, which need not be whole ones.
fn seconds(value: &str) -> Option<Duration> {
    let seconds = value.parse().ok()?;
    Duration::try_from_secs_f64(seconds).ok()
}

/// The program of this command line.
fn program(command: Vec<String>) -> Result<Against, String> {
    match command.is_empty() {
        true => Err("--against wants a command".into()),
        false => Ok(Against::new(command, PATIENCE)),
    }
}
