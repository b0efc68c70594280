//! The other side of the comparison: a batch program that answers many books in one start,
//! or the printing program itself. For each book a batch program reads a little-endian
//! length of four bytes and then the book's bytes; for each it writes what the printing
//! program prints, then a line with a single full stop.

use std::io::{Read, Write};
use std::process::{Child, Command, Stdio};
use std::sync::mpsc;
use std::thread;
use std::time::Duration;

/// How long one start of another program may take, where a command line names it.
pub const PATIENCE: Duration = Duration::from_secs(300);

/// A program to compare with.
pub struct Against {
    command: Vec<String>,
    patience: Duration,
}

/// What a program said about each book, as far as it got, and why it got no further.
pub struct Said {
    pub answers: Vec<Vec<u8>>,
    pub trouble: Option<String>,
}

impl Against {
    /// The program of this command line, which may take so long for one start.
    pub fn new(command: Vec<String>, patience: Duration) -> Against {
        Against { command, patience }
    }

    /// What the program says about the books, all in one start.
    pub fn say(&self, books: &[Vec<u8>]) -> Said {
        self.say_of(frames(books))
    }

    /// What the program says about this input, in one start.
    pub fn say_of(&self, input: Vec<u8>) -> Said {
        match self.output(input) {
            Err(what) => Said {
                answers: Vec::new(),
                trouble: Some(what),
            },
            Ok((output, trouble)) => {
                let (answers, rest) = answers(&output);
                let more = (!rest.is_empty()).then(|| "it wrote more than answers".into());
                Said {
                    answers,
                    trouble: trouble.or(more),
                }
            }
        }
    }

    /// What the program says about the books, a start for each, up to the first trouble.
    /// After trouble in one start this tells which book was the cause.
    pub fn say_one_by_one(&self, books: &[Vec<u8>]) -> Said {
        let mut answers = Vec::new();
        for book in books {
            let mut said = self.say(std::slice::from_ref(book));
            match said.trouble {
                None => answers.append(&mut said.answers),
                trouble => return Said { answers, trouble },
            }
        }
        Said {
            answers,
            trouble: Some("it has trouble with many books in one start".into()),
        }
    }

    /// What the printing program itself prints for one book, with whatever status it ends.
    pub fn print(&self, book: &[u8]) -> Result<Vec<u8>, String> {
        let (output, _) = self.output(book.to_vec())?;
        Ok(output)
    }

    /// Starts the program, feeds it, and takes what it writes.
    fn output(&self, input: Vec<u8>) -> Result<(Vec<u8>, Option<String>), String> {
        let started = Command::new(&self.command[0])
            .args(&self.command[1..])
            .stdin(Stdio::piped())
            .stdout(Stdio::piped())
            .spawn();
        let mut child = started.map_err(|e| format!("{}: {e}", self.command[0]))?;
        let mut stdin = child.stdin.take().unwrap();
        let mut stdout = child.stdout.take().unwrap();
        let writer = thread::spawn(move || stdin.write_all(&input));
        let (sender, receiver) = mpsc::channel();
        thread::spawn(move || {
            let mut output = Vec::new();
            let _ = stdout.read_to_end(&mut output);
            let _ = sender.send(output);
        });
        match receiver.recv_timeout(self.patience) {
            Ok(output) => {
                let _ = writer.join();
                Ok((output, ended(&mut child)))
            }
            Err(_) => {
                let _ = child.kill();
                let _ = child.wait();
                let output = receiver.recv().unwrap_or_default();
                Ok((output, Some("it took too long".into())))
            }
        }
    }
}

/// Why the program's end is no good one, if it is not.
fn ended(child: &mut Child) -> Option<String> {
    match child.wait() {
        Ok(status) if status.success() => None,
        Ok(status) => Some(format!("it ended with {status}")),
        Err(e) => Some(e.to_string()),
    }
}

/// The books as the batch program reads them.
pub fn frames(books: &[Vec<u8>]) -> Vec<u8> {
    let mut input = Vec::new();
    for book in books {
        input.extend((book.len() as u32).to_le_bytes());
        input.extend(book);
    }
    input
}

/// The answers in what a batch program wrote, the lines before each full stop; and what
/// follows the last one.
fn answers(output: &[u8]) -> (Vec<Vec<u8>>, Vec<u8>) {
    let mut answers = Vec::new();
    let mut answer = Vec::new();
    for line in output.split_inclusive(|&byte| byte == b'\n') {
        match line == b".\n" {
            true => answers.push(std::mem::take(&mut answer)),
            false => answer.extend(line),
        }
    }
    (answers, answer)
}
