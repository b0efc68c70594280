//! Timing books in a process of its own, which can be ended when it takes too long.

use crate::clock;
use crate::sides::{Side, ROOM};
use std::io::{BufRead, BufReader, Read, Write};
use std::process::{Child, Command, Stdio};
use std::sync::mpsc::{channel, Receiver, RecvTimeoutError};
use std::thread;
use std::time::Duration;

/// The word by which the command is started as such a process.
pub const CHILD: &str = "--child";

/// A process that times books for one side.
pub struct Timer {
    side: &'static str,
    limit: Duration,
    child: Child,
    times: Receiver<u64>,
}

impl Timer {
    /// Starts the process; a book that takes it longer than the limit is given up.
    pub fn start(side: &'static str, limit: Duration) -> Result<Timer, String> {
        let (child, times) = started(side)?;
        Ok(Timer {
            side,
            limit,
            child,
            times,
        })
    }

    /// Nanoseconds of processor time for a book, or none if it met the limit.
    pub fn time(&mut self, book: &[u8]) -> Result<Option<u64>, String> {
        let input = self.child.stdin.as_mut().ok_or("no way to the child")?;
        let length = (book.len() as u32).to_le_bytes();
        let sent = input
            .write_all(&length)
            .and_then(|()| input.write_all(book));
        sent.and_then(|()| input.flush())
            .map_err(|e| e.to_string())?;
        match self.times.recv_timeout(self.limit) {
            Ok(time) => Ok(Some(time)),
            Err(RecvTimeoutError::Disconnected) => Err("the child ended".into()),
            Err(RecvTimeoutError::Timeout) => {
                self.end();
                (self.child, self.times) = started(self.side)?;
                Ok(None)
            }
        }
    }

    /// Ends the process. It may have ended already.
    fn end(&mut self) {
        let _ = self.child.kill();
        let _ = self.child.wait();
    }
}

impl Drop for Timer {
    fn drop(&mut self) {
        self.end();
    }
}

/// A new process, and the times that it says, line by line.
fn started(side: &str) -> Result<(Child, Receiver<u64>), String> {
    let command = std::env::current_exe().map_err(|e| e.to_string())?;
    let mut child = Command::new(command)
        .args([CHILD, side])
        .stdin(Stdio::piped())
        .stdout(Stdio::piped())
        .spawn()
        .map_err(|e| e.to_string())?;
    let output = child.stdout.take().ok_or("no way from the child")?;
    let (send, times) = channel();
    thread::spawn(move || {
        let lines = BufReader::new(output).lines().map_while(Result::ok);
        let mut numbers = lines.map_while(|line| line.parse().ok());
        // Ends with the process, or when nobody waits for its times any more.
        numbers.all(|time| send.send(time).is_ok());
    });
    Ok((child, times))
}

/// What that process does: for each book a line with its nanoseconds, until the input ends.
pub fn serve(side: &Side) {
    let mut input = std::io::stdin().lock();
    let mut length = [0; 4];
    while input.read_exact(&mut length).is_ok() {
        let mut book = vec![0; u32::from_le_bytes(length) as usize];
        if input.read_exact(&mut book).is_err() {
            return;
        }
        let mut out = [0; ROOM];
        let began = clock::used();
        std::hint::black_box((side.run)(&book, &mut out));
        println!("{}", clock::used() - began);
    }
}
