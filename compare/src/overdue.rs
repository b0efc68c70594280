//! Calls that do not end: a call cannot be stopped, so with a limit a thread of its own looks
//! after the calls that are under way, and ends the comparer where one is long overdue.

use std::sync::{Arc, Mutex};
use std::thread;
use std::time::{Duration, Instant};

/// A call is overdue after so many times the limit by the clock on the wall: a processor may be
/// shared by many, and what takes its time there is not the call's.
const TIMES: u32 = 20;

/// How often is looked.
const EVERY: Duration = Duration::from_millis(200);

/// What tells of a call.
type Tells = Box<dyn Fn() -> String + Send>;

/// One thread's call under way, if there is one: since when, and what tells of it.
type UnderWay = Arc<Mutex<Option<(Instant, Tells)>>>;

/// All threads' calls.
static CALLS: Mutex<Vec<UnderWay>> = Mutex::new(Vec::new());

/// Where one thread notes its calls.
#[derive(Clone)]
pub struct Notes(UnderWay);

impl Default for Notes {
    /// New ones, which are looked at from now on.
    fn default() -> Notes {
        let notes = UnderWay::default();
        CALLS.lock().unwrap().push(notes.clone());
        Notes(notes)
    }
}

impl Notes {
    /// What a call gives, noted while it is under way.
    pub fn during<T>(&self, tells: Tells, call: impl FnOnce() -> T) -> T {
        *self.0.lock().unwrap() = Some((Instant::now(), tells));
        let given = call();
        *self.0.lock().unwrap() = None;
        given
    }
}

/// What is to tell of a call that began more than so long ago, if there is one.
pub fn overdue(long: Duration) -> Option<String> {
    let calls = CALLS.lock().unwrap();
    calls.iter().find_map(|call| {
        let call = call.lock().unwrap();
        let late = call.as_ref().filter(|(began, _)| began.elapsed() > long);
        late.map(|(_, tells)| tells())
    })
}

/// Looks after the calls from now on; with the first that is long over the limit the process ends,
/// and fails.
pub fn look_after(limit: Duration) {
    let long = limit.saturating_mul(TIMES).max(EVERY);
    thread::spawn(move || loop {
        thread::sleep(EVERY);
        if let Some(call) = overdue(long) {
            let seconds = long.as_secs_f64();
            println!("TOO SLOW: it has not ended after {seconds} s by the clock: {call}");
            std::process::exit(1);
        }
    });
}
