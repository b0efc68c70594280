//! Both sides timed in turn: proved, plain, proved, plain, ..

use crate::clock;
use crate::figures::{figures, Figures};
use crate::sides::{Side, PLAIN, PROVED, ROOM};
use crate::task::{Task, Work};

/// How much is measured.
#[derive(Clone, Copy)]
pub struct Effort {
    /// A sample takes at least so many nanoseconds, in as many runs as that needs.
    pub sample: f64,
    /// The least and the most samples of each side.
    pub samples: (usize, usize),
    /// About so many nanoseconds go to one task, within those bounds.
    pub limit: f64,
}

impl Effort {
    /// What is long for one run.
    fn long(&self) -> f64 {
        self.limit / 10.0
    }

    /// How many samples, if one of each side takes so many nanoseconds.
    fn how_many(&self, round: f64) -> usize {
        let (least, most) = self.samples;
        match round > ONCE {
            true => 1,
            false => ((self.limit / round) as usize).clamp(least, most),
        }
    }
}

/// Twenty seconds: what takes longer is measured once.
const ONCE: f64 = 2e10;

/// For the table: a sample is a thousand times what reading the clock takes.
pub const FULL: Effort = Effort {
    sample: 5e5,
    samples: (3, 301),
    limit: 1.5e9,
};

/// For the gate.
pub const QUICK: Effort = Effort {
    sample: 1e5,
    samples: (3, 11),
    limit: 4e7,
};

/// What was measured: nanoseconds a run of each side, their ratio, and how many samples of each.
pub struct Measured {
    pub proved: Figures,
    pub plain: Figures,
    pub ratio: Figures,
    pub samples: usize,
}

/// Does the task so many times, the output cleared before each run; nanoseconds a run.
pub fn sample(task: &Task, side: &Side, times: usize) -> f64 {
    let mut out = [0; ROOM];
    let began = clock::used();
    for _ in 0..times {
        once(task, side, &mut out);
    }
    (clock::used() - began) as f64 / times as f64
}

/// Does the task once. What comes out goes to a black box, so that nothing is left out as unused.
fn once(task: &Task, side: &Side, out: &mut [u8; ROOM]) {
    match &task.work {
        Work::Run(book) => {
            std::hint::black_box(&mut *out).fill(0);
            std::hint::black_box((side.run)(std::hint::black_box(book), out));
        }
        Work::Covers(width, pairs) => {
            for (first, second) in pairs {
                let first = std::hint::black_box(first);
                std::hint::black_box((side.covers)(first, second, width.places()));
            }
        }
    }
}

/// Measures a task: the samples of the two sides stand next to each other, so that what slows the
/// machine for a while slows both.
pub fn measure(task: &Task, effort: &Effort) -> Measured {
    let rough = [&PROVED, &PLAIN].map(|side| rough(task, side, effort));
    let times = rough.map(|one| (effort.sample / one).ceil().max(1.0) as usize);
    let samples = effort.how_many(rough[0] * times[0] as f64 + rough[1] * times[1] as f64);
    let mut taken = Vec::new();
    if rough[0] > effort.long() {
        taken.push([rough[0], sample(task, &PLAIN, times[1])]);
    }
    while taken.len() < samples {
        let proved = sample(task, &PROVED, times[0]);
        taken.push([proved, sample(task, &PLAIN, times[1])]);
    }
    let of = |number: fn(&[f64; 2]) -> f64| figures(taken.iter().map(number).collect());
    Measured {
        proved: of(|pair| pair[0]),
        plain: of(|pair| pair[1]),
        ratio: of(|pair| pair[0] / pair[1]),
        samples,
    }
}

/// About how long a run takes. What takes long is not done again only to learn how long it takes.
fn rough(task: &Task, side: &Side, effort: &Effort) -> f64 {
    let first = sample(task, side, 1);
    match first > effort.long() {
        true => first,
        false => sample(task, side, 3),
    }
}
