//! The least time of a call, of two sides in turn.

use std::time::{Duration, Instant};

/// How often everything is timed.
const ROUNDS: usize = 4;

/// In one round each side is sampled at least this often ...
const SAMPLES: u32 = 100;

/// ... and for at least this long; but where samples are long the caller ends the round.
const TIME: Duration = Duration::from_millis(20);

/// A sample lasts at least this long, so that reading the clock is a small part of it.
const SAMPLE: Duration = Duration::from_micros(10);

/// Seconds of one call on each side.
#[derive(Clone, Copy)]
pub struct Times {
    pub ours: f64,
    /// Plain Rust, or what else ours is timed against.
    pub other: f64,
}

impl Times {
    /// What is known before the first round.
    pub const UNKNOWN: Times = Times {
        ours: f64::INFINITY,
        other: f64::INFINITY,
    };

    /// The time of ours as a part of the time of the other side.
    pub fn ratio(self) -> f64 {
        self.ours / self.other
    }

    /// The microseconds of the other side and of ours for one of so many inputs.
    pub fn microseconds(self, inputs: usize) -> [f64; 2] {
        [self.other, self.ours].map(|seconds| seconds * 1e6 / inputs as f64)
    }

    /// The lesser time of each side.
    pub fn min(self, other: Times) -> Times {
        Times {
            ours: self.ours.min(other.ours),
            other: self.other.min(other.other),
        }
    }
}

/// Times every one once in each round. The rounds lie seconds apart, so that none is measured only
/// while the machine is slow.
pub fn rounds<T>(timed: &mut [T], mut round: impl FnMut(&mut T)) {
    for _ in 0..ROUNDS {
        timed.iter_mut().for_each(&mut round);
    }
}

/// One round: the least time of each side. The samples alternate, so that a slow spell of the
/// machine falls on both; the least one is what the call takes where nothing disturbs it. The
/// round ends at the latest once a side has taken `long`.
pub fn least(long: Duration, ours: impl FnMut(), other: impl FnMut()) -> Times {
    let mut ours = Side::new(ours);
    let mut other = Side::new(other);
    let mut samples = 0;
    while ours.spent.max(other.spent) < long
        && (samples < SAMPLES || ours.spent < TIME || other.spent < TIME)
    {
        ours.sample();
        other.sample();
        samples += 1;
    }
    Times {
        ours: ours.seconds(),
        other: other.seconds(),
    }
}

/// One side: its call, how many calls make a sample, and what was measured.
struct Side<F> {
    call: F,
    batch: u32,
    least: Duration,
    spent: Duration,
}

impl<F: FnMut()> Side<F> {
    /// Doubles the batch until a sample is long enough; this also warms the caches.
    fn new(call: F) -> Side<F> {
        let mut side = Side {
            call,
            batch: 1,
            least: Duration::MAX,
            spent: Duration::ZERO,
        };
        side.run();
        while side.run() < SAMPLE {
            side.batch *= 2;
        }
        side
    }

    /// The time of one batch.
    fn run(&mut self) -> Duration {
        let start = Instant::now();
        for _ in 0..self.batch {
            (self.call)();
        }
        start.elapsed()
    }

    /// Takes one sample into account.
    fn sample(&mut self) {
        let time = self.run();
        self.least = self.least.min(time);
        self.spent += time;
    }

    /// The seconds of one call in the least sample.
    fn seconds(&self) -> f64 {
        self.least.as_secs_f64() / f64::from(self.batch)
    }
}
