//! Two ways to do the same work, timed by turns on the same inputs.

use skriemelt_bench::plain::{MAX_RECORD_BYTES, MAX_TRIM_BYTES};
use std::hint::black_box;
use std::time::Instant;

/// Payloads in one part of the file: a part takes less time than a slice of the scheduler, so that a part's best time was not interrupted.
pub const PART: usize = 50;

/// What is lent to a call: the records or the payload, and the trim table. Buffers are not cleared.
pub struct Buffers {
    pub bytes: Vec<u8>,
    pub trim: Vec<u8>,
}

impl Buffers {
    pub fn new() -> Self {
        Self {
            bytes: vec![0; MAX_RECORD_BYTES],
            trim: vec![0; MAX_TRIM_BYTES],
        }
    }
}

/// The same work done in two ways, on an input and lent buffers.
pub struct Work<P, Q> {
    /// What the two are called.
    pub names: (&'static str, &'static str),
    /// Inputs in one part.
    pub part: usize,
    pub first: P,
    pub second: Q,
}

/// Best and median nanoseconds of both, each the sum over the parts of the file.
pub struct Times {
    names: (&'static str, &'static str),
    pub best: (f64, f64),
    pub median: (f64, f64),
}

/// Nanoseconds of one pass over a part.
fn pass<T, B>(part: &[T], lent: &mut B, work: &impl Fn(&T, &mut B)) -> f64 {
    let start = Instant::now();
    for input in part {
        work(black_box(input), lent);
    }
    start.elapsed().as_nanos() as f64
}

impl Times {
    /// Each part is worked on by turns, one pass each; every second round begins with the second way.
    pub fn new<T, B, P, Q>(inputs: &[T], rounds: usize, lent: &mut B, work: &Work<P, Q>) -> Self
    where
        P: Fn(&T, &mut B),
        Q: Fn(&T, &mut B),
    {
        let parts: Vec<_> = inputs.chunks(work.part).collect();
        let mut times = vec![(vec![], vec![]); parts.len()];
        for round in 0..rounds {
            for (part, (first, second)) in parts.iter().zip(&mut times) {
                if round % 2 == 0 {
                    first.push(pass(part, lent, &work.first));
                }
                second.push(pass(part, lent, &work.second));
                if round % 2 != 0 {
                    first.push(pass(part, lent, &work.first));
                }
            }
        }
        let mut sum = Self {
            names: work.names,
            best: (0.0, 0.0),
            median: (0.0, 0.0),
        };
        for (first, second) in &mut times {
            first.sort_by(f64::total_cmp);
            second.sort_by(f64::total_cmp);
            sum.best.0 += first[0];
            sum.best.1 += second[0];
            sum.median.0 += first[rounds / 2];
            sum.median.1 += second[rounds / 2];
        }
        sum
    }

    /// Best time of the first way over best time of the second.
    pub fn ratio(&self) -> f64 {
        self.best.0 / self.best.1
    }

    /// Best and median of both, for a number of payloads that have so many bytes.
    pub fn print(&self, what: &str, payloads: usize, bytes: usize) {
        for (name, (first, second)) in [("best", self.best), ("median", self.median)] {
            for (who, ns) in [(self.names.0, first), (self.names.1, second)] {
                println!(
                    "{what:>5} {name:>6} {who:>6}: {:8.1} ns a payload, {:10.0} payloads/s, {:7.1} MB/s",
                    ns / payloads as f64,
                    payloads as f64 / ns * 1e9,
                    bytes as f64 / ns * 1e3
                );
            }
            println!("{what:>5} {name:>6}  ratio: {:.3}", first / second);
        }
    }
}
