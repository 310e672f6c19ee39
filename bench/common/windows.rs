//! Times by short windows. Others use the machine, and a short window is often left alone: the best one is what the code
//! takes, the middle one is what it took on that day. A bench need not print both.
#![allow(dead_code)]

use std::time::Instant;

/// Nanoseconds of one call.
pub fn nanoseconds(work: impl FnOnce()) -> f64 {
    let start = Instant::now();
    work();
    start.elapsed().as_nanos() as f64
}

/// The windows of several kinds of work, taken by turns so that all meet the same machine.
pub struct Windows<const N: usize>([Vec<f64>; N]);

#[derive(Clone, Copy)]
pub struct Times {
    pub best: f64,
    pub middle: f64,
}

impl<const N: usize> Windows<N> {
    pub fn new() -> Self {
        Windows([const { Vec::new() }; N])
    }

    /// One window of each.
    pub fn take(&mut self, turn: [f64; N]) {
        for (times, time) in self.0.iter_mut().zip(turn) {
            times.push(time);
        }
    }

    pub fn times(mut self) -> [Times; N] {
        self.0.iter_mut().for_each(|times| times.sort_by(f64::total_cmp));
        self.0.map(|times| Times { best: times[0], middle: times[times.len() / 2] })
    }
}
