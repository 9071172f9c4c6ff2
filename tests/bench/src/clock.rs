//! Times of calls that are set beside each other.

use std::time::Instant;

/// The seconds of one call of each, the best of twenty measurements, taken in turn, or of those begun within three seconds. Short calls
/// are measured many at a time.
pub fn best<const N: usize>(calls: [&mut dyn FnMut(); N]) -> [f64; N] {
    let mut timed = calls.map(Timed::warm);
    let started = Instant::now();
    for _ in 1..20 {
        if started.elapsed().as_secs_f64() > 3.0 {
            break;
        }
        timed.iter_mut().for_each(Timed::again);
    }
    timed.map(|t| t.least / f64::from(t.calls))
}

/// A call, how many of it are measured at a time, and the least seconds that they took.
struct Timed<'a> {
    call: &'a mut dyn FnMut(),
    calls: u32,
    least: f64,
}

impl<'a> Timed<'a> {
    /// Doubles the number of calls until they last five milliseconds.
    fn warm(call: &'a mut dyn FnMut()) -> Self {
        let mut calls = 1;
        let mut least = lasts(call, calls);
        while least < 0.005 {
            calls *= 2;
            least = lasts(call, calls);
        }
        Timed { call, calls, least }
    }

    fn again(&mut self) {
        self.least = self.least.min(lasts(self.call, self.calls));
    }
}

fn lasts(call: &mut dyn FnMut(), calls: u32) -> f64 {
    let started = Instant::now();
    for _ in 0..calls {
        call();
    }
    started.elapsed().as_secs_f64()
}
