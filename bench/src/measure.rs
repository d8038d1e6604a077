//! Times batches of calls, each batch on tables that are restored before the clock starts.

use std::hint::black_box;
use std::time::Instant;

/// Batches of each measurement; the result is the median over them.
const BATCHES: usize = 101;
/// Batches before them that are not counted.
const WARM_UP: usize = 20;

/// The middle of the samples, of which there is at least one.
pub fn median(mut samples: Vec<f64>) -> f64 {
    samples.sort_by(f64::total_cmp);
    samples[samples.len() / 2]
}

/// Nanoseconds of one call: `call` is given the tables and each number below `calls` in turn, and answers whether it
/// is done. Nothing is subtracted, so a batch's share of reading the clock is in it. None where a call is refused.
pub fn time<T: Clone>(
    saved: &T,
    calls: usize,
    mut call: impl FnMut(&mut T, usize) -> bool,
) -> Option<f64> {
    let mut tables = saved.clone();
    let mut samples = Vec::with_capacity(BATCHES);
    for batch in 0..WARM_UP + BATCHES {
        tables.clone_from(saved);
        let mut done = true;
        let start = Instant::now();
        for index in 0..calls {
            done &= call(black_box(&mut tables), black_box(index));
        }
        let elapsed = start.elapsed();
        if !black_box(done) {
            return None;
        }
        if batch >= WARM_UP {
            samples.push(elapsed.as_nanos() as f64 / calls as f64);
        }
    }
    Some(median(samples))
}
