//! How a call is timed, and what is said of its samples.

use std::hint::black_box;
use std::time::Instant;

pub const ROUNDS: usize = 15;
/// A sample repeats its call until it takes about this long.
pub const SAMPLE_NANOS: f64 = 500_000.0;

/// Nanoseconds for one call, over so many in a row. A call before them isn't counted: it finds the
/// caches full of the other side.
pub fn timed<T>(repeats: usize, mut call: impl FnMut() -> T) -> f64 {
    black_box(call());
    let start = Instant::now();
    for _ in 0..repeats {
        black_box(call());
    }
    start.elapsed().as_nanos() as f64 / repeats as f64
}

pub fn median(of: &[f64]) -> f64 {
    quantile(of, 0.5)
}

/// The number that stands at this part of the sorted list.
pub fn quantile(of: &[f64], part: f64) -> f64 {
    let mut sorted = of.to_vec();
    sorted.sort_by(f64::total_cmp);
    sorted[((sorted.len() - 1) as f64 * part).round() as usize]
}
