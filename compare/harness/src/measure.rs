//! Times of two ways to do the same thing, taken in turns.

use std::time::Instant;

/// Nanoseconds for one item, the median.
pub struct Pair {
    pub product: f64,
    pub baseline: f64,
}

impl Pair {
    pub fn ratio(&self) -> f64 {
        self.product / self.baseline
    }
}

/// Medians over so many repetitions of each, interleaved, so that what disturbs one disturbs the other.
pub fn both(mut product: impl FnMut(), mut baseline: impl FnMut(), items: usize, repetitions: usize) -> Pair {
    let mut times = (Vec::new(), Vec::new());
    for _ in 0..repetitions {
        times.0.push(once(&mut product));
        times.1.push(once(&mut baseline));
    }
    let per_item = |times: Vec<f64>| median(times) / items as f64;
    Pair { product: per_item(times.0), baseline: per_item(times.1) }
}

fn once(batch: &mut impl FnMut()) -> f64 {
    let start = Instant::now();
    batch();
    start.elapsed().as_nanos() as f64
}

fn median(mut times: Vec<f64>) -> f64 {
    times.sort_by(f64::total_cmp);
    times[times.len() / 2]
}
