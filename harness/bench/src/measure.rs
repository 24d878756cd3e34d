//! Times of calls: the median of several samples.

use std::hint::black_box;
use std::time::{Duration, Instant};

const SAMPLES: usize = 15;

/// How long a sample takes at least, unless one call takes longer.
const SAMPLE: Duration = Duration::from_millis(3);

/// The median time of one call of each, in nanoseconds. The samples of all take turns, so that what slows the machine for a
/// while slows them alike.
pub fn medians(calls: &mut [Box<dyn FnMut() -> usize + '_>]) -> Vec<f64> {
    let counts: Vec<u32> = calls.iter_mut().map(calls_in_a_sample).collect();
    let mut samples = vec![Vec::new(); calls.len()];
    for _ in 0..SAMPLES {
        for (which, call) in calls.iter_mut().enumerate() {
            samples[which].push(sample(call, counts[which]));
        }
    }
    samples.into_iter().map(median).collect()
}

fn sample(call: &mut impl FnMut() -> usize, count: u32) -> f64 {
    let start = Instant::now();
    for _ in 0..count {
        black_box(call());
    }
    start.elapsed().as_nanos() as f64 / f64::from(count)
}

fn calls_in_a_sample(call: &mut Box<dyn FnMut() -> usize + '_>) -> u32 {
    sample(call, 1);
    let one = sample(call, 1).max(1.0);
    (SAMPLE.as_nanos() as f64 / one).ceil() as u32
}

fn median(mut samples: Vec<f64>) -> f64 {
    samples.sort_by(f64::total_cmp);
    samples[samples.len() / 2]
}
