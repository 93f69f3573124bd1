//! Times contestants in turns, so that whatever slows the machine for a while slows all of them.

use std::time::Instant;

/// How often each contestant is timed.
const TURNS: usize = 11;
/// How long one timing lasts at least, in seconds: short calls are repeated until they fill it.
const SLICE: f64 = 0.002;

fn seconds(contestant: &mut dyn FnMut(), times: usize) -> f64 {
    let start = Instant::now();
    for _ in 0..times {
        contestant();
    }
    start.elapsed().as_secs_f64() / times as f64
}

/// The median time of one call of each, in seconds.
pub fn race(contestants: &mut [Box<dyn FnMut() + '_>]) -> Vec<f64> {
    let times: Vec<usize> = contestants.iter_mut().map(|c| fill(c)).collect();
    let mut all = vec![Vec::new(); contestants.len()];
    for _ in 0..TURNS {
        for (k, contestant) in contestants.iter_mut().enumerate() {
            all[k].push(seconds(contestant, times[k]));
        }
    }
    all.into_iter().map(median).collect()
}

/// How many calls fill a slice.
fn fill(contestant: &mut dyn FnMut()) -> usize {
    let mut times = 1;
    loop {
        let taken = seconds(contestant, times) * times as f64;
        if taken >= SLICE {
            return times;
        }
        times = (times * 2).max((times as f64 * SLICE / taken.max(1e-9)) as usize).min(times * 100);
    }
}

fn median(mut times: Vec<f64>) -> f64 {
    times.sort_by(f64::total_cmp);
    times[times.len() / 2]
}
