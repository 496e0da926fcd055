//! Medians of warm runs.

use std::time::Instant;

const ROUNDS: usize = 301;
/// Each time that an action's turn comes it is run so often; the last runs are timed.
const WARMING: usize = 2;
const TIMED: usize = 3;

/// The median time of each of `N` actions, in microseconds. A round takes all of them in turn, so that a machine that is slow for a
/// while is slow for all.
pub fn medians<const N: usize>(mut act: impl FnMut(usize)) -> [f64; N] {
    let mut times = [(); N].map(|_| Vec::with_capacity(ROUNDS));
    for _ in 0..ROUNDS {
        for (action, of_action) in times.iter_mut().enumerate() {
            of_action.push(warm(|| act(action)));
        }
    }
    times.map(|of_action| median(of_action) as f64 / 1000.0)
}

fn warm(mut run: impl FnMut()) -> u64 {
    for _ in 0..WARMING {
        run();
    }
    median((0..TIMED).map(|_| timed(&mut run)).collect())
}

fn timed(run: &mut impl FnMut()) -> u64 {
    let start = Instant::now();
    run();
    start.elapsed().as_nanos() as u64
}

fn median(mut times: Vec<u64>) -> u64 {
    times.sort_unstable();
    times[times.len() / 2]
}
