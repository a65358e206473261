//! Medians of repetitions in which all codecs take their turns.

use std::time::Instant;

/// Works through as many words as told, beginning with the one of the given number.
pub type Work<'a> = Box<dyn FnMut(usize, usize) + 'a>;

const REPETITIONS: usize = 401;
/// A repetition lasts about this long for each codec: long beside the clock's own time, and so short that most of them pass
/// without another program on the same core.
const NANOSECONDS: f64 = 100_000.0;

/// The median time of each codec for one word, in nanoseconds.
///
/// Codecs take turns within a repetition, and a different one begins each time: what the machine does meanwhile, and
/// what the codec before has left in its caches, falls on all alike. Each repetition begins with another word.
pub fn medians(work: &mut [Work]) -> Vec<f64> {
    let counts: Vec<usize> = work.iter_mut().map(count).collect();
    let mut times = vec![Vec::new(); work.len()];
    for repetition in 0..REPETITIONS {
        for turn in 0..work.len() {
            let codec = (repetition + turn) % work.len();
            let spent = timed(&mut work[codec], repetition, counts[codec]);
            times[codec].push(spent / counts[codec] as f64);
        }
    }
    times.into_iter().map(median).collect()
}

/// How many words fill a repetition. The first ones, which warm the caches, are not asked.
fn count(work: &mut Work) -> usize {
    timed(work, 0, 50);
    let tries = (0..9).map(|from| timed(work, from, 50) / 50.0).collect();
    (NANOSECONDS / median(tries)) as usize + 1
}

fn timed(work: &mut Work, from: usize, count: usize) -> f64 {
    let start = Instant::now();
    work(from, count);
    start.elapsed().as_nanos() as f64
}

fn median(mut times: Vec<f64>) -> f64 {
    times.sort_by(f64::total_cmp);
    times[times.len() / 2]
}
