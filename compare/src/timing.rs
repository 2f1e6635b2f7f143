//! Times several ways of doing the same work, in turn, so that what slows the machine slows all of them.

use std::hint::black_box;
use std::time::Instant;

/// Rounds, and how often the work is done in one of them, so that reading the clock does not count.
const ROUNDS: usize = 501;
const REPEATS: usize = 64;
/// Slow work is done less often: in nanoseconds, about what one way takes in a round, and what all rounds take.
const LONG_ROUND: f64 = 1e6;
const LONG_RUN: f64 = 2e9;
const LEAST_ROUNDS: usize = 15;
/// Of so many rounds one more is run before, which does not count.
const WARM_UP: usize = 10;

/// Says once, before the times, how they were taken.
pub(crate) fn print_how() {
    println!("times: medians of {ROUNDS} rounds in one process, fewer for slow inputs, the sides in turn;");
    println!("one call of ours is a call into the archive, one of the Rust's may be inlined");
}

/// Times `ours` and `rust`, each of which does `pieces` pieces of work and gives a number that depends on them.
pub(crate) fn in_turn(
    pieces: usize,
    mut ours: impl FnMut() -> u64,
    mut rust: impl FnMut() -> u64,
) -> Timed {
    Rounds::run(pieces, [&mut ours, &mut rust]).timed(0, 1)
}

/// Nanoseconds for one piece of work, and the median of the rounds' own ratios, ours to Rust.
#[derive(Clone, Copy)]
pub(crate) struct Timed {
    pub(crate) ours: f64,
    pub(crate) rust: f64,
    pub(crate) ratio: f64,
}

/// The nanoseconds that each of the ways took for one piece of work, round by round.
pub(crate) struct Rounds<const N: usize>(Vec<[f64; N]>);

impl<const N: usize> Rounds<N> {
    pub(crate) fn run(pieces: usize, mut ways: [&mut dyn FnMut() -> u64; N]) -> Self {
        let (rounds, repeats) = effort(&mut ways);
        let warm_up = rounds / WARM_UP;
        let each = (repeats * pieces) as f64;
        let mut times = Vec::with_capacity(rounds);
        for round in 0..warm_up + rounds {
            let mut taken = [0.0; N];
            // Who goes first changes, since a later one may find the caches warmer.
            for turn in 0..N {
                let way = (round + turn) % N;
                taken[way] = nanoseconds(repeats, &mut ways[way]) / each;
            }
            if warm_up <= round {
                times.push(taken);
            }
        }
        Rounds(times)
    }

    /// The median time of a way.
    pub(crate) fn time(&self, way: usize) -> f64 {
        median(self.0.iter().map(|taken| taken[way]))
    }

    /// The median of the rounds' own ratios of two ways.
    pub(crate) fn ratio(&self, way: usize, to: usize) -> f64 {
        median(self.0.iter().map(|taken| taken[way] / taken[to]))
    }

    pub(crate) fn timed(&self, ours: usize, rust: usize) -> Timed {
        Timed {
            ours: self.time(ours),
            rust: self.time(rust),
            ratio: self.ratio(ours, rust),
        }
    }
}

/// How many rounds, and how often the work is done in each, by what it takes once.
fn effort(ways: &mut [&mut dyn FnMut() -> u64]) -> (usize, usize) {
    let once: Vec<f64> = ways.iter_mut().map(|way| nanoseconds(1, way)).collect();
    let slowest = once.iter().copied().fold(1.0, f64::max);
    let repeats = ((LONG_ROUND / slowest) as usize).clamp(1, REPEATS);
    let round = once.iter().sum::<f64>() * repeats as f64;
    let rounds = ((LONG_RUN / round) as usize).clamp(LEAST_ROUNDS, ROUNDS);
    (rounds, repeats)
}

fn nanoseconds(repeats: usize, work: &mut impl FnMut() -> u64) -> f64 {
    let start = Instant::now();
    for _ in 0..repeats {
        black_box(work());
    }
    start.elapsed().as_nanos() as f64
}

fn median(numbers: impl Iterator<Item = f64>) -> f64 {
    let mut numbers: Vec<f64> = numbers.collect();
    numbers.sort_by(f64::total_cmp);
    numbers[numbers.len() / 2]
}
