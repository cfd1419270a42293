//! How all layers are timed. Contestants take the same lists of calls, of N words each, and write
//! an answer of four words for each. A round times every contestant once, one after the other, and a
//! figure is the median over the rounds.

use proved::replay::{Call, State};
use samples::splitmix64::SplitMix64;
use std::hint::black_box;
use std::time::Instant;

const ROUNDS: usize = 101;
const WARM_UP_ROUNDS: usize = 3;
pub const CALLS_IN_LIST: usize = 4096;
pub const LISTS: usize = 8;

pub const SEED: u64 = 0xea11b66d22;

/// Of a plot: 16 to 4,096.
pub fn sizes() -> impl Iterator<Item = usize> {
    (4..=12).map(|power| 1 << power)
}

pub type Words = [u64; 4];

pub trait Contestant<const N: usize = 4> {
    fn run(&mut self, calls: &[[u64; N]], answers: &mut Vec<Words>);
}

impl<C: Call, const NUMBERS: usize> Contestant for State<C, NUMBERS> {
    fn run(&mut self, calls: &[Words], answers: &mut Vec<Words>) {
        answers.resize(calls.len(), [0; 4]);
        C::replay(
            &mut self.numbers,
            &mut self.words,
            calls.as_flattened(),
            answers.as_flattened_mut(),
        );
    }
}

/// What is timed, and what is run before it in every round and not timed.
pub struct Workload<const N: usize = 4> {
    pub before: Vec<[u64; N]>,
    pub lists: Vec<Vec<[u64; N]>>,
}

impl Workload {
    pub fn new<C: Call>(before: Vec<C>, lists: Vec<Vec<C>>) -> Self {
        let words = |list: Vec<C>| list.into_iter().map(C::words).collect();
        Self {
            before: words(before),
            lists: lists.into_iter().map(words).collect(),
        }
    }
}

impl<const N: usize> Workload<N> {
    /// How many calls are timed.
    pub fn calls(&self) -> usize {
        self.lists.iter().map(Vec::len).sum()
    }
}

/// As many lists of calls as a round has.
pub fn lists_of<C>(mut call: impl FnMut() -> C) -> Vec<Vec<C>> {
    let mut list = || (0..CALLS_IN_LIST).map(|_| call()).collect();
    (0..LISTS).map(|_| list()).collect()
}

pub fn random_keys(random: &mut SplitMix64, count: usize) -> Vec<u64> {
    (0..count).map(|_| random.next()).collect()
}

pub fn pick(random: &mut SplitMix64, keys: &[u64]) -> u64 {
    keys[random.below(keys.len() as u64) as usize]
}

/// What is timed or counted. Callgrind knows it by its name.
#[inline(never)]
pub fn run_lists<const N: usize>(
    contestant: &mut dyn Contestant<N>,
    work: &Workload<N>,
    answers: &mut Vec<Words>,
) {
    for list in &work.lists {
        contestant.run(black_box(list), answers);
        black_box(&answers);
    }
}

/// The nanoseconds of a call.
fn time<const N: usize>(
    contestant: &mut dyn Contestant<N>,
    work: &Workload<N>,
    answers: &mut Vec<Words>,
) -> f64 {
    contestant.run(&work.before, answers);
    let start = Instant::now();
    run_lists(contestant, work, answers);
    start.elapsed().as_nanos() as f64 / work.calls() as f64
}

fn median(mut times: Vec<f64>) -> f64 {
    times.sort_by(f64::total_cmp);
    times[times.len() / 2]
}

/// One median for each contestant, in nanoseconds.
pub fn medians<const N: usize>(
    contestants: &mut [&mut dyn Contestant<N>],
    work: &Workload<N>,
) -> Vec<f64> {
    let mut times = vec![Vec::new(); contestants.len()];
    let mut answers = Vec::with_capacity(CALLS_IN_LIST);
    for round in 0..WARM_UP_ROUNDS + ROUNDS {
        for (contestant, times) in contestants.iter_mut().zip(&mut times) {
            let nanos = time(*contestant, work, &mut answers);
            if WARM_UP_ROUNDS <= round {
                times.push(nanos);
            }
        }
    }
    times.into_iter().map(median).collect()
}
