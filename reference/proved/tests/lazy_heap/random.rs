//! Random calls on the proved heap and on the Rust's.

use crate::beside::{Beside, Tally};
use proved::lazy_heap::Call;
use samples::splitmix64::SplitMix64;

/// How many of a hundred calls update, remove, pop and peek. The others are rarer ones.
type Mix = [u64; 4];

const MIXES: [Mix; 5] = [
    [90, 2, 2, 2],
    [45, 40, 5, 5],
    [40, 5, 40, 10],
    [25, 25, 25, 20],
    [15, 20, 40, 20],
];

/// Scores that are mostly equal, that meet at times, and that never do.
const SCORE_BOUNDS: [u64; 3] = [3, 1000, u64::MAX];

struct Run {
    random: SplitMix64,
    heap: Beside,
    /// Twice as many as the limit allows.
    keys: Vec<u64>,
    score_bound: u64,
}

impl Run {
    fn new(seed: u64, limit: u64, factor: u64, seq: u64) -> Self {
        let mut random = SplitMix64(seed);
        let mut keys: Vec<u64> = (0..limit + 1).collect();
        keys.extend([1 << 32, u64::MAX]);
        keys.extend((0..limit).map(|_| random.next()));
        let score_bound = SCORE_BOUNDS[random.below(3) as usize];
        Self {
            random,
            heap: Beside::new(limit, factor, seq),
            keys,
            score_bound,
        }
    }

    fn key(&mut self) -> u64 {
        self.keys[self.random.below(self.keys.len() as u64) as usize]
    }

    fn call(&mut self, mix: Mix, is_large: bool) -> Call {
        let [updates, removals, pops, peeks] = mix;
        let key = self.key();
        let score = match self.random.below(50) {
            0 => u64::MAX,
            _ => self.random.below(self.score_bound),
        };
        match self.random.below(100) {
            x if x < updates => Call::Update(key, score),
            x if x < updates + removals => Call::Remove(key),
            x if x < updates + removals + pops => Call::PopBest,
            x if x < updates + removals + pops + peeks => Call::PeekBest,
            _ => self.rare_call(key, score, is_large),
        }
    }

    /// Calls that walk are rarer yet on a large heap.
    fn rare_call(&mut self, key: u64, score: u64, is_large: bool) -> Call {
        let factor = match self.random.below(20) {
            0 => self.random.next(),
            _ => self.random.below(10),
        };
        match self.random.below(if is_large { 2000 } else { 20 }) {
            0 | 1 => Call::Rebuild,
            2 | 3 => Call::RenumberSeqs,
            4..=6 => Call::MaybeRebuild(factor),
            7 | 8 if !is_large => Call::SetAutoRebuild(factor),
            9 if self.random.below(20) == 0 => Call::Clear,
            10 => Call::AutoRebuildFactor,
            11 => Call::IsEmpty,
            12 => Call::Len,
            13 => Call::HeapLen,
            14 => Call::Other(17 + (self.random.next() >> 3)),
            15 => Call::Check,
            16 => Call::CountAtMost(score),
            _ => Call::ScoreOf(key),
        }
    }

    /// Calls in stretches of one mix, and then all keys drained.
    fn run(mut self, stretches: usize, calls_in_stretch: usize, is_large: bool) -> Tally {
        for stretch in 0..stretches {
            for _ in 0..calls_in_stretch {
                let call = self.call(MIXES[stretch % MIXES.len()], is_large);
                self.heap.call(call);
            }
        }
        self.heap.drain();
        self.heap.tally
    }
}

/// First numbers, some of which are soon at the end.
fn starts(random: &mut SplitMix64) -> [u64; 4] {
    [
        0,
        (1 << 32) - random.below(40),
        u64::MAX - random.below(40),
        u64::MAX - random.below(4),
    ]
}

#[test]
fn small_heaps() {
    let mut random = SplitMix64(1);
    let mut tally = Tally::default();
    for limit in [1, 2, 3, 5, 8, 17, 64] {
        for factor in 0..=8 {
            for seq in starts(&mut random) {
                let run = Run::new(random.next(), limit, factor, seq);
                tally += run.run(50, 300, false);
            }
        }
    }
    assert!(3_500_000 < tally.calls, "{tally:?}");
    assert!(100 < tally.renumberings, "{tally:?}");
    assert!(
        50_000 < tally.full.min(tally.discards).min(tally.stale),
        "{tally:?}"
    );
}

#[test]
fn middling_heaps() {
    let mut random = SplitMix64(2);
    let mut tally = Tally::default();
    for (limit, calls) in [(256, 8000), (1000, 12_000)] {
        for factor in [0, 1, 2, 3, 8] {
            for seq in starts(&mut random) {
                let run = Run::new(random.next(), limit, factor, seq);
                tally += run.run(5, calls, false);
            }
        }
    }
    assert!(
        1000 < tally.full.min(tally.discards).min(tally.stale),
        "{tally:?}"
    );
}

#[test]
fn largest_heaps() {
    let mut random = SplitMix64(3);
    let mut tally = Tally::default();
    for factor in [2, 3, 8] {
        for seq in starts(&mut random) {
            let run = Run::new(random.next(), 4096, factor, seq);
            tally += run.run(20, 12_000, true);
        }
    }
    // A rebuild at nearly every update.
    for factor in [0, 1] {
        let run = Run::new(random.next(), 4096, factor, u64::MAX - 9000);
        tally += run.run(2, 7000, true);
    }
    assert!(
        1000 < tally.full.min(tally.discards).min(tally.stale),
        "{tally:?}"
    );
}

/// The next number is raised again and again, so that one heap is renumbered many times.
#[test]
fn renumbered_again_and_again() {
    let mut random = SplitMix64(4);
    let mut tally = Tally::default();
    for limit in [1, 2, 7, 40, 300] {
        for factor in [0, 1, 2, 5, 8] {
            let mut run = Run::new(random.next(), limit, factor, 0);
            for round in 0..300 {
                run.heap.raise_seq(u64::MAX - run.random.below(6));
                for _ in 0..40 {
                    let call = run.call(MIXES[round % MIXES.len()], false);
                    run.heap.call(call);
                }
            }
            run.heap.drain();
            tally += run.heap.tally;
        }
    }
    assert!(5000 < tally.renumberings, "{tally:?}");
}
