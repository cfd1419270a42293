//! Random calls on the proved index and on the Rust's.

use crate::beside::{Beside, Tally};
use proved::expiration_index::Call;
use samples::splitmix64::SplitMix64;

/// How many of a hundred calls set, remove, pop and tell the next deadline. The others are rarer
/// ones.
type Mix = [u64; 4];

const MIXES: [Mix; 5] = [
    [90, 2, 2, 2],
    [45, 40, 5, 5],
    [40, 5, 40, 10],
    [25, 25, 25, 20],
    [15, 20, 40, 20],
];

/// How far deadlines are from the tick: mostly at the same, near, and anywhere.
const SPANS: [u64; 3] = [3, 1000, u64::MAX];

struct Run {
    random: SplitMix64,
    index: Beside,
    /// Twice as many as the limit allows.
    keys: Vec<u64>,
    span: u64,
    /// It goes on with the calls.
    tick: u64,
}

impl Run {
    fn new(seed: u64, limit: u64, seq: u64) -> Self {
        let mut random = SplitMix64(seed);
        let mut keys: Vec<u64> = (0..limit + 1).collect();
        keys.extend([1 << 32, u64::MAX]);
        keys.extend((0..limit).map(|_| random.next()));
        let span = SPANS[random.below(3) as usize];
        let tick = match random.below(4) {
            0 => u64::MAX - random.below(9),
            _ => random.below(9),
        };
        Self {
            random,
            index: Beside::new(limit, seq),
            keys,
            span,
            tick,
        }
    }

    fn key(&mut self) -> u64 {
        self.keys[self.random.below(self.keys.len() as u64) as usize]
    }

    /// A deadline after the tick, or at an end.
    fn deadline(&mut self) -> u64 {
        match self.random.below(60) {
            0 => 0,
            1 => u64::MAX,
            _ => self.tick.saturating_add(self.random.below(self.span)),
        }
    }

    /// The tick, or one at an end.
    fn tick(&mut self) -> u64 {
        match self.random.below(60) {
            0 => 0,
            1 => u64::MAX,
            _ => self.tick,
        }
    }

    fn call(&mut self, mix: Mix, is_large: bool) -> Call {
        let [settings, removals, pops, nexts] = mix;
        let key = self.key();
        // So far that about as many deadlines come as are set.
        self.tick = self.tick.saturating_add(self.random.below(self.span) >> 6);
        match self.random.below(100) {
            x if x < settings => Call::SetDeadline(key, self.deadline()),
            x if x < settings + removals => Call::Remove(key),
            x if x < settings + removals + pops => Call::PopExpired(self.tick()),
            x if x < settings + removals + pops + nexts => Call::NextDeadline,
            _ => self.rare_call(key, is_large),
        }
    }

    /// Calls that walk are rarer yet on a large index.
    fn rare_call(&mut self, key: u64, is_large: bool) -> Call {
        match self.random.below(if is_large { 1000 } else { 20 }) {
            0 | 1 => Call::ExpiredCount(self.tick()),
            2 => Call::Check,
            3 if self.random.below(20) == 0 => Call::Clear,
            4 | 5 => Call::IsEmpty,
            6 => Call::Len,
            7 => Call::HeapLen,
            8 => Call::Other(13 + (self.random.next() >> 3)),
            9..=13 => Call::Contains(key),
            _ => Call::DeadlineOf(key),
        }
    }

    /// Calls in stretches of one mix, and then all keys drained. The tick goes back at times.
    fn run(mut self, stretches: usize, calls_in_stretch: usize, is_large: bool) -> Tally {
        for stretch in 0..stretches {
            for _ in 0..calls_in_stretch {
                let call = self.call(MIXES[stretch % MIXES.len()], is_large);
                self.index.call(call);
            }
            if self.random.below(10) == 0 || self.tick == u64::MAX {
                self.tick = self.random.below(9);
            }
        }
        self.index.drain();
        self.index.tally
    }
}

/// First numbers, some of which are soon at the end.
fn starts(random: &mut SplitMix64) -> [u64; 4] {
    [
        0,
        (1 << 32) - random.below(40),
        u64::MAX - random.below(40),
        u64::MAX - random.below(4),
    ]
}

#[test]
fn small_indexes() {
    let mut random = SplitMix64(1);
    let mut tally = Tally::default();
    for limit in [1, 2, 3, 5, 8, 17, 64] {
        for _ in 0..6 {
            for seq in starts(&mut random) {
                let run = Run::new(random.next(), limit, seq);
                tally += run.run(50, 300, false);
            }
        }
    }
    assert!(2_500_000 < tally.calls, "{tally:?}");
    assert!(50 < tally.renumberings, "{tally:?}");
    let rarest = tally.full.min(tally.discards).min(tally.popped);
    assert!(50_000 < rarest.min(tally.early), "{tally:?}");
}

#[test]
fn middling_indexes() {
    let mut random = SplitMix64(2);
    let mut tally = Tally::default();
    for (limit, calls) in [(256, 8000), (1000, 12_000)] {
        for _ in 0..3 {
            for seq in starts(&mut random) {
                let run = Run::new(random.next(), limit, seq);
                tally += run.run(10, calls, false);
            }
        }
    }
    let rarest = tally.full.min(tally.discards).min(tally.popped);
    assert!(1000 < rarest.min(tally.early), "{tally:?}");
}

#[test]
fn largest_indexes() {
    let mut random = SplitMix64(3);
    let mut tally = Tally::default();
    for _ in 0..2 {
        for seq in starts(&mut random) {
            let run = Run::new(random.next(), 4096, seq);
            tally += run.run(20, 12_000, true);
        }
    }
    let rarest = tally.full.min(tally.discards).min(tally.popped);
    assert!(1000 < rarest.min(tally.early), "{tally:?}");
}
