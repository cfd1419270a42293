//! Random calls on the proved list and on the Rust's.

use crate::beside::{Beside, Tally};
use proved::fast_lru::Call;
use samples::splitmix64::SplitMix64;

/// How many of a hundred calls insert, get, touch and remove. The others are rarer ones.
type Mix = [u64; 4];

const MIXES: [Mix; 4] = [
    [80, 8, 4, 2],
    [40, 20, 10, 25],
    [20, 40, 20, 5],
    [20, 15, 15, 40],
];

struct Run {
    random: SplitMix64,
    list: Beside,
    keys: Vec<u64>,
    /// Of how many calls one asks for a rank, which walks.
    calls_to_rank: u64,
}

impl Run {
    /// With about twice as many keys as there is room for.
    fn new(seed: u64, capacity: u64, calls_to_rank: u64) -> Self {
        let mut random = SplitMix64(seed);
        let mut keys: Vec<u64> = (0..capacity + 2).collect();
        keys.extend([1 << 32, u64::MAX]);
        keys.extend((0..capacity).map(|_| random.next()));
        Self {
            random,
            list: Beside::new(capacity),
            keys,
            calls_to_rank,
        }
    }

    fn call(&mut self, mix: Mix) -> Call {
        let [inserts, gets, touches, removals] = mix;
        let key = self.keys[self.random.below(self.keys.len() as u64) as usize];
        match self.random.below(100) {
            x if x < inserts => Call::Insert(key, self.random.next()),
            x if x < inserts + gets => Call::Get(key),
            x if x < inserts + gets + touches => Call::Touch(key),
            x if x < inserts + gets + touches + removals => Call::Remove(key),
            _ if self.random.below(self.calls_to_rank) == 0 => Call::RecencyRank(key),
            _ => match self.random.below(10) {
                0 if self.random.below(100) == 0 => Call::Clear,
                0 | 1 => Call::PopLru,
                2 | 3 => Call::PeekLru,
                4 | 5 => Call::Peek(key),
                6 => Call::Contains(key),
                7 => Call::IsEmpty,
                8 => Call::Capacity,
                _ => Call::Other(15 + (self.random.next() >> 3)),
            },
        }
    }

    /// Calls in stretches of one mix, with a look at the whole list after each, and then all items
    /// drained.
    fn run(mut self, stretches: usize, calls_in_stretch: usize) -> Tally {
        for stretch in 0..stretches {
            for _ in 0..calls_in_stretch {
                let call = self.call(MIXES[stretch % MIXES.len()]);
                self.list.call(call);
            }
            self.list.expect_whole(&self.keys);
        }
        self.list.drain();
        self.list.tally
    }
}

#[test]
fn small_lists() {
    let mut tally = Tally::default();
    for capacity in [0, 1, 2, 3, 4, 7, 16, 64] {
        tally += Run::new(capacity, capacity, 2).run(400, 600);
    }
    assert!(2_000_000 < tally.calls, "{tally:?}");
    assert!(
        200_000 < tally.evictions.min(tally.hits).min(tally.misses),
        "{tally:?}"
    );
}

#[test]
fn middling_lists() {
    let mut tally = Tally::default();
    for capacity in [256, 1000] {
        tally += Run::new(capacity, capacity, 10).run(12, 40_000);
    }
    assert!(
        100_000 < tally.evictions.min(tally.hits).min(tally.misses),
        "{tally:?}"
    );
}

#[test]
fn largest_list() {
    let tally = Run::new(4096, 4096, 100).run(4, 250_000);
    assert!(
        50_000 < tally.evictions.min(tally.hits).min(tally.misses),
        "{tally:?}"
    );
}
