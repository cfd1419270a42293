//! Random calls on the proved book and on the Rust's.

use crate::beside::{Beside, Tally};
use proved::expiring::{Call, Opening, Ttl};
use samples::splitmix64::SplitMix64;

/// How many of a hundred calls insert with a lifetime, insert, get, set a lifetime and remove. The
/// others are rarer ones.
type Mix = [u64; 5];

const MIXES: [Mix; 5] = [
    [60, 10, 5, 10, 5],
    [20, 20, 20, 15, 10],
    [10, 5, 30, 5, 30],
    [30, 30, 10, 20, 2],
    [10, 10, 10, 10, 10],
];

/// Lifetimes at every edge: none at all, below a tick, of one, around the largest, and no durations.
const EDGES: [(u64, u64); 16] = [
    (0, 0),
    (0, 1),
    (0, 999_999),
    (0, 1_000_000),
    (0, 1_999_999),
    (0, 999_999_999),
    (1, 0),
    (18_446_744_073_709_551, 614_000_000),
    (18_446_744_073_709_551, 615_000_000),
    (18_446_744_073_709_551, 616_000_000),
    (18_446_744_073_709_552, 0),
    (u64::MAX, 999_999_999),
    (5, 1_000_000_000),
    (0, (1 << 32) - 1),
    (u64::MAX, 1 << 32),
    (3, u64::MAX),
];

struct Run {
    random: SplitMix64,
    book: Beside,
    keys: Vec<u64>,
    tick: u64,
    /// Lifetimes and steps of the clock are mostly below it.
    span: u64,
}

impl Run {
    fn new(seed: u64, opening: Opening) -> Self {
        let mut random = SplitMix64(seed);
        let most = opening.capacity.max(opening.limit);
        let mut keys: Vec<u64> = (0..most + 1).collect();
        keys.extend([1 << 32, u64::MAX]);
        keys.extend((0..most / 2).map(|_| random.next()));
        let span = [4, 100, 4 * most + 4][random.below(3) as usize];
        Self {
            random,
            book: Beside::new(opening),
            keys,
            tick: 0,
            span,
        }
    }

    fn key(&mut self) -> u64 {
        self.keys[self.random.below(self.keys.len() as u64) as usize]
    }

    fn ttl(&mut self) -> Ttl {
        match self.random.below(20) {
            0 => {
                let (secs, nanos) = EDGES[self.random.below(EDGES.len() as u64) as usize];
                Ttl { secs, nanos }
            }
            _ => Ttl::from_millis(self.random.below(self.span)),
        }
    }

    /// Mostly on; at times back, and to both ends.
    fn turn_clock(&mut self) {
        let span = self.span;
        let at_end = u64::MAX - 2 * span <= self.tick;
        self.tick = match self.random.below(200) {
            0 => 0,
            1 => u64::MAX,
            2 => u64::MAX - self.random.below(span),
            3..=9 => self.tick - self.random.below(span).min(self.tick),
            10..=19 if at_end => self.random.below(span),
            20..=120 => self.tick.saturating_add(self.random.below(2)),
            121..=130 => self.tick.saturating_add(self.random.below(span)),
            _ => self.tick,
        };
    }

    fn call(&mut self, mix: Mix, is_large: bool) -> Call {
        let [timed, inserts, gets, sets, removals] = mix;
        let key = self.key();
        let value = self.random.next();
        match self.random.below(100) {
            x if x < timed => Call::InsertWithTtl(key, value, self.ttl()),
            x if x < timed + inserts => Call::Insert(key, value),
            x if x < timed + inserts + gets => Call::Get(key),
            x if x < timed + inserts + gets + sets => Call::SetTtl(key, self.ttl()),
            x if x < timed + inserts + gets + sets + removals => Call::Remove(key),
            _ => self.rare_call(key, is_large),
        }
    }

    /// Calls that walk are rarer yet on a large book.
    fn rare_call(&mut self, key: u64, is_large: bool) -> Call {
        match self.random.below(if is_large { 2000 } else { 60 }) {
            0 | 1 => Call::LiveLen,
            2 | 3 => Call::RecencyRank(key),
            4 if self.random.below(10) == 0 => Call::Clear,
            5..=9 => Call::PurgeExpired,
            10 | 11 => Call::NextDeadline,
            12..=15 => Call::PopLru,
            16 => Call::Expirations,
            17..=19 => Call::PeekLru,
            x => match x % 4 {
                0 => Call::Contains(key),
                1 => Call::Peek(key),
                2 => Call::Touch(key),
                _ => Call::TtlStatus(key),
            },
        }
    }

    /// Calls in stretches of one mix, each followed by a look at the whole book, and then all drained.
    fn run(mut self, stretches: usize, calls_in_stretch: usize, is_large: bool) -> Tally {
        for stretch in 0..stretches {
            for _ in 0..calls_in_stretch {
                self.turn_clock();
                let call = self.call(MIXES[stretch % MIXES.len()], is_large);
                self.book.call(self.tick, call);
            }
            let looked_at = if is_large { 50 } else { self.keys.len() };
            self.book.compare(self.tick, &self.keys[..looked_at]);
        }
        self.book.drain(self.tick);
        self.book.tally
    }
}

/// First sequence numbers, some of which are soon at the end.
fn starts(random: &mut SplitMix64) -> [u64; 4] {
    [
        0,
        (1 << 32) - random.below(40),
        u64::MAX - random.below(400),
        u64::MAX - random.below(4),
    ]
}

fn default_ttls(random: &mut SplitMix64) -> [Option<Ttl>; 4] {
    let edges: Vec<Ttl> = EDGES
        .iter()
        .map(|&(secs, nanos)| Ttl { secs, nanos })
        .filter(|ttl| ttl.duration().is_some())
        .collect();
    [
        None,
        None,
        Some(Ttl::from_millis(random.below(20))),
        Some(edges[random.below(edges.len() as u64) as usize]),
    ]
}

fn runs(
    random: &mut SplitMix64,
    sizes: &[(u64, u64)],
    stretches: usize,
    calls_in_stretch: usize,
    is_large: bool,
) -> Tally {
    let mut tally = Tally::default();
    for &(capacity, limit) in sizes {
        for seq in starts(random) {
            for default_ttl in default_ttls(random) {
                let opening = Opening {
                    capacity,
                    limit,
                    seq,
                    default_ttl,
                };
                let run = Run::new(random.next(), opening);
                tally += run.run(stretches, calls_in_stretch, is_large);
            }
        }
    }
    tally
}

#[test]
fn small_books() {
    let mut random = SplitMix64(1);
    let sizes = [
        (0, 1),
        (0, 4),
        (1, 1),
        (1, 4),
        (4, 1),
        (2, 2),
        (2, 4),
        (3, 7),
        (7, 3),
        (17, 17),
        (17, 64),
        (64, 20),
        (64, 128),
    ];
    let tally = runs(&mut random, &sizes, 50, 400, false);
    assert!(4_000_000 < tally.calls, "{tally:?}");
    assert!(90 < tally.renumberings, "{tally:?}");
    assert!(
        10_000 < tally.bad_nanos.min(tally.live).min(tally.orphans),
        "{tally:?}"
    );
    assert!(
        100_000 < tally.full.min(tally.discards).min(tally.expirations),
        "{tally:?}"
    );
}

#[test]
fn middling_books() {
    let mut random = SplitMix64(2);
    let sizes = [(256, 256), (256, 600), (1000, 300)];
    let tally = runs(&mut random, &sizes, 5, 6000, false);
    assert!(
        5000 < tally.full.min(tally.discards).min(tally.expirations),
        "{tally:?}"
    );
}

#[test]
fn largest_books() {
    let mut random = SplitMix64(3);
    let sizes = [(4096, 4096), (4096, 1000), (1000, 4096), (0, 4096)];
    let tally = runs(&mut random, &sizes, 5, 12_000, true);
    assert!(
        1000 < tally.full.min(tally.discards).min(tally.expirations),
        "{tally:?}"
    );
}
