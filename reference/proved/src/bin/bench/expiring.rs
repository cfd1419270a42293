//! The book beside cachekit's `Expiring<FastLru>`: handed lists of calls, and called once for each
//! call of them, through the library for other programs. It has room for as many deadlines as
//! values, and every key that it is filled with has one.

use crate::table::{Panel, Point};
use crate::timing::{CALLS_IN_LIST, Contestant, LISTS, SEED, Words, Workload, pick, random_keys};
use cachekit::policy::expiring as rust;
use cachekit::policy::fast_lru::FastLru;
use cachekit::time::MockClock;
use cachekit::traits::{Cache, ExpiringCache, TtlStatus};
use hailtansy::Book;
use proved::expiring::{Call, Expiring, Opening, Ttl};
use samples::splitmix64::SplitMix64;
use std::time::Duration;

type RustBook = rust::Expiring<FastLru<u64, u64>, u64, u64, MockClock>;

type CallWords = [u64; 6];

/// In the order of the costs.
pub const NAMES: [&str; 3] = ["proved, by lists", "Expiring", "proved, single calls"];

impl Contestant<6> for Expiring {
    fn run(&mut self, calls: &[CallWords], answers: &mut Vec<Words>) {
        answers.resize(calls.len(), [0; 4]);
        self.replay(calls, answers);
    }
}

fn found(value: Option<u64>) -> Words {
    match value {
        Some(value) => [3, value, 0, 0],
        None => [2, 0, 0, 0],
    }
}

fn pair(pair: Option<(u64, u64)>) -> Words {
    match pair {
        Some((first, second)) => [4, first, second, 0],
        None => [2, 0, 0, 0],
    }
}

/// Call by call, and like the Rust without the counts of discarded entries.
impl Contestant<6> for Book {
    fn run(&mut self, calls: &[CallWords], answers: &mut Vec<Words>) {
        const ROOM: &str = "there is room for a deadline of each key";
        answers.clear();
        for &[operation, now, key, value, secs, nanos] in calls {
            let ttl = Duration::new(secs, nanos as u32);
            answers.push(match operation {
                0 => found(self.insert(now, key, value).expect(ROOM)),
                1 => found(self.insert_with_ttl(now, key, value, ttl).expect(ROOM)),
                2 => found(self.get(now, key)),
                3 => found(self.remove(now, key)),
                4 => {
                    self.clear(now);
                    [9, 0, 0, 0]
                }
                5 => [u64::from(self.set_ttl(now, key, ttl).expect(ROOM)), 0, 0, 0],
                6 => [3, self.purge_expired(now), 0, 0],
                7 => pair(self.next_deadline(now)),
                8 => [u64::from(self.touch(now, key)), 0, 0, 0],
                9 => pair(self.pop_lru(now)),
                10 => [u64::from(self.contains(now, key)), 0, 0, 0],
                11 => found(self.peek(now, key)),
                12 => match self.ttl_status(now, key) {
                    hailtansy::TtlStatus::Missing => [12, 0, 0, 0],
                    hailtansy::TtlStatus::Immortal => [13, 0, 0, 0],
                    hailtansy::TtlStatus::Expired => [14, 0, 0, 0],
                    hailtansy::TtlStatus::Live {
                        remaining,
                        deadline,
                    } => [15, remaining.as_millis() as u64, deadline, 0],
                },
                13 => found(self.recency_rank(now, key)),
                14 => [3, self.live_len(now), 0, 0],
                15 => [3, self.expirations(now), 0, 0],
                16 => pair(self.peek_lru(now)),
                _ => panic!("there is no operation {operation}"),
            });
        }
    }
}

/// It counts no discarded entries.
impl Contestant<6> for RustBook {
    fn run(&mut self, calls: &[CallWords], answers: &mut Vec<Words>) {
        answers.clear();
        for &[operation, tick, key, value, secs, nanos] in calls {
            self.clock().set(tick);
            let ttl = Duration::new(secs, nanos as u32);
            answers.push(match operation {
                0 => found(self.insert(key, value)),
                1 => found(self.insert_with_ttl(key, value, ttl)),
                2 => found(self.get(&key).copied()),
                3 => found(self.remove(&key)),
                4 => {
                    self.clear();
                    [9, 0, 0, 0]
                }
                5 => [u64::from(self.set_ttl(&key, ttl)), 0, 0, 0],
                6 => [3, self.purge_expired() as u64, 0, 0],
                7 => pair(self.index_mut().next_deadline().map(|(&k, d)| (k, d))),
                8 => [u64::from(self.inner_mut().touch(&key)), 0, 0, 0],
                9 => pair(self.inner_mut().pop_lru()),
                10 => [u64::from(self.contains(&key)), 0, 0, 0],
                11 => found(self.peek(&key).copied()),
                12 => match self.ttl_status(&key) {
                    TtlStatus::Missing => [12, 0, 0, 0],
                    TtlStatus::Immortal => [13, 0, 0, 0],
                    TtlStatus::Expired => [14, 0, 0, 0],
                    TtlStatus::Live {
                        remaining,
                        deadline,
                    } => [15, remaining.as_millis() as u64, deadline.as_u64(), 0],
                },
                13 => found(self.inner().recency_rank(&key).map(|rank| rank as u64)),
                14 => [3, self.live_len() as u64, 0, 0],
                15 => [3, self.expirations(), 0, 0],
                16 => pair(self.inner().peek_lru().map(|(&k, &v)| (k, v))),
                _ => panic!("there is no operation {operation}"),
            });
        }
    }
}

/// The deadlines of a full book: so many ticks from the first on.
const FIRST_DEADLINE: u64 = 10_000_000;
const DEADLINES: u64 = 1_000_000;

/// Lists of calls on a full book of these keys, which is filled anew before each round.
struct Row {
    name: &'static str,
    call: fn(&mut SplitMix64, &[u64], turn: u64) -> (u64, Call),
}

fn ttl(random: &mut SplitMix64) -> Ttl {
    Ttl::from_millis(1 + random.below(1_000_000))
}

const ROWS: [Row; 18] = [
    Row {
        name: "insert over",
        call: |random, keys, _| (0, Call::Insert(pick(random, keys), 1)),
    },
    Row {
        name: "insert that evicts",
        call: |random, _, _| (0, Call::Insert(random.next(), 1)),
    },
    Row {
        name: "insert with a lifetime",
        call: |random, keys, _| (0, Call::InsertWithTtl(pick(random, keys), 1, ttl(random))),
    },
    Row {
        name: "get, live",
        call: |random, keys, _| (0, Call::Get(pick(random, keys))),
    },
    Row {
        name: "get, missing",
        call: |random, _, _| (0, Call::Get(random.next())),
    },
    Row {
        name: "remove and insert with a lifetime",
        call: |random, keys, turn| {
            let key = keys[(turn / 2) as usize % keys.len()];
            match turn % 2 {
                0 => (0, Call::Remove(key)),
                _ => (0, Call::InsertWithTtl(key, 1, ttl(random))),
            }
        },
    },
    Row {
        name: "set_ttl",
        call: |random, keys, _| (0, Call::SetTtl(pick(random, keys), ttl(random))),
    },
    Row {
        name: "insert and purge",
        call: |random, keys, turn| match turn % 2 {
            0 => (
                turn,
                Call::InsertWithTtl(pick(random, keys), 1, Ttl::from_millis(1)),
            ),
            _ => (turn, Call::PurgeExpired),
        },
    },
    Row {
        name: "set_ttl and next_deadline",
        call: |random, keys, turn| match turn % 2 {
            0 => (0, Call::SetTtl(pick(random, keys), ttl(random))),
            _ => (0, Call::NextDeadline),
        },
    },
    Row {
        name: "touch",
        call: |random, keys, _| (0, Call::Touch(pick(random, keys))),
    },
    Row {
        name: "pop_lru and insert",
        call: |random, keys, turn| match turn % 2 {
            0 => (0, Call::PopLru),
            _ => (0, Call::Insert(pick(random, keys), 1)),
        },
    },
    Row {
        name: "contains",
        call: |random, keys, _| (0, Call::Contains(pick(random, keys))),
    },
    Row {
        name: "peek",
        call: |random, keys, _| (0, Call::Peek(pick(random, keys))),
    },
    Row {
        name: "ttl_status",
        call: |random, keys, _| (0, Call::TtlStatus(pick(random, keys))),
    },
    Row {
        name: "peek_lru",
        call: |_, _, _| (0, Call::PeekLru),
    },
    Row {
        name: "expirations",
        call: |_, _, _| (0, Call::Expirations),
    },
    Row {
        name: "clear and insert with a lifetime",
        call: |random, keys, turn| match turn % 16 {
            0 => (0, Call::Clear),
            _ => (0, Call::InsertWithTtl(pick(random, keys), 1, ttl(random))),
        },
    },
    // Half status and get of a random key, a quarter timed inserts, and a purge every twenty calls; the
    // clock goes on by one millisecond a call.
    Row {
        name: "robot",
        call: |random, keys, turn| {
            let key = pick(random, keys);
            let lifetime = Ttl::from_millis(1 + random.below(2 * keys.len() as u64));
            let call = match turn % 20 {
                0 => Call::PurgeExpired,
                x if x % 4 == 1 => Call::TtlStatus(key),
                x if x % 4 == 2 => Call::Get(key),
                x if x % 4 == 3 => Call::InsertWithTtl(key, turn, lifetime),
                x if x % 8 == 4 => Call::SetTtl(key, lifetime),
                _ => Call::Remove(key),
            };
            (turn, call)
        },
    },
];

/// Calls that walk the whole book, of which a list has [`WALKS_IN_LIST`].
const WALKS: [Row; 3] = [
    Row {
        name: "live_len, none expired",
        call: |_, _, turn| (turn, Call::LiveLen),
    },
    Row {
        name: "live_len, half expired",
        call: |_, _, _| (FIRST_DEADLINE + DEADLINES / 2, Call::LiveLen),
    },
    Row {
        name: "recency_rank",
        call: |random, keys, _| (0, Call::RecencyRank(pick(random, keys))),
    },
];

const WALKS_IN_LIST: usize = 32;

/// The same for a row and a size in every run of this program, so that what is timed is counted.
fn workload(row: &Row, size: usize, calls: usize) -> Workload<6> {
    let mut random = SplitMix64(SEED);
    let keys = random_keys(&mut random, size);
    let mut before = vec![Call::Clear.words(0)];
    before.extend(keys.iter().map(|&key| {
        let lifetime = Ttl::from_millis(FIRST_DEADLINE + random.below(DEADLINES));
        Call::InsertWithTtl(key, !key, lifetime).words(0)
    }));
    let mut turns = 0..;
    let mut list = || {
        (0..calls)
            .map(|_| {
                let turn = turns.next().expect("turns do not end");
                let (tick, call) = (row.call)(&mut random, &keys, turn);
                call.words(tick)
            })
            .collect()
    };
    Workload {
        before,
        lists: (0..LISTS).map(|_| list()).collect(),
    }
}

/// What a call costs each contestant.
pub type Meter<'a> = &'a mut dyn FnMut(&mut [&mut dyn Contestant<6>], &Workload<6>) -> Vec<f64>;

fn point(row: &Row, size: usize, calls: usize, meter: Meter) -> Point {
    let (capacity, limit) = (size as u64, size as u64);
    let mut proved = Expiring::new(Opening {
        capacity,
        limit,
        ..Opening::default()
    });
    let mut rust = RustBook::with_default_ttl(FastLru::new(size), MockClock::new(), None);
    let mut single = Book::open(hailtansy::Opening::new(capacity, limit)).expect("limits in range");

    let work = workload(row, size, calls);
    let costs = meter(&mut [&mut proved, &mut rust, &mut single], &work);
    assert!(proved.check() && single.check());
    assert_eq!([proved.len(), single.len()], [rust.len() as u64; 2]);
    let expirations = [proved.expirations(), single.expirations(0)];
    assert_eq!(expirations, [rust.expirations(); 2]);
    Point { size, costs }
}

pub fn measure(sizes: &[usize], meter: Meter) -> Vec<Panel> {
    let mut panel = |row: &Row, calls| Panel {
        layer: None,
        name: row.name,
        points: sizes
            .iter()
            .map(|&size| point(row, size, calls, meter))
            .collect(),
    };
    let mut panels: Vec<Panel> = ROWS.iter().map(|row| panel(row, CALLS_IN_LIST)).collect();
    panels.extend(WALKS.iter().map(|row| panel(row, WALKS_IN_LIST)));
    panels
}
