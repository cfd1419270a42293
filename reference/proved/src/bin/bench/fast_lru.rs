//! The recency list beside cachekit's `FastLru`.

use crate::table::{Panel, Point};
use crate::timing::{
    CALLS_IN_LIST, Contestant, LISTS, Words, Workload, lists_of, medians, pick, random_keys, sizes,
};
use cachekit::policy::fast_lru as rust;
use proved::fast_lru::{Call, FastLru};
use proved::replay::Answer;
use samples::splitmix64::SplitMix64;

/// The operations of [`Call`] that are timed.
const CLEAR: u64 = 1;
const INSERT: u64 = 2;
const GET: u64 = 3;
const REMOVE: u64 = 4;
const TOUCH: u64 = 6;
const PEEK: u64 = 7;

impl Contestant for rust::FastLru<u64, u64> {
    fn run(&mut self, calls: &[Words], answers: &mut Vec<Words>) {
        let found = |value: Option<u64>| match value {
            Some(value) => [3, value, 0, 0],
            None => [2, 0, 0, 0],
        };
        answers.clear();
        for &[operation, key, value, _] in calls {
            answers.push(match operation {
                CLEAR => {
                    self.clear();
                    [9, 0, 0, 0]
                }
                INSERT => found(self.insert(key, value)),
                GET => found(self.get(&key).copied()),
                REMOVE => found(self.remove(&key)),
                TOUCH => [u64::from(self.touch(&key)), 0, 0, 0],
                PEEK => found(self.peek(&key).copied()),
                _ => panic!("operation {operation} is not timed"),
            });
        }
    }
}

/// Lists of calls on a full list of these keys, which is filled anew before each round.
struct Row {
    name: &'static str,
    lists: fn(&mut SplitMix64, &[u64]) -> Vec<Vec<Call>>,
}

const ROWS: [Row; 8] = [
    Row {
        name: "get, hit",
        lists: |random, keys| lists_of(|| Call::Get(pick(random, keys))),
    },
    Row {
        name: "get, miss",
        lists: |random, _| lists_of(|| Call::Get(random.next())),
    },
    Row {
        name: "insert over",
        lists: |random, keys| lists_of(|| Call::Insert(pick(random, keys), 1)),
    },
    Row {
        name: "insert that evicts",
        lists: |random, _| lists_of(|| Call::Insert(random.next(), 1)),
    },
    Row {
        name: "remove and insert",
        lists: churn,
    },
    Row {
        name: "touch",
        lists: |random, keys| lists_of(|| Call::Touch(pick(random, keys))),
    },
    Row {
        name: "peek",
        lists: |random, keys| lists_of(|| Call::Peek(pick(random, keys))),
    },
    // In the other rows but "remove and insert" each call is of the same operation as the one before.
    Row {
        name: "peek and get in turn",
        lists: |random, keys| {
            let mut turn = 0;
            lists_of(|| {
                turn += 1;
                let key = pick(random, keys);
                match turn % 2 {
                    0 => Call::Peek(key),
                    _ => Call::Get(key),
                }
            })
        },
    },
];

/// Replaces random keys by new ones.
fn churn(random: &mut SplitMix64, keys: &[u64]) -> Vec<Vec<Call>> {
    let mut held = keys.to_vec();
    let mut list = || {
        let mut calls = Vec::new();
        for _ in 0..CALLS_IN_LIST / 2 {
            let at = random.below(held.len() as u64) as usize;
            let new = random.next();
            calls.extend([Call::Remove(held[at]), Call::Insert(new, 1)]);
            held[at] = new;
        }
        calls
    };
    (0..LISTS).map(|_| list()).collect()
}

fn point(random: &mut SplitMix64, row: &Row, size: usize) -> Point {
    let keys = random_keys(random, size);
    let mut proved = FastLru::new(size as u64);
    let mut rust = rust::FastLru::new(size);
    let mut before = vec![Call::Clear];
    before.extend(keys.iter().map(|&key| Call::Insert(key, !key)));
    let work = Workload::new(before, (row.lists)(random, &keys));
    let costs = medians(&mut [&mut proved, &mut rust], &work);
    assert_eq!(proved.call(Call::Check), Answer::Yes);
    assert_eq!(proved.call(Call::Len), Answer::Number(rust.len() as u64));
    Point { size, costs }
}

pub fn measure(random: &mut SplitMix64) -> Vec<Panel> {
    let mut panel = |row: &Row| Panel {
        layer: Some("fast_lru"),
        name: row.name,
        points: sizes().map(|size| point(random, row, size)).collect(),
    };
    ROWS.iter().map(&mut panel).collect()
}
