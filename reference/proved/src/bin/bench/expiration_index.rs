//! The index beside cachekit's `ExpirationIndex`.

use crate::table::{Panel, Point};
use crate::timing::{
    CALLS_IN_LIST, Contestant, LISTS, Words, Workload, lists_of, medians, pick, random_keys, sizes,
};
use cachekit::ds::expiration_index as rust;
use proved::expiration_index::{Call, ExpirationIndex};
use proved::replay::Answer;
use samples::splitmix64::SplitMix64;

/// The operations of [`Call`] that are timed.
const CLEAR: u64 = 1;
const SET_DEADLINE: u64 = 2;
const REMOVE: u64 = 3;
const NEXT_DEADLINE: u64 = 4;
const POP_EXPIRED: u64 = 5;

impl Contestant for rust::ExpirationIndex<u64> {
    fn run(&mut self, calls: &[Words], answers: &mut Vec<Words>) {
        let found = |deadline: Option<u64>| match deadline {
            Some(deadline) => [3, deadline, 0, 0],
            None => [2, 0, 0, 0],
        };
        let due = |pair: Option<(u64, u64)>| match pair {
            Some((key, deadline)) => [4, key, deadline, 0],
            None => [2, 0, 0, 0],
        };
        answers.clear();
        for &[operation, first, second, _] in calls {
            answers.push(match operation {
                CLEAR => {
                    self.clear();
                    [9, 0, 0, 0]
                }
                SET_DEADLINE => found(self.set_deadline(first, second)),
                REMOVE => found(self.remove(&first)),
                NEXT_DEADLINE => due(self.next_deadline().map(|(&key, at)| (key, at))),
                POP_EXPIRED => due(self.pop_expired(first)),
                _ => panic!("operation {operation} is not timed"),
            });
        }
    }
}

/// A key and its deadline.
type Held = (u64, u64);

/// Lists of calls on an index, which is filled anew before each round.
struct Row {
    name: &'static str,
    lists: fn(&mut SplitMix64, &[Held]) -> Vec<Vec<Call>>,
}

const ROWS: [Row; 4] = [
    Row {
        name: "set_deadline over",
        lists: |random, held| {
            let keys = keys_of(held);
            lists_of(|| Call::SetDeadline(pick(random, &keys), random.next()))
        },
    },
    Row {
        name: "remove and set_deadline",
        lists: churn,
    },
    Row {
        name: "next_deadline",
        lists: |_, _| lists_of(|| Call::NextDeadline),
    },
    Row {
        name: "pop_expired and set",
        lists: pops,
    },
];

fn keys_of(held: &[Held]) -> Vec<u64> {
    held.iter().map(|&(key, _)| key).collect()
}

/// Removes random keys and sets new ones.
fn churn(random: &mut SplitMix64, held: &[Held]) -> Vec<Vec<Call>> {
    let mut keys = keys_of(held);
    let mut list = || {
        let mut calls = Vec::new();
        for _ in 0..CALLS_IN_LIST / 2 {
            let at = random.below(keys.len() as u64) as usize;
            let new = random.next();
            calls.extend([
                Call::Remove(keys[at]),
                Call::SetDeadline(new, random.next()),
            ]);
            keys[at] = new;
        }
        calls
    };
    (0..LISTS).map(|_| list()).collect()
}

/// Pops each deadline when it comes, and sets its key to a later one. An index of the Rust's says
/// which key it is.
fn pops(random: &mut SplitMix64, held: &[Held]) -> Vec<Vec<Call>> {
    let mut index = rust::ExpirationIndex::new();
    for &(key, deadline) in held {
        index.set_deadline(key, deadline);
    }
    let mut list = || {
        let mut calls = Vec::new();
        for _ in 0..CALLS_IN_LIST / 2 {
            let (key, tick) = index.pop_expired(u64::MAX).expect("the index is full");
            let later = tick.saturating_add(random.next() >> 8);
            index.set_deadline(key, later);
            calls.extend([Call::PopExpired(tick), Call::SetDeadline(key, later)]);
        }
        calls
    };
    (0..LISTS).map(|_| list()).collect()
}

fn point(random: &mut SplitMix64, row: &Row, size: usize) -> Point {
    let keys = random_keys(random, size);
    let held: Vec<Held> = keys
        .into_iter()
        .map(|key| (key, random.next() >> 8))
        .collect();
    let mut proved = ExpirationIndex::new(size as u64, 0);
    let mut rust = rust::ExpirationIndex::with_capacity(size);

    let mut before = vec![Call::Clear];
    before.extend(held.iter().map(|&(key, at)| Call::SetDeadline(key, at)));
    let work = Workload::new(before, (row.lists)(random, &held));
    let costs = medians(&mut [&mut proved, &mut rust], &work);
    let lengths = [rust.len(), rust.heap().heap_len()].map(|len| (Answer::Number(len as u64), 0));
    assert_eq!(proved.replay(&[Call::Len, Call::HeapLen]), lengths);
    assert_eq!(rust.len(), size);
    Point { size, costs }
}

pub fn measure(random: &mut SplitMix64) -> Vec<Panel> {
    let mut panel = |row: &Row| Panel {
        layer: Some("index"),
        name: row.name,
        points: sizes().map(|size| point(random, row, size)).collect(),
    };
    ROWS.iter().map(&mut panel).collect()
}
