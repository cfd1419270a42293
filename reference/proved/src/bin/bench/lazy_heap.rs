//! The heap beside cachekit's `LazyMinHeap`, with factor 2 in both.

use crate::table::{Panel, Point};
use crate::timing::{
    CALLS_IN_LIST, Contestant, LISTS, Words, Workload, lists_of, medians, pick, random_keys, sizes,
};
use cachekit::ds::lazy_heap as rust;
use proved::lazy_heap::{Call, LazyMinHeap};
use proved::replay::Answer;
use samples::splitmix64::SplitMix64;

const FACTOR: u64 = 2;

/// The operations of [`Call`] that are timed.
const UPDATE: u64 = 2;
const REMOVE: u64 = 3;
const POP_BEST: u64 = 4;
const PEEK_BEST: u64 = 5;
const CLEAR: u64 = 9;

impl Contestant for rust::LazyMinHeap<u64, u64> {
    fn run(&mut self, calls: &[Words], answers: &mut Vec<Words>) {
        let found = |score: Option<u64>| match score {
            Some(score) => [3, score, 0, 0],
            None => [2, 0, 0, 0],
        };
        answers.clear();
        for &[operation, key, score, _] in calls {
            answers.push(match operation {
                UPDATE => found(self.update(key, score)),
                REMOVE => found(self.remove(&key)),
                POP_BEST => match self.pop_best() {
                    Some((key, score)) => [4, key, score, 0],
                    None => [2, 0, 0, 0],
                },
                PEEK_BEST => match self.peek_best() {
                    Some((&key, &score)) => [4, key, score, 0],
                    None => [2, 0, 0, 0],
                },
                CLEAR => {
                    self.clear();
                    [9, 0, 0, 0]
                }
                _ => panic!("operation {operation} is not timed"),
            });
        }
    }
}

/// A key and its score.
type Held = (u64, u64);

/// Lists of calls on a heap, which is filled anew before each round.
struct Row {
    name: &'static str,
    lists: fn(&mut SplitMix64, &[Held]) -> Vec<Vec<Call>>,
}

const ROWS: [Row; 4] = [
    Row {
        name: "update of a held key",
        lists: |random, held| {
            let keys = keys_of(held);
            lists_of(|| Call::Update(pick(random, &keys), random.next()))
        },
    },
    Row {
        name: "remove and update",
        lists: churn,
    },
    Row {
        name: "pop_best and update",
        lists: pops,
    },
    Row {
        name: "peek_best",
        lists: |_, _| lists_of(|| Call::PeekBest),
    },
];

fn keys_of(held: &[Held]) -> Vec<u64> {
    held.iter().map(|&(key, _)| key).collect()
}

/// Removes random keys and sets new ones.
fn churn(random: &mut SplitMix64, held: &[Held]) -> Vec<Vec<Call>> {
    let mut keys = keys_of(held);
    let mut list = || {
        let mut calls = Vec::new();
        for _ in 0..CALLS_IN_LIST / 2 {
            let at = random.below(keys.len() as u64) as usize;
            let new = random.next();
            calls.extend([Call::Remove(keys[at]), Call::Update(new, random.next())]);
            keys[at] = new;
        }
        calls
    };
    (0..LISTS).map(|_| list()).collect()
}

/// Sets each key that was popped again, to a later score. A heap of the Rust's says which key it is.
fn pops(random: &mut SplitMix64, held: &[Held]) -> Vec<Vec<Call>> {
    let mut heap: rust::LazyMinHeap<u64, u64> = held.iter().copied().collect();
    let mut list = || {
        let mut calls = Vec::new();
        for _ in 0..CALLS_IN_LIST / 2 {
            let (key, score) = heap.pop_best().expect("the heap is full");
            let later = score.saturating_add(random.next() >> 8);
            heap.update(key, later);
            calls.extend([Call::PopBest, Call::Update(key, later)]);
        }
        calls
    };
    (0..LISTS).map(|_| list()).collect()
}

fn point(random: &mut SplitMix64, row: &Row, size: usize) -> Point {
    let keys = random_keys(random, size);
    let held: Vec<Held> = keys
        .into_iter()
        .map(|key| (key, random.next() >> 8))
        .collect();
    let mut proved = LazyMinHeap::new(size as u64, FACTOR, 0);
    let mut rust = rust::LazyMinHeap::with_capacity(size);
    rust.set_auto_rebuild(Some(FACTOR as usize));

    let mut before = vec![Call::Clear];
    before.extend(held.iter().map(|&(key, score)| Call::Update(key, score)));
    let work = Workload::new(before, (row.lists)(random, &held));
    let costs = medians(&mut [&mut proved, &mut rust], &work);
    let lengths = [rust.len(), rust.heap_len()].map(|len| (Answer::Number(len as u64), 0));
    assert_eq!(proved.replay(&[Call::Len, Call::HeapLen]), lengths);
    assert_eq!(rust.len(), size);
    Point { size, costs }
}

pub fn measure(random: &mut SplitMix64) -> Vec<Panel> {
    let mut panel = |row: &Row| Panel {
        layer: Some("lazy_heap"),
        name: row.name,
        points: sizes().map(|size| point(random, row, size)).collect(),
    };
    ROWS.iter().map(&mut panel).collect()
}
