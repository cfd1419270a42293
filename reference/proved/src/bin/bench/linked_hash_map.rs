//! The map beside cachekit's `FastLru`, which has such a map in it, and the standard `HashMap`.

use crate::timing::{
    CALLS_IN_LIST, Contestant, LISTS, Words, Workload, lists_of, medians, pick, random_keys,
};
use cachekit::policy::fast_lru::FastLru;
use proved::linked_hash_map::{Call, LinkedHashMap};
use proved::replay::{Answer, Record};
use samples::splitmix64::SplitMix64;
use std::collections::HashMap;

/// The operations of [`Call`] that are timed.
const TOUCH: u64 = 2;
const PUT: u64 = 4;
const REMOVE: u64 = 5;
const FIND: u64 = 6;

struct AsMap(FastLru<u64, u64>);

impl Contestant for AsMap {
    fn run(&mut self, calls: &[Words], answers: &mut Vec<Words>) {
        let list = &mut self.0;
        answers.clear();
        for &[operation, key, value, _] in calls {
            answers.push(match operation {
                TOUCH => [u64::from(list.touch(&key)), key, 0, 0],
                PUT => match list.insert(key, value) {
                    Some(old) => [1, key, old, 0],
                    None => [0; 4],
                },
                REMOVE => match list.remove(&key) {
                    Some(old) => [1, key, old, 0],
                    None => [0; 4],
                },
                FIND => [u64::from(list.contains(&key)), key, 0, 0],
                _ => panic!("operation {operation} is not timed"),
            });
        }
    }
}

/// For finding alone.
impl Contestant for HashMap<u64, usize> {
    fn run(&mut self, calls: &[Words], answers: &mut Vec<Words>) {
        answers.clear();
        for &[_, key, _, _] in calls {
            answers.push(match self.get(&key) {
                Some(&slot) => [1, slot as u64, 0, 0],
                None => [0; 4],
            });
        }
    }
}

/// Lists of calls on a full map, which leave it as full as it was, and with the same keys.
struct Row {
    name: &'static str,
    only_finds: bool,
    lists: fn(&mut SplitMix64, &[u64]) -> Vec<Vec<Call>>,
}

const ROWS: [Row; 4] = [
    Row {
        name: "find, hit",
        only_finds: true,
        lists: |random, keys| lists_of(|| Call::Find(pick(random, keys))),
    },
    Row {
        name: "find, miss",
        only_finds: true,
        lists: |random, _| lists_of(|| Call::Find(random.next())),
    },
    Row {
        name: "touch",
        only_finds: false,
        lists: |random, keys| lists_of(|| Call::Touch(pick(random, keys))),
    },
    Row {
        name: "put and remove",
        only_finds: false,
        lists: churn,
    },
];

/// Each list replaces random keys by new ones, and then takes every step back.
fn churn(random: &mut SplitMix64, keys: &[u64]) -> Vec<Vec<Call>> {
    (0..LISTS)
        .map(|_| {
            let mut held = keys.to_vec();
            let mut steps = Vec::new();
            for _ in 0..CALLS_IN_LIST / 4 {
                let at = random.below(held.len() as u64) as usize;
                let new = random.next();
                steps.push((held[at], new));
                held[at] = new;
            }
            let back: Vec<_> = steps.iter().rev().map(|&(old, new)| (new, old)).collect();
            let replace = |&(old, new): &(u64, u64)| [Call::Remove(old), put(new)];
            steps.iter().chain(&back).flat_map(replace).collect()
        })
        .collect()
}

fn put(key: u64) -> Call {
    Call::Put(Record {
        key,
        first: !key,
        second: 0,
    })
}

/// The medians of the proved map, of `FastLru` and, for finding, of `HashMap`.
fn measure(random: &mut SplitMix64, row: &Row, records: usize) -> Vec<f64> {
    let keys = random_keys(random, records);
    let mut proved = LinkedHashMap::new(records as u64);
    let mut fast_lru = AsMap(FastLru::new(records));
    let mut hash_map = HashMap::new();
    for (slot, &key) in keys.iter().enumerate() {
        assert_eq!(proved.call(put(key)), Answer::Inserted);
        fast_lru.0.insert(key, !key);
        hash_map.insert(key, slot);
    }

    let work = Workload::new(Vec::new(), (row.lists)(random, &keys));
    let mut contestants: Vec<&mut dyn Contestant> = vec![&mut proved, &mut fast_lru];
    if row.only_finds {
        contestants.push(&mut hash_map);
    }
    let medians = medians(&mut contestants, &work);
    assert_eq!(proved.call(Call::Check), Answer::Yes);
    assert_eq!(fast_lru.0.len(), records);
    medians
}

pub fn print(random: &mut SplitMix64) {
    println!("| call | keys | proved map | FastLru | ratio | HashMap | ratio |");
    println!("|---|---:|---:|---:|---:|---:|---:|");
    for row in &ROWS {
        for records in [16, 256, 4096] {
            let medians = measure(random, row, records);
            let [proved, fast_lru, ref others @ ..] = medians[..] else {
                unreachable!("both are always timed")
            };
            let hash_map = match others {
                [nanos] => format!("{nanos:.1} ns | {:.2}", proved / nanos),
                _ => " |".to_string(),
            };
            println!(
                "| {} | {records} | {proved:.1} ns | {fast_lru:.1} ns | {:.2} | {hash_map} |",
                row.name,
                proved / fast_lru,
            );
        }
    }
    println!();
}
