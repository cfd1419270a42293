//! The plain model: records, front first. It predicts every answer but the slots, which it learns
//! from the first answer that tells one.

use crate::layout::read_map;
use proved::linked_hash_map::{Call, LinkedHashMap};
use proved::replay::{Answer, Record};
use std::collections::HashMap;

pub struct Model {
    capacity: usize,
    records: Vec<Record>,
    slots: HashMap<u64, u64>,
}

impl Model {
    pub fn new(capacity: u64, records: Vec<Record>) -> Self {
        Self {
            capacity: capacity as usize,
            records,
            slots: HashMap::new(),
        }
    }

    pub fn len(&self) -> usize {
        self.records.len()
    }

    /// A slot of which the key is known.
    pub fn some_slot(&self, pick: u64) -> Option<u64> {
        let record = self.records.get(pick as usize % self.len().max(1))?;
        self.slots.get(&record.key).copied()
    }

    /// Holds the map's answer to that of the model.
    pub fn expect(&mut self, call: Call, answer: Answer) {
        match call {
            Call::Open(_) => panic!("the model keeps its capacity"),
            Call::Clear => {
                self.records.clear();
                self.slots.clear();
                assert_eq!(answer, Answer::Yes);
            }
            Call::Touch(key) => {
                if let Some(place) = self.place(key) {
                    self.records[..=place].rotate_right(1);
                }
                self.expect_slot(call, self.place(key), answer);
            }
            Call::SetPayload(record) => {
                let place = self.place(record.key);
                if let Some(place) = place {
                    self.records[place] = record;
                }
                assert_eq!(answer, Answer::from_bool(place.is_some()), "{call:?}");
            }
            Call::Put(record) => assert_eq!(answer, self.put(record), "{call:?}"),
            Call::Remove(key) => {
                self.slots.remove(&key);
                let old = self.place(key).map(|place| self.records.remove(place));
                assert_eq!(
                    answer,
                    old.map_or(Answer::Nothing, Answer::Record),
                    "{call:?}"
                );
            }
            Call::Find(key) => self.expect_slot(call, self.place(key), answer),
            Call::Record(slot) => {
                if let Some(place) = self.place_of_slot(slot) {
                    assert_eq!(answer, Answer::Record(self.records[place]), "{call:?}");
                }
            }
            Call::First => self.expect_slot(call, self.in_range(0), answer),
            Call::Last => self.expect_slot(call, self.len().checked_sub(1), answer),
            Call::Next(slot) => {
                if let Some(place) = self.place_of_slot(slot) {
                    self.expect_slot(call, self.in_range(place + 1), answer);
                }
            }
            Call::Previous(slot) => {
                if let Some(place) = self.place_of_slot(slot) {
                    self.expect_slot(call, place.checked_sub(1), answer);
                }
            }
            Call::Check => assert_eq!(answer, Answer::Yes),
            Call::Other(_) => assert_eq!(answer, Answer::Unknown),
        }
    }

    fn put(&mut self, record: Record) -> Answer {
        if let Some(place) = self.place(record.key) {
            let old = std::mem::replace(&mut self.records[place], record);
            self.records[..=place].rotate_right(1);
            return Answer::Replaced(old);
        }
        if self.len() == self.capacity {
            return Answer::Full;
        }
        self.records.insert(0, record);
        Answer::Inserted
    }

    fn place(&self, key: u64) -> Option<usize> {
        self.records.iter().position(|record| record.key == key)
    }

    fn place_of_slot(&self, slot: u64) -> Option<usize> {
        self.records
            .iter()
            .position(|record| self.slots.get(&record.key) == Some(&slot))
    }

    fn in_range(&self, place: usize) -> Option<usize> {
        (place < self.len()).then_some(place)
    }

    fn expect_slot(&mut self, call: Call, place: Option<usize>, answer: Answer) {
        let Some(place) = place else {
            return assert_eq!(answer, Answer::Nothing, "{call:?}");
        };
        let Answer::Number(slot) = answer else {
            panic!("{call:?} is answered by {answer:?}");
        };
        assert!(slot < self.capacity as u64);
        let known = *self.slots.entry(self.records[place].key).or_insert(slot);
        assert_eq!(slot, known, "{call:?}");
    }

    /// The whole map at rest: its own check, its length, a walk each way, and its words read.
    pub fn expect_whole(&self, map: &mut LinkedHashMap) {
        assert_eq!(map.call(Call::Check), Answer::Yes);
        assert_eq!(map.numbers[..2], [self.capacity as u64, self.len() as u64]);
        assert_eq!(
            read_map(&map.numbers, &map.words).as_ref(),
            Some(&self.records)
        );

        let forward = walk(map, Call::First, Call::Next);
        assert_eq!(forward, self.records);
        let mut backward = walk(map, Call::Last, Call::Previous);
        backward.reverse();
        assert_eq!(backward, self.records);
    }
}

/// The records on a walk, which has at most one more than the map has room for.
fn walk(map: &mut LinkedHashMap, start: Call, step: impl Fn(u64) -> Call) -> Vec<Record> {
    let mut records = Vec::new();
    let mut call = start;
    for _ in 0..=map.numbers[0] {
        let slot = match map.call(call) {
            Answer::Number(slot) => slot,
            Answer::Nothing => break,
            answer => panic!("{call:?} is answered by {answer:?}"),
        };
        let Answer::Record(record) = map.call(Call::Record(slot)) else {
            panic!("slot {slot} has no record");
        };
        records.push(record);
        call = step(slot);
    }
    records
}
