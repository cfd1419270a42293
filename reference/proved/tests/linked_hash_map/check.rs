//! The map's check against [`read_map`], on maps with damage. Where both say yes, the words are
//! used as the map that they then are.

use crate::layout::{cell_count, keys_at_home, read_map};
use crate::model::Model;
use proved::linked_hash_map::{Call, LinkedHashMap};
use proved::replay::{Answer, Record};
use samples::splitmix64::SplitMix64;

/// A map with records, free ones and tombstones, its keys in clusters, one of them round the end.
fn map(random: &mut SplitMix64, capacity: u64) -> LinkedHashMap {
    let cells = cell_count(capacity);
    let mut keys = keys_at_home(random, capacity, cells - 1, 3);
    keys.extend(keys_at_home(random, capacity, 0, 2));
    keys.extend(keys_at_home(random, capacity, cells / 3, 3));
    let mut map = LinkedHashMap::new(capacity);
    for _ in 0..8 * capacity {
        let key = keys[random.below(keys.len() as u64) as usize];
        let record = Record {
            key,
            first: random.next(),
            second: random.next(),
        };
        match random.below(3) {
            0 => map.call(Call::Remove(key)),
            _ => map.call(Call::Put(record)),
        };
    }
    map
}

#[derive(Default)]
struct Tally {
    yes: usize,
    no: usize,
}

impl Tally {
    /// Holds the check to `read_map`, and a map that is left to the model.
    fn compare(&mut self, map: &LinkedHashMap, random: &mut SplitMix64) {
        let mut map = map.clone();
        let before = map.clone();
        let answer = map.call(Call::Check);
        assert_eq!((map.numbers, &map.words), (before.numbers, &before.words));
        let Some(records) = read_map(&map.numbers, &map.words) else {
            assert_eq!(answer, Answer::No, "{map:?}");
            self.no += 1;
            return;
        };
        assert_eq!(answer, Answer::Yes, "{map:?}");
        self.yes += 1;

        let keys: Vec<u64> = records.iter().map(|record| record.key).collect();
        let mut model = Model::new(map.numbers[0], records);
        for key in keys.into_iter().chain([random.next(), 0, 1]) {
            let first = random.next();
            let record = Record {
                key,
                first,
                second: 0,
            };
            for call in [
                Call::Find(key),
                Call::Put(record),
                Call::Remove(key),
                Call::Put(record),
            ] {
                model.expect(call, map.call(call));
            }
        }
        model.expect_whole(&mut map);
    }
}

/// Numbers that a damaged word may become: nodes, cells and their neighbours, and any.
fn damages(random: &mut SplitMix64, old: u64, capacity: u64) -> Vec<u64> {
    let mut new: Vec<u64> = (0..capacity + 4).collect();
    new.extend((0..64).map(|bit| old ^ 1 << bit));
    for cell in 0..4 {
        let emptied = old & !(0xffff << (16 * cell));
        new.extend((0..capacity + 2).map(|v| emptied | v << (16 * cell)));
        new.push(emptied | 0xffff << (16 * cell));
    }
    new.extend([
        old.wrapping_add(1),
        old.wrapping_sub(1),
        u64::MAX,
        random.next(),
    ]);
    new.retain(|&word| word != old);
    new
}

#[test]
fn each_word_damaged() {
    let mut random = SplitMix64(1);
    let mut tally = Tally::default();
    for capacity in [1, 2, 3, 5] {
        for _ in 0..4 {
            let mut map = map(&mut random, capacity);
            for at in 0..map.words.len() {
                let old = map.words[at];
                for word in damages(&mut random, old, capacity) {
                    map.words[at] = word;
                    tally.compare(&map, &mut random);
                }
                map.words[at] = old;
            }
        }
    }
    assert!(
        10_000 < tally.yes.min(tally.no),
        "{} {}",
        tally.yes,
        tally.no
    );
}

#[test]
fn each_number_damaged() {
    let mut random = SplitMix64(2);
    let mut tally = Tally::default();
    for capacity in [0, 1, 2, 3, 7] {
        for _ in 0..20 {
            let map = map(&mut random, capacity);
            for (at, old) in map.numbers.into_iter().enumerate() {
                for word in damages(&mut random, old, capacity) {
                    let mut map = map.clone();
                    map.numbers[at] = word;
                    tally.compare(&map, &mut random);
                }
            }
        }
    }
    assert!(1000 < tally.yes.min(tally.no), "{} {}", tally.yes, tally.no);
}

#[test]
fn several_words_damaged() {
    let mut random = SplitMix64(3);
    let mut tally = Tally::default();
    for _ in 0..60_000 {
        let capacity = 1 + random.below(4);
        let mut map = map(&mut random, capacity);
        for _ in 0..1 + random.below(4) {
            let at = random.below(map.words.len() as u64) as usize;
            let new = damages(&mut random, map.words[at], capacity);
            map.words[at] = new[random.below(new.len() as u64) as usize];
        }
        tally.compare(&map, &mut random);
    }
    assert!(5000 < tally.yes.min(tally.no), "{} {}", tally.yes, tally.no);
}
