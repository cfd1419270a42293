//! Random calls on maps, small and full ones above all, with keys that collide on purpose.

use crate::layout::{cell_count, keys_at_home};
use crate::model::Model;
use proved::linked_hash_map::{Call, LinkedHashMap};
use proved::replay::Record;
use samples::splitmix64::SplitMix64;

/// Small keys, large ones, clusters of one home, of which one goes round the end, and random ones.
fn keys(random: &mut SplitMix64, capacity: u64) -> Vec<u64> {
    let cluster = (2 * capacity as usize + 2).min(40);
    let cells = cell_count(capacity);
    let mut keys: Vec<u64> = (0..capacity + 2).collect();
    keys.extend([1 << 32, 1 << 63, u64::MAX - 1, u64::MAX]);
    for home in [0, cells / 2, cells - 2, cells - 1] {
        keys.extend(keys_at_home(random, capacity, home, cluster));
    }
    keys.extend((0..capacity + 2).map(|_| random.next()));
    keys
}

/// How many of a hundred calls put a record, and how many remove one. Removals leave tombstones,
/// and insertions bring the next refill closer.
type Mix = (u64, u64);

const MIXES: [Mix; 4] = [(60, 5), (35, 35), (10, 10), (5, 50)];

fn random_call(random: &mut SplitMix64, mix: Mix, keys: &[u64], model: &Model) -> Call {
    let (puts, removals) = mix;
    let key = keys[random.below(keys.len() as u64) as usize];
    let record = Record {
        key,
        first: random.next(),
        second: random.next(),
    };
    let slot = model.some_slot(random.next()).unwrap_or(random.below(4));
    match random.below(100) {
        x if x < puts => Call::Put(record),
        x if x < puts + removals => Call::Remove(key),
        _ => match random.below(41) {
            0..=9 => Call::Find(key),
            10..=19 => Call::Touch(key),
            20..=25 => Call::SetPayload(record),
            26..=28 => Call::First,
            29..=31 => Call::Last,
            32..=34 => Call::Next(slot),
            35..=37 => Call::Previous(slot),
            38..=39 => Call::Record(slot),
            _ => Call::Other(13 + (random.next() >> random.below(64)).saturating_sub(13)),
        },
    }
}

/// Calls in stretches of one mix, with a look at the whole map after each. Every eight stretches
/// the map is cleared and other keys are taken, about twice as many as fit. Says how many refills
/// there were.
fn run(capacity: u64, stretches: usize, calls_in_stretch: usize) -> usize {
    let mut random = SplitMix64(capacity);
    let mut keys = keys(&mut random, capacity);
    let taken = 2 * capacity as usize + 2;
    let mut map = LinkedHashMap::new(capacity);
    let mut model = Model::new(capacity, Vec::new());
    let mut refills = 0;
    for stretch in 0..stretches {
        if stretch % 8 == 0 {
            model.expect(Call::Clear, map.call(Call::Clear));
            let middle = random.below(keys.len() as u64) as usize;
            keys.rotate_left(middle);
        }
        let mut left = calls_in_stretch;
        while 0 < left {
            let batch = left.min(1 + random.below(90) as usize);
            left -= batch;
            let calls: Vec<Call> = (0..batch)
                .map(|_| random_call(&mut random, MIXES[stretch % 4], &keys[..taken], &model))
                .collect();
            let refill_in = map.numbers[2];
            for (&call, answer) in calls.iter().zip(map.replay(&calls)) {
                model.expect(call, answer);
            }
            refills += usize::from(refill_in < map.numbers[2]);
        }
        model.expect_whole(&mut map);
    }
    refills
}

#[test]
fn small_maps() {
    for capacity in [0, 1, 2, 3, 7] {
        let refills = run(capacity, 400, 1000);
        assert!(capacity == 0 || 50 < refills, "only {refills} refills");
    }
}

#[test]
fn middling_map() {
    let refills = run(64, 200, 5000);
    assert!(100 < refills, "only {refills} refills");
}

#[test]
fn largest_map() {
    let refills = run(4096, 16, 100_000);
    assert!(4 <= refills, "only {refills} refills");
}

/// Up to a thirty-second of the room is removed one by one, and more is freed whole.
#[test]
fn cleared_with_few_and_with_many_records() {
    for capacity in [0, 1, 7, 31, 32, 64, 4096] {
        let mut random = SplitMix64(capacity);
        let keys = keys(&mut random, capacity);
        let mut map = LinkedHashMap::new(capacity);
        let mut model = Model::new(capacity, Vec::new());
        let few = capacity / 32;
        for held in [0, 1, few, few + 1, capacity, 1, 0] {
            for &key in &keys[..held.min(capacity) as usize] {
                let call = Call::Put(Record {
                    key,
                    first: random.next(),
                    second: random.next(),
                });
                model.expect(call, map.call(call));
            }
            model.expect(Call::Clear, map.call(Call::Clear));
            model.expect_whole(&mut map);
        }
    }
}

#[test]
fn a_map_whose_keys_all_collide_at_the_last_cell() {
    for capacity in [3, 7, 64] {
        let mut random = SplitMix64(capacity);
        let last = cell_count(capacity) - 1;
        let keys = keys_at_home(&mut random, capacity, last, capacity as usize + 2);
        let mut map = LinkedHashMap::new(capacity);
        let mut model = Model::new(capacity, Vec::new());
        for round in 0..20_000 {
            let mix = MIXES[round / 100 % MIXES.len()];
            let call = random_call(&mut random, mix, &keys, &model);
            model.expect(call, map.call(call));
            if round % 100 == 0 {
                model.expect_whole(&mut map);
            }
        }
    }
}
