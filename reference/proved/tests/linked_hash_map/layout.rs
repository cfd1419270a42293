//! Where a map's words are (crates/linked_hash_map/src/lib.rt, crates/cells/specs/Cells.antt), and
//! what it takes to be a map (crates/linked_hash_map/specs/Map.antt), told a second time in Rust.

use proved::linked_hash_map::{MAX_CAPACITY, words_for};
use proved::replay::Record;
use samples::splitmix64::SplitMix64;

pub fn fits(capacity: u64, words: usize) -> bool {
    capacity <= MAX_CAPACITY && words_for(capacity) <= words
}

pub fn cell_count(capacity: u64) -> u64 {
    12 * capacity + 192
}

/// The cell where the probes of a key start.
pub fn home(capacity: u64, key: u64) -> u64 {
    let hash = (key % (1 << 32) * 1640531527 + key / (1 << 32) * 1540483477) % (1 << 32);
    hash * cell_count(capacity) / (1 << 32)
}

/// Different keys whose probes start at one cell.
pub fn keys_at_home(random: &mut SplitMix64, capacity: u64, cell: u64, count: usize) -> Vec<u64> {
    let mut keys: Vec<u64> = Vec::new();
    while keys.len() < count {
        let key = random.next();
        if home(capacity, key) == cell && !keys.contains(&key) {
            keys.push(key);
        }
    }
    keys
}

pub fn record_at(words: &[u64], slot: u64) -> Record {
    let at = 5 * slot as usize;
    Record {
        key: words[at],
        first: words[at + 1],
        second: words[at + 2],
    }
}

fn previous(words: &[u64], node: u64) -> u64 {
    words[5 * node as usize + 3]
}

fn next(words: &[u64], node: u64) -> u64 {
    words[5 * node as usize + 4]
}

fn cell(words: &[u64], capacity: u64, p: u64) -> u64 {
    words[(5 * capacity + 10 + p / 4) as usize] >> (p % 4 * 16) & 0xffff
}

/// The records of the map, front first; none where words and numbers are no map.
pub fn read_map(numbers: &[u64; 3], words: &[u64]) -> Option<Vec<Record>> {
    let [capacity, len, refill_in] = *numbers;
    if !fits(capacity, words.len()) || len > capacity || refill_in == 0 {
        return None;
    }
    let live = ring(words, capacity, len, capacity)?;
    let free = ring(words, capacity, capacity - len, capacity + 1)?;
    let mut slots = [&live[..], &free[..]].concat();
    slots.sort_unstable();
    let are_shared = slots.into_iter().eq(0..capacity);
    (are_shared && are_indexed(words, capacity, &live))
        .then(|| live.iter().map(|&s| record_at(words, s)).collect())
}

/// The records in a circle with the node `end`, each linked both ways, if they are `len`.
fn ring(words: &[u64], capacity: u64, len: u64, end: u64) -> Option<Vec<u64>> {
    let mut slots = Vec::new();
    let mut node = end;
    loop {
        let after = next(words, node);
        if after >= capacity + 2 || previous(words, after) != node {
            return None;
        }
        if after == end {
            return (slots.len() as u64 == len).then_some(slots);
        }
        if after >= capacity || slots.len() as u64 == len {
            return None;
        }
        slots.push(after);
        node = after;
    }
}

/// Keys are different, no cell holds another record, and each live one is in one cell, with no
/// never used cell on the way there from its home.
fn are_indexed(words: &[u64], capacity: u64, live: &[u64]) -> bool {
    let count = cell_count(capacity);
    let mut cells_of = vec![Vec::new(); capacity as usize];
    for p in 0..count {
        let v = cell(words, capacity, p);
        if (1..=capacity).contains(&v) {
            cells_of[v as usize - 1].push(p);
        }
    }
    let mut keys: Vec<u64> = live.iter().map(|&s| record_at(words, s).key).collect();
    keys.sort_unstable();
    keys.dedup();

    keys.len() == live.len()
        && (0..capacity).all(|s| live.contains(&s) || cells_of[s as usize].is_empty())
        && live.iter().all(|&s| match cells_of[s as usize][..] {
            [c] => {
                let from = home(capacity, record_at(words, s).key);
                let steps = (c + count - from) % count;
                (0..steps).all(|i| cell(words, capacity, (from + i) % count) != 0)
            }
            _ => false,
        })
}
