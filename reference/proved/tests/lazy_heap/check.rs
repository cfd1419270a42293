//! The heap's check against a second reader of the words, on heaps with damage. Where both say yes,
//! the words are used as the heap that they then are.

use crate::layout::{cell_count, keys_at_home, read_map};
use proved::lazy_heap::{Call, LazyMinHeap, MAX_FACTOR, MAX_LIMIT, words_for};
use proved::replay::{Answer, Record};
use samples::splitmix64::SplitMix64;
use std::iter;

/// Where the entries of a heap start.
fn entries_at(limit: u64) -> usize {
    8 * limit as usize + 58
}

/// The records of the heap, latest set first; none where words and numbers are no heap, which
/// crates/lazy_heap/specs/Heap.antt says, and this a second time.
fn read_heap(numbers: &[u64; 6], words: &[u64]) -> Option<Vec<Record>> {
    let [limit, held, refill_in, entries, seq, factor] = *numbers;
    let fits = (1..=MAX_LIMIT).contains(&limit) && words_for(limit) <= words.len();
    if !fits || 8 * limit < entries || !(1..=MAX_FACTOR).contains(&factor) {
        return None;
    }
    let records = read_map(&[limit, held, refill_in], words)?;
    let entries: Vec<&[u64]> = words[entries_at(limit)..]
        .chunks_exact(3)
        .take(entries as usize)
        .collect();

    let are_ordered = (1..entries.len()).all(|i| entries[(i - 1) / 2] <= entries[i]);
    let are_below = entries.iter().all(|entry| entry[1] < seq);
    let fall = iter::once(seq)
        .chain(records.iter().map(|record| record.second))
        .is_sorted_by(|later, earlier| earlier < later);
    let live = |r: &Record| {
        let is_live = |entry: &&&[u64]| ***entry == [r.first, r.second, r.key];
        entries.iter().filter(is_live).count()
    };
    let live_once = records.iter().all(|record| live(record) == 1);
    (are_ordered && are_below && fall && live_once).then_some(records)
}

/// A heap with live and stale entries, equal scores, and keys that meet in one cell.
fn heap(random: &mut SplitMix64, limit: u64) -> LazyMinHeap {
    let mut keys = keys_at_home(random, limit, cell_count(limit) - 1, 2);
    keys.extend(0..limit + 1);
    let start = match random.below(2) {
        0 => 0,
        _ => u64::MAX - random.below(20),
    };
    let mut heap = LazyMinHeap::new(limit, random.below(9), start);
    for _ in 0..8 * limit {
        let key = keys[random.below(keys.len() as u64) as usize];
        match random.below(6) {
            0 => heap.call(Call::Remove(key)),
            1 => heap.call(Call::PopBest),
            _ => heap.call(Call::Update(key, random.below(4))),
        };
    }
    heap
}

#[derive(Default)]
struct Tally {
    yes: usize,
    no: usize,
}

impl Tally {
    /// Holds the check to `read_heap`, and drains a heap that is one.
    fn compare(&mut self, heap: &LazyMinHeap) {
        let mut heap = heap.clone();
        let before = heap.clone();
        let answer = heap.call(Call::Check);
        assert_eq!((heap.numbers, &heap.words), (before.numbers, &before.words));
        let Some(mut records) = read_heap(&heap.numbers, &heap.words) else {
            assert_eq!(answer, (Answer::No, 0), "{heap:?}");
            self.no += 1;
            return;
        };
        assert_eq!(answer, (Answer::Yes, 0), "{heap:?}");
        self.yes += 1;

        records.sort_unstable_by_key(|record| (record.first, record.second));
        for record in records {
            let best = Answer::Pair(record.key, record.first);
            assert_eq!(heap.call(Call::PopBest).0, best, "{before:?}");
        }
        assert_eq!(heap.call(Call::PopBest).0, Answer::Nothing, "{before:?}");
        assert_eq!(heap.call(Call::Check), (Answer::Yes, 0), "{before:?}");
    }
}

/// What a damaged word may become: nodes, scores and numbers that are near, another word, and any.
fn damages(random: &mut SplitMix64, old: u64, heap: &LazyMinHeap) -> Vec<u64> {
    let mut new: Vec<u64> = (0..heap.numbers[0] + 4).collect();
    new.extend((0..64).step_by(7).map(|bit| old ^ 1 << bit));
    new.extend((0..8).map(|_| heap.words[random.below(heap.words.len() as u64) as usize]));
    new.extend([
        old.wrapping_add(1),
        old.wrapping_sub(1),
        heap.numbers[4],
        heap.numbers[4].wrapping_sub(1),
        u64::MAX,
        random.next(),
    ]);
    new.retain(|&word| word != old);
    new
}

#[test]
fn each_word_damaged() {
    let mut random = SplitMix64(1);
    let mut tally = Tally::default();
    for limit in [1, 2, 3, 5, 8] {
        for _ in 0..12 {
            let mut heap = heap(&mut random, limit);
            for at in 0..heap.words.len() {
                let old = heap.words[at];
                for word in damages(&mut random, old, &heap) {
                    heap.words[at] = word;
                    tally.compare(&heap);
                }
                heap.words[at] = old;
            }
        }
    }
    assert!(
        50_000 < tally.yes.min(tally.no),
        "{} {}",
        tally.yes,
        tally.no
    );
}

#[test]
fn each_number_damaged() {
    let mut random = SplitMix64(2);
    let mut tally = Tally::default();
    for limit in [1, 2, 3, 7] {
        for _ in 0..200 {
            let heap = heap(&mut random, limit);
            for (at, old) in heap.numbers.into_iter().enumerate() {
                for number in damages(&mut random, old, &heap) {
                    let mut heap = heap.clone();
                    heap.numbers[at] = number;
                    tally.compare(&heap);
                }
            }
        }
    }
    assert!(
        10_000 < tally.yes.min(tally.no),
        "{} {}",
        tally.yes,
        tally.no
    );
}

/// An entry is copied over another, or to the end, so that a key may have two live ones.
#[test]
fn entries_copied() {
    let mut random = SplitMix64(3);
    let mut tally = Tally::default();
    for _ in 0..40_000 {
        let limit = 1 + random.below(6);
        let mut heap = heap(&mut random, limit);
        let entries = heap.numbers[3];
        if entries == 0 {
            continue;
        }
        let from = entries_at(limit) + 3 * random.below(entries) as usize;
        let to = entries_at(limit) + 3 * random.below(entries + 1) as usize;
        heap.words.copy_within(from..from + 3, to);
        if random.below(2) == 0 {
            heap.numbers[3] += 1;
        }
        tally.compare(&heap);
    }
    assert!(5000 < tally.yes.min(tally.no), "{} {}", tally.yes, tally.no);
}
