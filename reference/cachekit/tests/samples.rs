//! The samples of document 01 held against the Rust, and the accessors that make them readable.
//! B11 is missing: it is about a limit on deadlines, which the Rust does not have.

use cachekit::ds::lazy_heap::LazyMinHeap;
use cachekit::policy::expiring::Expiring;
use cachekit::policy::fast_lru::FastLru;
use cachekit::time::MockClock;
use cachekit::traits::{Cache, ExpiringCache, TtlStatus};
use std::time::Duration;

type Book = Expiring<FastLru<u64, u64>, u64, u64, MockClock>;

fn book(capacity: usize) -> Book {
    Expiring::with_default_ttl(FastLru::new(capacity), MockClock::new(), None)
}

fn ms(millis: u64) -> Duration {
    Duration::from_millis(millis)
}

/// Remaining milliseconds and deadline of a live key.
fn live(book: &Book, key: u64) -> (u128, u64) {
    match book.ttl_status(&key) {
        TtlStatus::Live {
            remaining,
            deadline,
        } => (remaining.as_millis(), deadline.as_u64()),
        other => panic!("key {key} is {other:?}"),
    }
}

fn next_due(book: &mut Book) -> Option<(u64, u64)> {
    book.index_mut()
        .next_deadline()
        .map(|(key, deadline)| (*key, deadline))
}

fn entries(book: &Book) -> usize {
    book.index().heap().heap_len()
}

/// What a call answers, and how many entries it threw away: those before it and those it pushed,
/// less those after it.
fn with_thrown<A>(book: &mut Book, pushed: usize, call: impl FnOnce(&mut Book) -> A) -> (A, usize) {
    let before = entries(book);
    let answer = call(book);
    (answer, before + pushed - entries(book))
}

#[test]
fn renumbering_keeps_the_order_of_equal_scores() {
    let mut heap = LazyMinHeap::new();
    heap.set_seq(u64::MAX - 2);
    heap.update('a', 5);
    heap.update('b', 5);
    assert_eq!(heap.seq(), u64::MAX);
    heap.update('c', 5);
    assert_eq!(heap.seq(), 3);

    let popped: Vec<_> = std::iter::from_fn(|| heap.pop_best()).collect();
    assert_eq!(popped, [('a', 5), ('b', 5), ('c', 5)]);
}

#[test]
fn clear_keeps_the_sequence_number() {
    let mut book = book(2);
    book.index_mut().heap_mut().set_seq(40);
    book.insert_with_ttl(7, 70, ms(1));
    book.clear();
    assert_eq!(book.index().heap().seq(), 41);
    assert_eq!(entries(&book), 0);
}

#[test]
fn b1_empty() {
    let mut book = book(2);
    assert_eq!(book.get(&7), None);
    assert_eq!(book.purge_expired(), 0);
    assert_eq!(next_due(&mut book), None);
}

#[test]
fn b2_a_deadline_comes_due() {
    let mut book = book(2);
    book.clock().set(1000);
    book.insert_with_ttl(7, 70, Duration::from_secs(2));
    book.clock().set(2999);
    assert_eq!(live(&book, 7), (1, 3000));
    book.clock().set(3000);
    assert_eq!(book.ttl_status(&7), TtlStatus::Expired);
    assert_eq!(book.get(&7), None);
    assert_eq!(book.expirations(), 1);
    assert_eq!(book.ttl_status(&7), TtlStatus::Missing);
}

#[test]
fn b3_the_clock_goes_back() {
    let mut book = book(2);
    book.clock().set(1000);
    book.insert_with_ttl(7, 70, Duration::from_secs(2));
    book.clock().set(500);
    assert_eq!(live(&book, 7), (2500, 3000));
}

#[test]
fn b4_an_equal_deadline_set_again_comes_later() {
    let mut book = book(2);
    for key in [7, 8, 7] {
        book.insert_with_ttl(key, 0, ms(3000));
    }
    assert_eq!(with_thrown(&mut book, 0, next_due), (Some((8, 3000)), 1));
    assert_eq!(entries(&book), 2);
    assert_eq!(book.index().len(), 2);
}

#[test]
fn b5_the_third_setting_rebuilds() {
    let mut book = book(2);
    book.insert_with_ttl(7, 70, ms(1));
    book.insert_with_ttl(7, 71, ms(2));
    let third = with_thrown(&mut book, 1, |book| book.insert_with_ttl(7, 72, ms(3)));
    assert_eq!(third, (Some(71), 2));
    assert_eq!(entries(&book), 1);
}

#[test]
fn b6_an_evicted_key_keeps_its_deadline() {
    let mut book = book(1);
    book.insert_with_ttl(7, 70, ms(5));
    book.insert_with_ttl(8, 80, ms(100));
    book.clock().set(10);
    assert_eq!(book.live_len(), 0);
    assert_eq!(live(&book, 8), (90, 100));
    assert_eq!(book.purge_expired(), 1);
    assert_eq!(book.live_len(), 1);
}

#[test]
fn b7_the_third_setting_renumbers() {
    let mut book = book(3);
    book.index_mut().heap_mut().set_seq(18446744073709551613);
    book.insert_with_ttl(7, 70, ms(100));
    book.insert_with_ttl(8, 80, ms(100));
    let third = with_thrown(&mut book, 1, |book| book.insert_with_ttl(9, 90, ms(100)));
    assert_eq!(third, (None, 0));
    assert_eq!(book.index().heap().seq(), 3);
    assert_eq!(next_due(&mut book), Some((7, 100)));
}

#[test]
fn b8_less_than_a_tick_is_not_zero() {
    let under_a_tick = Duration::from_nanos(999_999);
    let mut book = book(2);
    book.clock().set(50);
    book.insert_with_ttl(7, 70, under_a_tick);
    assert_eq!(book.len(), 1);
    assert_eq!(book.ttl_status(&7), TtlStatus::Expired);

    book.insert(8, 80);
    assert_eq!(book.ttl_status(&8), TtlStatus::Immortal);
    assert!(!book.set_ttl(&8, under_a_tick));
    assert_eq!(book.ttl_status(&8), TtlStatus::Missing);
}

#[test]
fn b9_capacity_zero_still_sets_a_deadline() {
    let mut book: Book = Expiring::with_default_ttl(FastLru::new(0), MockClock::new(), Some(ms(5)));
    assert_eq!(book.insert(7, 70), None);
    assert_eq!(book.len(), 0);
    assert_eq!(next_due(&mut book), Some((7, 5)));
}

#[test]
fn b10_deadlines_stop_short_of_the_last_tick() {
    let longest = Duration::new(18446744073709551, 615_000_000);
    for lifetime in [longest, longest + ms(1)] {
        let mut book = book(2);
        book.insert_with_ttl(7, 70, lifetime);
        assert_eq!(live(&book, 7).1, u64::MAX - 1);
    }
}

#[test]
fn b12_the_least_recent_key_is_pushed_out() {
    let mut list = FastLru::new(2);
    list.insert(1, 10);
    list.insert(2, 20);
    list.get(&1);
    list.insert(3, 30);
    assert!(!list.contains(&2));
    assert_eq!(list.recency_rank(&3), Some(0));
    assert_eq!(list.recency_rank(&1), Some(1));
}
