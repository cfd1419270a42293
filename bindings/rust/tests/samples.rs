//! The scope document's samples B1 to B12. What is expected here is written there.

use hailtansy::{Book, Opening, Refusal, TtlStatus};
use std::time::Duration;

const TWO_SECONDS: Duration = Duration::from_secs(2);

/// C 2, D 4, sequence 0, no default.
fn book() -> Book {
    open(Opening::new(2, 4))
}

fn open(opening: Opening) -> Book {
    Book::open(opening).expect("the samples' openings are accepted")
}

fn live(remaining: u64, deadline: u64) -> TtlStatus {
    TtlStatus::Live {
        remaining: Duration::from_millis(remaining),
        deadline,
    }
}

#[test]
fn b1_empty() {
    let mut book = book();
    assert_eq!(book.get(0, 7), None);
    assert_eq!(book.purge_expired(0), 0);
    assert_eq!(book.next_deadline(0), None);
}

#[test]
fn b2_expires_at_its_deadline() {
    let mut book = book();
    assert_eq!(book.insert_with_ttl(1000, 7, 70, TWO_SECONDS), Ok(None));
    assert_eq!(book.ttl_status(2999, 7), live(1, 3000));
    assert_eq!(book.ttl_status(3000, 7), TtlStatus::Expired);
    assert_eq!(book.get(3000, 7), None);
    assert_eq!(book.expirations(3000), 1);
    assert_eq!(book.ttl_status(3000, 7), TtlStatus::Missing);
}

#[test]
fn b3_the_clock_goes_back() {
    let mut book = book();
    assert_eq!(book.insert_with_ttl(1000, 7, 70, TWO_SECONDS), Ok(None));
    assert_eq!(book.ttl_status(500, 7), live(2500, 3000));
}

#[test]
fn b4_a_stale_entry_is_discarded() {
    let mut book = book();
    for key in [7, 8, 7] {
        book.insert_with_ttl(1000, key, 10 * key, TWO_SECONDS)
            .expect("there is room");
    }
    assert_eq!(book.next_deadline(1000), Some((8, 3000)));
    assert_eq!(book.discarded(), 1);
    assert_eq!(book.heap_len(), 2);
    assert_eq!(book.deadlines_held(), 2);
}

#[test]
fn b5_the_third_setting_rebuilds() {
    let mut book = book();
    let discarded = [1, 2, 3].map(|_| {
        book.insert_with_ttl(1000, 7, 70, TWO_SECONDS)
            .expect("there is room");
        book.discarded()
    });
    assert_eq!(discarded, [0, 0, 2]);
    assert_eq!(book.heap_len(), 1);
}

#[test]
fn b6_a_key_pushed_out_keeps_its_deadline() {
    let mut book = open(Opening::new(1, 4));
    assert_eq!(
        book.insert_with_ttl(0, 7, 70, Duration::from_millis(5)),
        Ok(None)
    );
    assert_eq!(
        book.insert_with_ttl(0, 8, 80, Duration::from_millis(100)),
        Ok(None)
    );
    assert_eq!(book.live_len(10), 0);
    assert_eq!(book.ttl_status(10, 8), live(90, 100));
    assert_eq!(book.purge_expired(10), 1);
    assert_eq!(book.live_len(10), 1);
}

#[test]
fn b7_renumbering_keeps_the_order() {
    let mut book = open(Opening::new(3, 4).seq(18446744073709551613));
    for key in [7, 8, 9] {
        book.insert_with_ttl(0, key, 10 * key, Duration::from_millis(100))
            .expect("there is room");
    }
    assert_eq!(book.next_deadline(0), Some((7, 100)));
}

#[test]
fn b8_less_than_a_millisecond() {
    let little = Duration::from_nanos(999_999);
    let mut book = book();
    assert_eq!(book.insert_with_ttl(50, 7, 70, little), Ok(None));
    assert_eq!(book.len(), 1);
    assert_eq!(book.ttl_status(50, 7), TtlStatus::Expired);

    assert_eq!(book.insert(50, 8, 80), Ok(None));
    assert_eq!(book.ttl_status(50, 8), TtlStatus::Immortal);
    assert_eq!(book.set_ttl(50, 8, little), Ok(false));
    assert_eq!(book.ttl_status(50, 8), TtlStatus::Missing);
}

#[test]
fn b9_capacity_0_with_a_default() {
    let mut book = open(Opening::new(0, 4).default_ttl(Duration::from_millis(5)));
    assert_eq!(book.insert(0, 7, 70), Ok(None));
    assert!(book.is_empty());
    assert_eq!(book.next_deadline(0), Some((7, 5)));
}

#[test]
fn b10_deadlines_are_capped() {
    for nanos in [615_000_000, 616_000_000] {
        let mut book = book();
        let longest = Duration::new(18446744073709551, nanos);
        assert_eq!(book.insert_with_ttl(0, 7, 70, longest), Ok(None));
        assert_eq!(book.next_deadline(0), Some((7, u64::MAX - 1)));
    }
}

#[test]
fn b11_the_limit_of_deadlines() {
    let mut book = open(Opening::new(2, 1));
    assert_eq!(book.insert_with_ttl(0, 7, 70, TWO_SECONDS), Ok(None));
    let refused = book.insert_with_ttl(0, 8, 80, TWO_SECONDS);
    assert_eq!(refused, Err(Refusal::KeyLimitReached));
    assert_eq!(refused.map_err(Refusal::number), Err(4));
    assert_eq!(book.insert_with_ttl(0, 7, 71, TWO_SECONDS), Ok(Some(70)));
    assert_eq!(book.remove(0, 7), Some(71));
    assert_eq!(book.insert_with_ttl(0, 8, 80, TWO_SECONDS), Ok(None));
}

#[test]
fn b12_the_least_recent_is_pushed_out() {
    let mut book = book();
    assert_eq!(book.insert(0, 1, 10), Ok(None));
    assert_eq!(book.insert(0, 2, 20), Ok(None));
    assert_eq!(book.get(0, 1), Some(10));
    assert_eq!(book.insert(0, 3, 30), Ok(None));
    assert!(!book.contains(0, 2));
    assert_eq!(book.recency_rank(0, 3), Some(0));
    assert_eq!(book.recency_rank(0, 1), Some(1));
}

/// "C > 4,096, or D outside 1..4,096", and then "fewer words than 128 + 8C + 32D".
#[test]
fn openings_are_turned_back() {
    for (capacity, deadlines) in [(4097, 1), (u64::MAX, 1), (2, 0), (2, 4097), (2, u64::MAX)] {
        let refused = Book::open(Opening::new(capacity, deadlines)).err();
        assert_eq!(refused.map(Refusal::number), Some(1));
    }
    for (capacity, deadlines) in [(0, 1), (2, 4), (4096, 4096)] {
        let opening = Opening::new(capacity, deadlines);
        let needed = 128 + 8 * capacity as usize + 32 * deadlines as usize;
        let refused = Book::open_in(opening, vec![0; needed - 1]).err();
        assert_eq!(refused.map(Refusal::number), Some(2));
        assert!(Book::open_in(opening, vec![u64::MAX; needed]).is_ok());
        assert_eq!(opening.words_len(), Some(needed));
    }
}
