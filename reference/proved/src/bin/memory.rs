//! The bytes of a book beside those of the Rust's with the same contents, as they are asked of the
//! allocator: what it needs itself to keep blocks apart is not counted.

use cachekit::policy::expiring::Expiring;
use cachekit::policy::fast_lru::FastLru;
use cachekit::time::MockClock;
use cachekit::traits::{Cache, ExpiringCache};
use hailtansy::{Book, NUMBERS, Opening};
use std::alloc::{GlobalAlloc, Layout, System};
use std::sync::atomic::{AtomicUsize, Ordering::Relaxed};
use std::time::Duration;

struct Counting;

static LIVE: AtomicUsize = AtomicUsize::new(0);
static PEAK: AtomicUsize = AtomicUsize::new(0);

#[global_allocator]
static ALLOCATOR: Counting = Counting;

fn add(bytes: usize) {
    PEAK.fetch_max(LIVE.fetch_add(bytes, Relaxed) + bytes, Relaxed);
}

fn subtract(bytes: usize) {
    LIVE.fetch_sub(bytes, Relaxed);
}

// SAFETY: all is left to the system's allocator.
unsafe impl GlobalAlloc for Counting {
    unsafe fn alloc(&self, layout: Layout) -> *mut u8 {
        add(layout.size());
        unsafe { System.alloc(layout) }
    }

    unsafe fn dealloc(&self, at: *mut u8, layout: Layout) {
        subtract(layout.size());
        unsafe { System.dealloc(at, layout) }
    }

    /// Counted as a block that grows in place, as the system's does where it can.
    unsafe fn realloc(&self, at: *mut u8, layout: Layout, size: usize) -> *mut u8 {
        subtract(layout.size());
        add(size);
        unsafe { System.realloc(at, layout, size) }
    }
}

const KEYS: u64 = 4096;
const DAY: Duration = Duration::from_secs(86_400);

type RustBook = Expiring<FastLru<u64, u64>, u64, u64, MockClock>;

/// Live bytes and the most that there were, from a start on.
struct Meter {
    start: usize,
}

impl Meter {
    fn new() -> Self {
        let start = LIVE.load(Relaxed);
        PEAK.store(start, Relaxed);
        Self { start }
    }

    fn bytes(&self) -> [usize; 2] {
        [
            LIVE.load(Relaxed) - self.start,
            PEAK.load(Relaxed) - self.start,
        ]
    }
}

/// What a book takes when it is opened: its words and numbers. It never allocates again.
fn proved() -> usize {
    let meter = Meter::new();
    let mut book = Book::open(Opening::new(KEYS, KEYS)).expect("limits in range");
    let opened = meter.bytes();
    let mut set = |key| {
        book.insert_with_ttl(0, key, key, DAY)
            .expect("there is room");
    };
    (0..KEYS).chain(0..KEYS).chain(0..1).for_each(&mut set);
    assert_eq!(meter.bytes(), opened);
    let words = 128 + 8 * KEYS as usize + 32 * KEYS as usize;
    assert_eq!(opened, [8 * words; 2]);
    8 * (words + NUMBERS)
}

fn main() {
    let proved = proved();
    println!("| held | proved | Expiring, live | Expiring, peak |");
    println!("|---|---:|---:|---:|");

    let meter = Meter::new();
    let mut rust = RustBook::with_default_ttl(FastLru::new(KEYS as usize), MockClock::new(), None);
    let row = |rust: &RustBook, held: &str| {
        let [live, peak] = meter.bytes().map(|bytes| bytes + size_of_val(rust));
        println!("| {held} | {proved} | {live} | {peak} |");
    };
    row(&rust, "nothing");
    for key in 0..KEYS {
        rust.insert_with_ttl(key, key, DAY);
    }
    row(&rust, "4,096 values, each with a deadline");
    for key in 0..KEYS {
        rust.set_ttl(&key, DAY);
    }
    assert_eq!(rust.index().heap().heap_len() as u64, 2 * KEYS);
    row(&rust, "the same, and 4,096 stale entries");
    rust.set_ttl(&0, DAY);
    assert_eq!(rust.index().heap().heap_len() as u64, KEYS);
    row(
        &rust,
        "the same, after the next `set_ttl`, which discards these",
    );
    assert_eq!(rust.len() as u64, KEYS);
}
