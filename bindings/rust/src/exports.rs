//! The functions of crates/hailtansy, and the only unsafe code of this package.
//!
//! Every call below is sound for the same reason. A function of the library has no condition on
//! what it is handed: its contract holds for any numbers and words, and its proof says that it
//! reads and writes the slices that it is lent and nothing else, within their lengths. What is left
//! to the caller is what a slice is, an address that is aligned and not null with so many words
//! behind it, and that no slice that may be written overlaps another. Rust's references say both.
//! The library is built by `bindings/library` from the sources that it proves; each declaration here
//! repeats one of crates/hailtansy/src, where a slice is passed as its address and its length.

/// Four words: a code, two numbers that depend on it, and how many entries were discarded.
pub type Answer = [u64; 4];

pub type Numbers = [u64; crate::NUMBERS];

unsafe extern "C" {
    fn hailtansy_open(
        numbers: *mut u64,
        numbers_len: usize,
        words: *mut u64,
        words_len: usize,
        capacity: u64,
        deadlines: u64,
        seq: u64,
        given: u64,
        secs: u64,
        nanos: u64,
        answer: *mut u64,
        answer_len: usize,
    ) -> u64;
    fn hailtansy_check(
        numbers: *const u64,
        numbers_len: usize,
        words: *const u64,
        words_len: usize,
    ) -> u64;
    fn hailtansy_replay(
        numbers: *mut u64,
        numbers_len: usize,
        words: *mut u64,
        words_len: usize,
        calls: *const u64,
        calls_len: usize,
        answers: *mut u64,
        answers_len: usize,
    ) -> u64;
}

/// Capacity, limit of deadlines, first sequence number, whether there is a default lifetime, its
/// seconds and its nanoseconds.
pub fn open(numbers: &mut Numbers, words: &mut [u64], opening: [u64; 6]) -> Answer {
    let mut answer = Answer::default();
    let [capacity, deadlines, seq, given, secs, nanos] = opening;
    // SAFETY: as the module says.
    let ran = unsafe {
        hailtansy_open(
            numbers.as_mut_ptr(),
            numbers.len(),
            words.as_mut_ptr(),
            words.len(),
            capacity,
            deadlines,
            seq,
            given,
            secs,
            nanos,
            answer.as_mut_ptr(),
            answer.len(),
        )
    };
    debug_assert_eq!(ran, 1);
    answer
}

pub fn check(numbers: &Numbers, words: &[u64]) -> bool {
    // SAFETY: as the module says.
    let is_book =
        unsafe { hailtansy_check(numbers.as_ptr(), numbers.len(), words.as_ptr(), words.len()) };
    is_book == 1
}

/// Says how many calls ran.
pub fn replay(
    numbers: &mut Numbers,
    words: &mut [u64],
    calls: &[[u64; 6]],
    answers: &mut [Answer],
) -> u64 {
    let calls = calls.as_flattened();
    let answers = answers.as_flattened_mut();
    // SAFETY: as the module says.
    unsafe {
        hailtansy_replay(
            numbers.as_mut_ptr(),
            numbers.len(),
            words.as_mut_ptr(),
            words.len(),
            calls.as_ptr(),
            calls.len(),
            answers.as_mut_ptr(),
            answers.len(),
        )
    }
}

/// Calls that may change the book: what the clock reads, and then numbers.
macro_rules! changes {
    ($($call:ident is $exported:ident($($argument:ident),*))*) => {
        unsafe extern "C" {
            $(fn $exported(
                numbers: *mut u64,
                numbers_len: usize,
                words: *mut u64,
                words_len: usize,
                $($argument: u64,)*
                answer: *mut u64,
                answer_len: usize,
            ) -> u64;)*
        }

        $(pub fn $call(numbers: &mut Numbers, words: &mut [u64], $($argument: u64),*) -> Answer {
            let mut answer = Answer::default();
            // SAFETY: as the module says.
            let ran = unsafe {
                $exported(
                    numbers.as_mut_ptr(),
                    numbers.len(),
                    words.as_mut_ptr(),
                    words.len(),
                    $($argument,)*
                    answer.as_mut_ptr(),
                    answer.len(),
                )
            };
            debug_assert_eq!(ran, 1);
            answer
        })*
    };
}

/// Calls that look, and change nothing.
macro_rules! looks {
    ($($call:ident is $exported:ident($($argument:ident),*))*) => {
        unsafe extern "C" {
            $(fn $exported(
                numbers: *const u64,
                numbers_len: usize,
                words: *const u64,
                words_len: usize,
                $($argument: u64,)*
                answer: *mut u64,
                answer_len: usize,
            ) -> u64;)*
        }

        $(pub fn $call(numbers: &Numbers, words: &[u64], $($argument: u64),*) -> Answer {
            let mut answer = Answer::default();
            // SAFETY: as the module says.
            let ran = unsafe {
                $exported(
                    numbers.as_ptr(),
                    numbers.len(),
                    words.as_ptr(),
                    words.len(),
                    $($argument,)*
                    answer.as_mut_ptr(),
                    answer.len(),
                )
            };
            debug_assert_eq!(ran, 1);
            answer
        })*
    };
}

changes! {
    get is hailtansy_get(now, key)
    insert is hailtansy_insert(now, key, value)
    insert_with_ttl is hailtansy_insert_with_ttl(now, key, value, secs, nanos)
    remove is hailtansy_remove(now, key)
    clear is hailtansy_clear(now)
    set_ttl is hailtansy_set_ttl(now, key, secs, nanos)
    purge_expired is hailtansy_purge_expired(now)
    next_deadline is hailtansy_next_deadline(now)
    touch is hailtansy_touch(now, key)
    pop_lru is hailtansy_pop_lru(now)
}

looks! {
    contains is hailtansy_contains(now, key)
    peek is hailtansy_peek(now, key)
    ttl_status is hailtansy_ttl_status(now, key)
    recency_rank is hailtansy_recency_rank(now, key)
    live_len is hailtansy_live_len(now)
    expirations is hailtansy_expirations(now)
    peek_lru is hailtansy_peek_lru(now)
}
