//! The exported functions of the `replay_` crates, and the only unsafe code of this library.

macro_rules! replays {
    ($($safe:ident is $exported:ident)*) => {
        // A slice is passed as its address and its length.
        unsafe extern "C" {
            $(fn $exported(
                numbers: *mut u64,
                numbers_len: usize,
                words: *mut u64,
                words_len: usize,
                calls: *const u64,
                calls_len: usize,
                answers: *mut u64,
                answers_len: usize,
            ) -> u64;)*
        }

        $(
            /// Runs calls on a layer's words and numbers, and says how many it ran.
            pub fn $safe(
                numbers: &mut [u64],
                words: &mut [u64],
                calls: &[u64],
                answers: &mut [u64],
            ) -> u64 {
                // SAFETY: the function asks nothing of its caller but slices, and its proof says
                // that it touches nothing else. Rust's borrows keep the four apart.
                unsafe {
                    $exported(
                        numbers.as_mut_ptr(),
                        numbers.len(),
                        words.as_mut_ptr(),
                        words.len(),
                        calls.as_ptr(),
                        calls.len(),
                        answers.as_mut_ptr(),
                        answers.len(),
                    )
                }
            }
        )*
    };
}

replays! {
    linked_hash_map is linked_hash_map_replay
    fast_lru is fast_lru_replay
    lazy_heap is lazy_heap_replay
    expiration_index is expiration_index_replay
    expiring is expiring_replay
    open_expiring is expiring_open
}

unsafe extern "C" {
    fn expiring_check(
        numbers: *const u64,
        numbers_len: usize,
        words: *const u64,
        words_len: usize,
    ) -> u64;
}

/// 1 where words and numbers form a book, otherwise 0.
pub fn check_expiring(numbers: &[u64], words: &[u64]) -> u64 {
    // SAFETY: as above.
    unsafe { expiring_check(numbers.as_ptr(), numbers.len(), words.as_ptr(), words.len()) }
}
