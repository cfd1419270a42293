//! Lists of any length: as many calls run as have room for an answer, and no other word is written.

use crate::shared::guarded::{GUARD, Guarded};
use crate::shared::junk::Junk;
use proved::replay::Call;
use samples::splitmix64::SplitMix64;

/// With operations up to `operations`, on as many words as a capacity or limit takes.
pub fn of_any_length<C: Call>(operations: u64, words_for: fn(u64) -> usize) {
    let mut junk = Junk(SplitMix64(3));
    for _ in 0..20_000 {
        let mut words = Guarded::new(&vec![7; words_for(junk.below(4))]);
        let mut numbers: Vec<u64> = vec![GUARD; junk.below(C::NUMBERS as u64 + 3) as usize];
        let calls: Vec<u64> = (0..junk.below(40))
            .map(|_| junk.below(operations + 1))
            .collect();
        let mut answers = Guarded::new(&vec![GUARD; junk.below(40) as usize]);

        let ran = C::replay(&mut numbers, words.lent(), &calls, answers.lent());
        words.assert_guards();
        answers.assert_guards();
        let are_few = numbers.len() < C::NUMBERS;
        let room = calls.len().min(answers.lent().len()) / 4;
        let expected = if are_few { 0 } else { room };
        assert_eq!(ran as usize, expected);
        let (written, past) = answers.lent().split_at(4 * expected);
        assert!(written.chunks(4).all(|answer| answer[0] != GUARD));
        assert!(past.iter().all(|&word| word == GUARD));
        assert!(numbers.iter().skip(C::NUMBERS).all(|&n| n == GUARD));
        if are_few {
            assert!(numbers.iter().all(|&number| number == GUARD));
            assert!(words.lent().iter().all(|&word| word == 7));
        }
    }
}
