//! Words between guards, which are looked at after every call.

pub const GUARD: u64 = 0xa5a5_5a5a_c3c3_3c3c;
const GUARDS: usize = 64;

pub struct Guarded {
    all: Vec<u64>,
}

impl Guarded {
    pub fn new(words: &[u64]) -> Self {
        let guards = [GUARD; GUARDS];
        Self {
            all: [&guards, words, &guards].concat(),
        }
    }

    pub fn lent(&mut self) -> &mut [u64] {
        let end = self.all.len() - GUARDS;
        &mut self.all[GUARDS..end]
    }

    pub fn assert_guards(&self) {
        let (before, rest) = self.all.split_at(GUARDS);
        let after = &rest[rest.len() - GUARDS..];
        assert!(before.iter().chain(after).all(|&word| word == GUARD));
    }
}
