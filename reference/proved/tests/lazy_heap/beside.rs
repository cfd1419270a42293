//! The proved heap and the Rust's, call by call: answers, discarded counts, both lengths and the
//! next sequence number.

use cachekit::ds::lazy_heap as rust;
use proved::lazy_heap::{Call, LazyMinHeap, MAX_FACTOR, Reply};
use proved::replay::Answer;

pub struct Beside {
    proved: LazyMinHeap,
    rust: rust::LazyMinHeap<u64, u64>,
    limit: u64,
    pub tally: Tally,
}

/// How often the rare things happened.
#[derive(Clone, Copy, Debug, Default)]
pub struct Tally {
    pub calls: u64,
    /// New keys beyond the limit. The Rust has none, so it is not called.
    pub full: u64,
    /// Calls that discarded entries.
    pub discards: u64,
    /// Updates that numbered all entries anew.
    pub renumberings: u64,
    /// Pops and peeks that passed a stale entry.
    pub stale: u64,
}

impl std::ops::AddAssign for Tally {
    fn add_assign(&mut self, other: Self) {
        self.calls += other.calls;
        self.full += other.full;
        self.discards += other.discards;
        self.renumberings += other.renumberings;
        self.stale += other.stale;
    }
}

impl Beside {
    pub fn new(limit: u64, factor: u64, seq: u64) -> Self {
        let mut rust = rust::LazyMinHeap::with_auto_rebuild(factor as usize);
        rust.set_seq(seq);
        Self {
            proved: LazyMinHeap::new(limit, factor, seq),
            rust,
            limit,
            tally: Tally::default(),
        }
    }

    /// Raises the next number of both, so that a renumbering is near.
    pub fn raise_seq(&mut self, seq: u64) {
        if self.rust.seq() < seq {
            self.rust.set_seq(seq);
            self.proved.set_seq(seq);
        }
    }

    pub fn call(&mut self, call: Call) {
        let replies = self.proved.replay(&[call, Call::Len, Call::HeapLen]);
        let seq = self.rust.seq();
        let reply = self.rust_reply(call);
        let number = |n: usize| (Answer::Number(n as u64), 0);
        let lengths = [number(self.rust.len()), number(self.rust.heap_len())];
        assert_eq!(replies[0], reply, "{call:?}");
        assert_eq!(replies[1..], lengths, "after {call:?}");
        assert_eq!(self.proved.seq(), self.rust.seq(), "after {call:?}");

        let (answer, discarded) = reply;
        self.tally.calls += 1;
        self.tally.full += u64::from(answer == Answer::Refused(4));
        self.tally.discards += u64::from(0 < discarded);
        match call {
            Call::Update(..) if self.rust.seq() < seq => self.tally.renumberings += 1,
            Call::PopBest | Call::PeekBest if 0 < discarded => self.tally.stale += 1,
            _ => {}
        }
    }

    /// Takes every key out, best first.
    pub fn drain(&mut self) {
        while !self.rust.is_empty() {
            self.call(Call::PopBest);
        }
        self.call(Call::PopBest);
        self.call(Call::IsEmpty);
    }

    /// The Rust counts no discarded entries: they are those that it had and pushed, less those that
    /// it took and has. A `clear` counts those that were not live.
    fn rust_reply(&mut self, call: Call) -> Reply {
        let limit = self.limit as usize;
        let rust = &mut self.rust;
        let (had, held) = (rust.heap_len(), rust.len());
        let mut pushed = 0;
        let mut taken = 0;
        let answer = match call {
            Call::Open(..) => panic!("a heap is opened once"),
            Call::Update(key, _) if held == limit && rust.score_of(&key).is_none() => {
                Answer::Refused(4)
            }
            Call::Update(key, score) => {
                pushed = 1;
                Answer::from_number(rust.update(key, score))
            }
            Call::SetAutoRebuild(factor) | Call::MaybeRebuild(factor) if MAX_FACTOR < factor => {
                Answer::Refused(5)
            }
            Call::SetAutoRebuild(factor) => {
                rust.set_auto_rebuild(Some(factor as usize));
                Answer::Done
            }
            Call::MaybeRebuild(factor) => {
                rust.maybe_rebuild(factor as usize);
                Answer::Done
            }
            Call::Remove(key) => Answer::from_number(rust.remove(&key)),
            Call::PopBest => {
                let best = rust.pop_best();
                taken = usize::from(best.is_some());
                Answer::from_pair(best)
            }
            Call::PeekBest => {
                let best = rust.peek_best();
                Answer::from_pair(best.map(|(&key, &score)| (key, score)))
            }
            Call::Rebuild => {
                rust.rebuild();
                Answer::Done
            }
            Call::RenumberSeqs => {
                rust.renumber_seqs();
                Answer::Done
            }
            Call::Clear => {
                rust.clear();
                taken = held;
                Answer::Done
            }
            Call::AutoRebuildFactor => {
                Answer::from_number(rust.auto_rebuild_factor().map(|factor| factor as u64))
            }
            Call::ScoreOf(key) => Answer::from_number(rust.score_of(&key).copied()),
            Call::Len => Answer::Number(rust.len() as u64),
            Call::IsEmpty => Answer::from_bool(rust.is_empty()),
            Call::HeapLen => Answer::Number(rust.heap_len() as u64),
            Call::Check => Answer::Yes,
            Call::CountAtMost(score) => {
                let at_most = |&(_, &held): &(&u64, &u64)| held <= score;
                Answer::Number(rust.iter().filter(at_most).count() as u64)
            }
            Call::Other(_) => Answer::Unknown,
        };
        let discarded = had + pushed - taken - self.rust.heap_len();
        (answer, discarded as u64)
    }
}
