//! The proved index and the Rust's, call by call: answers, discarded counts, both lengths and the
//! next sequence number.

use cachekit::ds::expiration_index as rust;
use proved::expiration_index::{Call, ExpirationIndex, Reply};
use proved::replay::Answer;

pub struct Beside {
    proved: ExpirationIndex,
    rust: rust::ExpirationIndex<u64>,
    limit: u64,
    pub tally: Tally,
}

/// How often the rare things happened.
#[derive(Clone, Copy, Debug, Default)]
pub struct Tally {
    pub calls: u64,
    /// New keys beyond the limit. The Rust has none, so it is not called.
    pub full: u64,
    /// Calls that discarded entries.
    pub discards: u64,
    /// Settings that numbered all entries anew.
    pub renumberings: u64,
    /// Deadlines that were popped.
    pub popped: u64,
    /// Pops of an index whose next deadline had not come.
    pub early: u64,
}

impl std::ops::AddAssign for Tally {
    fn add_assign(&mut self, other: Self) {
        self.calls += other.calls;
        self.full += other.full;
        self.discards += other.discards;
        self.renumberings += other.renumberings;
        self.popped += other.popped;
        self.early += other.early;
    }
}

impl Beside {
    pub fn new(limit: u64, seq: u64) -> Self {
        let mut rust = rust::ExpirationIndex::new();
        rust.heap_mut().set_seq(seq);
        Self {
            proved: ExpirationIndex::new(limit, seq),
            rust,
            limit,
            tally: Tally::default(),
        }
    }

    pub fn call(&mut self, call: Call) {
        let replies = self.proved.replay(&[call, Call::Len, Call::HeapLen]);
        let seq = self.rust.heap().seq();
        let reply = self.rust_reply(call);
        let number = |n: usize| (Answer::Number(n as u64), 0);
        let lengths = [number(self.rust.len()), number(self.rust.heap().heap_len())];
        assert_eq!(replies[0], reply, "{call:?}");
        assert_eq!(replies[1..], lengths, "after {call:?}");
        let next_seq = self.rust.heap().seq();
        assert_eq!(self.proved.seq(), next_seq, "after {call:?}");

        let (answer, discarded) = reply;
        self.tally.calls += 1;
        self.tally.full += u64::from(answer == Answer::Refused(4));
        self.tally.discards += u64::from(0 < discarded);
        match (call, answer) {
            (Call::SetDeadline(..), _) => {
                self.tally.renumberings += u64::from(next_seq < seq);
            }
            (Call::PopExpired(_), Answer::Pair(..)) => self.tally.popped += 1,
            (Call::PopExpired(_), _) if !self.rust.is_empty() => self.tally.early += 1,
            _ => {}
        }
    }

    /// Takes every key out, the next due first.
    pub fn drain(&mut self) {
        while !self.rust.is_empty() {
            self.call(Call::PopExpired(u64::MAX));
        }
        self.call(Call::PopExpired(u64::MAX));
        self.call(Call::IsEmpty);
        self.call(Call::Check);
    }

    /// The Rust counts no discarded entries: they are those that it had and pushed, less those that
    /// it took and has. A `clear` counts those that were not live.
    fn rust_reply(&mut self, call: Call) -> Reply {
        let limit = self.limit as usize;
        let rust = &mut self.rust;
        let (had, held) = (rust.heap().heap_len(), rust.len());
        let mut pushed = 0;
        let mut taken = 0;
        let answer = match call {
            Call::Open(..) => panic!("an index is opened once"),
            Call::SetDeadline(key, _) if held == limit && !rust.contains(&key) => {
                Answer::Refused(4)
            }
            Call::SetDeadline(key, deadline) => {
                pushed = 1;
                Answer::from_number(rust.set_deadline(key, deadline))
            }
            Call::Remove(key) => Answer::from_number(rust.remove(&key)),
            Call::NextDeadline => {
                let next = rust.next_deadline();
                Answer::from_pair(next.map(|(&key, deadline)| (key, deadline)))
            }
            Call::PopExpired(tick) => {
                let popped = rust.pop_expired(tick);
                taken = usize::from(popped.is_some());
                Answer::from_pair(popped)
            }
            Call::Clear => {
                rust.clear();
                taken = held;
                Answer::Done
            }
            Call::DeadlineOf(key) => Answer::from_number(rust.deadline_of(&key)),
            Call::Contains(key) => Answer::from_bool(rust.contains(&key)),
            Call::ExpiredCount(tick) => {
                let expired = |&(_, deadline): &(&u64, u64)| deadline <= tick;
                Answer::Number(rust.iter().filter(expired).count() as u64)
            }
            Call::Len => Answer::Number(rust.len() as u64),
            Call::IsEmpty => Answer::from_bool(rust.is_empty()),
            Call::HeapLen => Answer::Number(rust.heap().heap_len() as u64),
            Call::Check => Answer::Yes,
            Call::Other(_) => Answer::Unknown,
        };
        let discarded = had + pushed - taken - self.rust.heap().heap_len();
        (answer, discarded as u64)
    }
}
