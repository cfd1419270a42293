//! The proved book and the Rust's, call by call: answers, discarded counts, values stored, deadlines
//! held, entries, the next sequence number and the expirations.

use cachekit::policy::expiring as rust;
use cachekit::policy::fast_lru::FastLru;
use cachekit::time::MockClock;
use cachekit::traits::{Cache, ExpiringCache, TtlStatus};
use proved::expiring::{Call, Expiring, Opening, Reply};
use proved::replay::Answer;

type Book = rust::Expiring<FastLru<u64, u64>, u64, u64, MockClock>;

pub struct Beside {
    proved: Expiring,
    rust: Book,
    limit: usize,
    pub tally: Tally,
}

/// How often the rarer things happened.
#[derive(Clone, Copy, Debug, Default)]
pub struct Tally {
    pub calls: u64,
    /// Deadlines beyond the limit. The Rust has none, so it is not called.
    pub full: u64,
    /// Nanoseconds beyond a second, of which the Rust has no `Duration`.
    pub bad_nanos: u64,
    pub discards: u64,
    pub renumberings: u64,
    pub expirations: u64,
    /// Calls after which more deadlines are held than values stored.
    pub orphans: u64,
    pub live: u64,
}

impl std::ops::AddAssign for Tally {
    fn add_assign(&mut self, other: Self) {
        self.calls += other.calls;
        self.full += other.full;
        self.bad_nanos += other.bad_nanos;
        self.discards += other.discards;
        self.renumberings += other.renumberings;
        self.expirations += other.expirations;
        self.orphans += other.orphans;
        self.live += other.live;
    }
}

impl Beside {
    pub fn new(opening: Opening) -> Self {
        let default_ttl = opening
            .default_ttl
            .map(|ttl| ttl.duration().expect("a duration"));
        let list = FastLru::new(opening.capacity as usize);
        let mut rust = Book::with_default_ttl(list, MockClock::new(), default_ttl);
        rust.index_mut().heap_mut().set_seq(opening.seq);
        Self {
            proved: Expiring::new(opening),
            rust,
            limit: opening.limit as usize,
            tally: Tally::default(),
        }
    }

    pub fn call(&mut self, tick: u64, call: Call) {
        self.rust.clock().set(tick);
        let seq = self.rust.index().heap().seq();
        let expected = self.rust_reply(call);
        let reply = self.proved.call(tick, call);
        assert_eq!(reply, expected, "{call:?} at {tick}");
        self.assert_alike(tick, call);

        let (answer, discarded) = reply;
        let tally = &mut self.tally;
        tally.calls += 1;
        tally.full += u64::from(answer == Answer::Refused(4));
        tally.bad_nanos += u64::from(answer == Answer::Refused(3));
        tally.discards += u64::from(0 < discarded);
        tally.renumberings += u64::from(self.rust.index().heap().seq() < seq);
        tally.expirations = self.rust.expirations();
        tally.orphans += u64::from(self.rust.len() < self.rust.index().len());
        tally.live += u64::from(matches!(answer, Answer::Live(..)));
    }

    fn assert_alike(&self, tick: u64, call: Call) {
        let index = self.rust.index();
        let proved = &self.proved;
        assert_eq!(
            (
                proved.len(),
                proved.held(),
                proved.entries(),
                proved.seq(),
                proved.expirations()
            ),
            (
                self.rust.len() as u64,
                index.len() as u64,
                index.heap().heap_len() as u64,
                index.heap().seq(),
                self.rust.expirations()
            ),
            "after {call:?} at {tick}"
        );
    }

    /// The whole book, by calls that change nothing but entries of the heap.
    pub fn compare(&mut self, tick: u64, keys: &[u64]) {
        assert!(self.proved.check());
        for &key in keys {
            self.call(tick, Call::TtlStatus(key));
            self.call(tick, Call::Peek(key));
            self.call(tick, Call::RecencyRank(key));
        }
        self.call(tick, Call::PeekLru);
        self.call(tick, Call::LiveLen);
        self.call(tick, Call::NextDeadline);
    }

    /// Takes everything out: values oldest first, deadlines as they come due.
    pub fn drain(&mut self, tick: u64) {
        while 0 < self.rust.len() {
            self.call(tick, Call::PopLru);
        }
        self.call(tick, Call::PopLru);
        while let Some((_, deadline)) = self.rust.index_mut().next_deadline() {
            // The same entries are discarded on the other side.
            self.proved.call(tick, Call::NextDeadline);
            self.call(deadline - 1, Call::PurgeExpired);
            self.call(deadline, Call::PurgeExpired);
        }
        self.call(tick, Call::NextDeadline);
        assert!(self.proved.check());
    }

    /// Refusal 4: the call would set a deadline for a key that holds none, with as many as the limit
    /// held.
    fn is_full(&self, key: u64) -> bool {
        let index = self.rust.index();
        index.len() == self.limit && index.deadline_of(&key).is_none()
    }

    /// Refusals 3 and 4, in this order.
    fn refusal(&self, call: Call) -> Option<u64> {
        let ttl = match call.ttl() {
            Some(ttl) => match ttl.duration() {
                Some(duration) => Some(duration),
                None => return Some(3),
            },
            None => None,
        };
        let sets = match call {
            Call::Insert(key, _) => self.rust.default_ttl().is_some() && self.is_full(key),
            Call::InsertWithTtl(key, ..) => {
                ttl.is_some_and(|ttl| !ttl.is_zero()) && self.is_full(key)
            }
            // A key with an expired deadline holds one, so this never meets `is_full`.
            Call::SetTtl(key, _) => {
                let has_ticks = ttl.is_some_and(|ttl| 0 < ttl.as_millis());
                self.rust.inner().contains(&key) && has_ticks && self.is_full(key)
            }
            _ => false,
        };
        sets.then_some(4)
    }

    /// The Rust counts no discarded entries: they are those that it had and pushed, less those that
    /// it has. A `clear` counts those that were not live.
    fn rust_reply(&mut self, call: Call) -> Reply {
        if let Some(number) = self.refusal(call) {
            return (Answer::Refused(number), 0);
        }
        let index = self.rust.index();
        let (had, held, seq) = (index.heap().heap_len(), index.len(), index.heap().seq());
        let answer = self.rust_answer(call);
        let heap = self.rust.index().heap();
        // Each setting takes a sequence number, also one that numbers all anew.
        let pushed = usize::from(heap.seq() != seq);
        let taken = if call == Call::Clear { held } else { 0 };
        let discarded = had + pushed - taken - heap.heap_len();
        (answer, discarded as u64)
    }

    fn rust_answer(&mut self, call: Call) -> Answer {
        let rust = &mut self.rust;
        let ttl = call
            .ttl()
            .and_then(|ttl| ttl.duration())
            .unwrap_or_default();
        match call {
            Call::Insert(key, value) => Answer::from_number(rust.insert(key, value)),
            Call::InsertWithTtl(key, value, _) => {
                Answer::from_number(rust.insert_with_ttl(key, value, ttl))
            }
            Call::Get(key) => Answer::from_number(rust.get(&key).copied()),
            Call::Remove(key) => Answer::from_number(rust.remove(&key)),
            Call::Clear => {
                rust.clear();
                Answer::Done
            }
            Call::SetTtl(key, _) => Answer::from_bool(rust.set_ttl(&key, ttl)),
            Call::PurgeExpired => Answer::Number(rust.purge_expired() as u64),
            Call::NextDeadline => {
                let next = rust.index_mut().next_deadline();
                Answer::from_pair(next.map(|(&key, deadline)| (key, deadline)))
            }
            Call::Touch(key) => Answer::from_bool(rust.inner_mut().touch(&key)),
            Call::PopLru => Answer::from_pair(rust.inner_mut().pop_lru()),
            Call::Contains(key) => Answer::from_bool(rust.contains(&key)),
            Call::Peek(key) => Answer::from_number(rust.peek(&key).copied()),
            Call::TtlStatus(key) => match rust.ttl_status(&key) {
                TtlStatus::Missing => Answer::Missing,
                TtlStatus::Immortal => Answer::Immortal,
                TtlStatus::Expired => Answer::Expired,
                TtlStatus::Live {
                    remaining,
                    deadline,
                } => Answer::Live(remaining.as_millis() as u64, deadline.as_u64()),
            },
            Call::RecencyRank(key) => {
                Answer::from_number(rust.inner().recency_rank(&key).map(|rank| rank as u64))
            }
            Call::LiveLen => Answer::Number(rust.live_len() as u64),
            Call::Expirations => Answer::Number(rust.expirations()),
            Call::PeekLru => {
                let item = rust.inner().peek_lru();
                Answer::from_pair(item.map(|(&key, &value)| (key, value)))
            }
        }
    }
}
