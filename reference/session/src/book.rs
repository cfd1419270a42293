//! The Rust's `Expiring<FastLru>` as a session sees it: with a starting sequence number, a limit of
//! deadlines, and a count of the entries that each call discards.

use crate::form::{At, Call, Opening};
use cachekit::policy::expiring::Expiring;
use cachekit::policy::fast_lru::FastLru;
use cachekit::time::MockClock;
use cachekit::traits::{Cache, ExpiringCache, TtlStatus};
use std::time::Duration;

/// The largest capacity, and the largest limit of deadlines, that a session may open a book with.
pub const MAX_SIZE: u64 = 128;

#[derive(Clone, Copy, Debug, PartialEq, Eq)]
pub enum Answer {
    None,
    Value(u64),
    Yes,
    No,
    Missing,
    Immortal,
    Expired,
    Live { remaining: u64, deadline: u64 },
    Count(u64),
    Due { key: u64, deadline: u64 },
    Done,
    Refused(u64),
}

impl Answer {
    fn value(value: Option<u64>) -> Self {
        value.map_or(Self::None, Self::Value)
    }

    fn bool(yes: bool) -> Self {
        if yes { Self::Yes } else { Self::No }
    }
}

/// An answer, and the state of the heap after it.
#[derive(Clone, Copy, Debug, PartialEq, Eq)]
pub struct Reply {
    pub answer: Answer,
    /// Document 01's thrown.
    pub discarded: usize,
    pub entries: usize,
    pub held: usize,
}

pub struct Book {
    cache: Expiring<FastLru<u64, u64>, u64, u64, MockClock>,
    limit: usize,
}

impl Book {
    /// Refusals 1 and 3, in this order.
    pub fn open(opening: Opening) -> Result<Self, u64> {
        let Opening {
            capacity, limit, ..
        } = opening;
        if MAX_SIZE < capacity || !(1..=MAX_SIZE).contains(&limit) {
            return Err(1);
        }
        let default_ttl = match opening.default_ttl {
            None => None,
            Some(ttl) => Some(ttl.duration().ok_or(3_u64)?),
        };
        let list = FastLru::new(capacity as usize);
        let mut cache = Expiring::with_default_ttl(list, MockClock::new(), default_ttl);
        cache.index_mut().heap_mut().set_seq(opening.seq);
        Ok(Self {
            cache,
            limit: limit as usize,
        })
    }

    /// The sequence number that the next deadline takes.
    pub fn seq(&self) -> u64 {
        self.cache.index().heap().seq()
    }

    fn entries(&self) -> usize {
        self.cache.index().heap().heap_len()
    }

    /// The Rust counts no discarded entries: they are those that it had and pushed, less those that
    /// it has. A `clear` counts those that were not live.
    pub fn call(&mut self, At(tick, call): At) -> Reply {
        let (had, held, seq) = (self.entries(), self.cache.index().len(), self.seq());
        self.cache.clock().set(tick);
        let answer = match self.answer(call) {
            Ok(answer) => answer,
            Err(number) => return self.refuse(number),
        };
        // Each setting takes a sequence number, also one that numbers all anew.
        let pushed = usize::from(self.seq() != seq);
        let taken = if call == Call::Clear { held } else { 0 };
        self.reply(answer, had + pushed - taken - self.entries())
    }

    pub fn refuse(&self, number: u64) -> Reply {
        self.reply(Answer::Refused(number), 0)
    }

    fn reply(&self, answer: Answer, discarded: usize) -> Reply {
        Reply {
            answer,
            discarded,
            entries: self.entries(),
            held: self.cache.index().len(),
        }
    }

    /// Refusal 4, of a call that would set a deadline: the Rust has no limit.
    fn room_for(&self, key: u64) -> Result<(), u64> {
        let index = self.cache.index();
        if index.len() < self.limit || index.contains(&key) {
            Ok(())
        } else {
            Err(4)
        }
    }

    fn answer(&mut self, call: Call) -> Result<Answer, u64> {
        Ok(match call {
            Call::Insert(key, value) => {
                if self.cache.default_ttl().is_some() {
                    self.room_for(key)?;
                }
                Answer::value(self.cache.insert(key, value))
            }
            Call::InsertWithTtl(key, value, ttl) => {
                let ttl = ttl.duration().ok_or(3_u64)?;
                if !ttl.is_zero() {
                    self.room_for(key)?;
                }
                Answer::value(self.cache.insert_with_ttl(key, value, ttl))
            }
            Call::SetTtl(key, ttl) => {
                let ttl = ttl.duration().ok_or(3_u64)?;
                // One with an expired deadline sets none, but it holds one, so there is room for it.
                if Duration::from_millis(1) <= ttl && self.cache.inner().contains(&key) {
                    self.room_for(key)?;
                }
                Answer::bool(self.cache.set_ttl(&key, ttl))
            }
            Call::Get(key) => Answer::value(self.cache.get(&key).copied()),
            Call::Peek(key) => Answer::value(self.cache.peek(&key).copied()),
            Call::Contains(key) => Answer::bool(self.cache.contains(&key)),
            Call::Remove(key) => Answer::value(self.cache.remove(&key)),
            Call::TtlStatus(key) => match self.cache.ttl_status(&key) {
                TtlStatus::Missing => Answer::Missing,
                TtlStatus::Immortal => Answer::Immortal,
                TtlStatus::Expired => Answer::Expired,
                TtlStatus::Live {
                    remaining,
                    deadline,
                } => Answer::Live {
                    remaining: remaining.as_millis() as u64,
                    deadline: deadline.as_u64(),
                },
            },
            Call::PurgeExpired => Answer::Count(self.cache.purge_expired() as u64),
            Call::NextDeadline => match self.cache.index_mut().next_deadline() {
                None => Answer::None,
                Some((&key, deadline)) => Answer::Due { key, deadline },
            },
            Call::LiveLen => Answer::Count(self.cache.live_len() as u64),
            Call::Clear => {
                self.cache.clear();
                Answer::Done
            }
        })
    }
}
