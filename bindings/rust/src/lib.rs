//! An expiring recency cache in proved code: cachekit's `Expiring<FastLru>` for `u64` keys and
//! values.
//!
//! A [`Book`] keeps up to 4,096 keys with a value each and pushes out the least recently used; up
//! to 4,096 keys hold a deadline. A tick is one millisecond of the caller's own clock. Each call is
//! told what the clock reads, `now`, and the clock may go back.
//!
//! ```
//! use hailtansy::{Book, Opening, TtlStatus};
//! use std::time::Duration;
//!
//! let mut book = Book::open(Opening::new(4, 8))?;
//! book.insert_with_ttl(1000, 7, 70, Duration::from_secs(2))?;
//! assert_eq!(book.get(2999, 7), Some(70));
//! assert_eq!(
//!     book.ttl_status(2999, 7),
//!     TtlStatus::Live { remaining: Duration::from_millis(1), deadline: 3000 }
//! );
//! assert_eq!(book.get(3000, 7), None);
//! assert_eq!(book.expirations(3000), 1);
//! # Ok::<(), hailtansy::Refusal>(())
//! ```
//!
//! The calls run in a static library that the Rattle toolchain writes only when it has proved, for
//! every list of calls after an opening, that each answer is that of a plain model of the cache.
//! This crate adds types to it and keeps the book's numbers and words together; its words may be
//! its own or borrowed ([`Words`]), and it allocates nothing after an opening.

#![deny(missing_docs)]
#![deny(unsafe_code)]

#[allow(unsafe_code)]
mod exports;
mod saved;

pub use saved::LoadError;

use exports::{Answer, Numbers};
use std::error::Error;
use std::fmt;
use std::time::Duration;

/// The largest number of keys.
pub const MAX_CAPACITY: u64 = 4096;

/// The largest number of deadlines.
pub const MAX_DEADLINES: u64 = 4096;

/// How many numbers a book has beside its words.
pub const NUMBERS: usize = 12;

// Where some of them stand.
const CAPACITY: usize = 0;
const LEN: usize = 1;
const DEADLINES: usize = 3;
const DEADLINES_HELD: usize = 4;
const ENTRIES: usize = 6;

/// Why a call was turned back. Nothing changes then.
///
/// There is none for a lifetime: the nanoseconds of a [`Duration`] are always below a second.
#[derive(Clone, Copy, Debug, PartialEq, Eq, Hash)]
pub enum Refusal {
    /// A capacity above [`MAX_CAPACITY`], or a limit of deadlines that is 0 or above
    /// [`MAX_DEADLINES`].
    LimitOutOfRange,
    /// Fewer words than the opening needs: [`Opening::words_len`].
    TooFewWords,
    /// The call would set a deadline for a key that holds none, and as many are held as may be.
    KeyLimitReached,
}

impl Refusal {
    /// Its number in the library and in session programs.
    pub fn number(self) -> u64 {
        match self {
            Self::LimitOutOfRange => 1,
            Self::TooFewWords => 2,
            Self::KeyLimitReached => 4,
        }
    }
}

impl fmt::Display for Refusal {
    fn fmt(&self, f: &mut fmt::Formatter<'_>) -> fmt::Result {
        f.write_str(match self {
            Self::LimitOutOfRange => "the capacity or the limit of deadlines is out of range",
            Self::TooFewWords => "there are fewer words than the book needs",
            Self::KeyLimitReached => "as many keys hold a deadline as may",
        })
    }
}

impl Error for Refusal {}

/// How a key's lifetime stands.
#[derive(Clone, Copy, Debug, PartialEq, Eq)]
pub enum TtlStatus {
    /// The key is not stored.
    Missing,
    /// It has no deadline.
    Immortal,
    /// Its deadline has come.
    Expired,
    /// It may be used.
    Live {
        /// For so long.
        remaining: Duration,
        /// Until this tick.
        deadline: u64,
    },
}

/// What a book is opened with.
#[derive(Clone, Copy, Debug, PartialEq, Eq)]
pub struct Opening {
    capacity: u64,
    deadlines: u64,
    seq: u64,
    default_ttl: Option<Duration>,
}

impl Opening {
    /// Room for so many keys, 0 to [`MAX_CAPACITY`], and so many deadlines, 1 to [`MAX_DEADLINES`].
    /// A key that is pushed out keeps its deadline until that is purged, so more deadlines than
    /// keys are of use.
    pub fn new(capacity: u64, deadlines: u64) -> Self {
        Self {
            capacity,
            deadlines,
            seq: 0,
            default_ttl: None,
        }
    }

    /// The lifetime of what [`Book::insert`] stores. Without one that lasts for ever.
    pub fn default_ttl(self, ttl: Duration) -> Self {
        Self {
            default_ttl: Some(ttl),
            ..self
        }
    }

    /// The first sequence number of the deadlines, otherwise 0. No answer depends on it but for
    /// counts of discarded entries.
    pub fn seq(self, seq: u64) -> Self {
        Self { seq, ..self }
    }

    /// How many words the book needs, or none where its limits are out of range.
    ///
    /// ```
    /// # use hailtansy::Opening;
    /// assert_eq!(Opening::new(4, 8).words_len(), Some(128 + 8 * 4 + 32 * 8));
    /// assert_eq!(Opening::new(4, 0).words_len(), None);
    /// ```
    pub fn words_len(self) -> Option<usize> {
        let fits = self.capacity <= MAX_CAPACITY && (1..=MAX_DEADLINES).contains(&self.deadlines);
        fits.then(|| words_len(self.capacity, self.deadlines))
    }

    fn words(self) -> [u64; 6] {
        let given = u64::from(self.default_ttl.is_some());
        let ttl = self.default_ttl.unwrap_or_default();
        [
            self.capacity,
            self.deadlines,
            self.seq,
            given,
            ttl.as_secs(),
            ttl.subsec_nanos().into(),
        ]
    }
}

fn words_len(capacity: u64, deadlines: u64) -> usize {
    128 + 8 * capacity as usize + 32 * deadlines as usize
}

/// Where a book's words are: in a `Vec<u64>`, a `Box<[u64]>`, an array, or borrowed as `&mut [u64]`.
pub trait Words: sealed::Sealed + AsRef<[u64]> + AsMut<[u64]> {}

impl<W: sealed::Sealed + AsRef<[u64]> + AsMut<[u64]>> Words for W {}

mod sealed {
    /// What hands out the same words each time, and to nobody else.
    pub trait Sealed {}

    impl Sealed for Vec<u64> {}
    impl Sealed for Box<[u64]> {}
    impl<const N: usize> Sealed for [u64; N] {}
    impl Sealed for &mut [u64] {}
}

/// An expiring recency cache.
///
/// Its numbers and words form a book from its opening or loading on: the library is proved to keep
/// that, and nobody else can write to them. So a call is refused only where its arguments are a
/// cause, and calls that have no such cause return no `Result`.
#[derive(Clone)]
pub struct Book<W = Vec<u64>> {
    numbers: Numbers,
    words: W,
    discarded: u64,
}

impl Book {
    /// Opens a book in words of its own.
    ///
    /// # Errors
    ///
    /// [`Refusal::LimitOutOfRange`].
    pub fn open(opening: Opening) -> Result<Self, Refusal> {
        // Limits out of range are refused whatever the words.
        Self::open_in(opening, vec![0; opening.words_len().unwrap_or(0)])
    }
}

impl<W: Words> Book<W> {
    /// Opens a book in the words that it is lent, whatever they hold. Words beyond those that it
    /// needs stay as they are.
    ///
    /// ```
    /// use hailtansy::{Book, Opening, Refusal};
    ///
    /// let opening = Opening::new(2, 4);
    /// let mut memory = [0; 272];
    /// let mut book = Book::open_in(opening, &mut memory[..])?;
    /// assert_eq!(book.insert(0, 7, 70), Ok(None));
    ///
    /// let short = Book::open_in(opening, &mut memory[1..]);
    /// assert_eq!(short.err(), Some(Refusal::TooFewWords));
    /// # Ok::<(), Refusal>(())
    /// ```
    ///
    /// # Errors
    ///
    /// [`Refusal::LimitOutOfRange`], and then [`Refusal::TooFewWords`].
    pub fn open_in(opening: Opening, mut words: W) -> Result<Self, Refusal> {
        let mut numbers = Numbers::default();
        let answer = exports::open(&mut numbers, words.as_mut(), opening.words());
        Reply(answer).done()?;
        Ok(Self {
            numbers,
            words,
            discarded: 0,
        })
    }

    /// The value of a key, which becomes the most recent. An expired key is removed.
    pub fn get(&mut self, now: u64, key: u64) -> Option<u64> {
        self.change(|n, w| exports::get(n, w, now, key)).number()
    }

    /// The value of a key, which keeps its place.
    pub fn peek(&self, now: u64, key: u64) -> Option<u64> {
        self.look(|n, w| exports::peek(n, w, now, key)).number()
    }

    /// Whether a key is stored and has not expired.
    pub fn contains(&self, now: u64, key: u64) -> bool {
        self.look(|n, w| exports::contains(n, w, now, key)).yes()
    }

    /// Stores a value, with the default lifetime if there is one, and returns what it replaced. In
    /// a full book a new key pushes out the least recent one.
    ///
    /// # Errors
    ///
    /// [`Refusal::KeyLimitReached`], where there is a default lifetime.
    pub fn insert(&mut self, now: u64, key: u64, value: u64) -> Result<Option<u64>, Refusal> {
        let reply = self.change(|n, w| exports::insert(n, w, now, key, value));
        reply.accepted().map(Reply::number)
    }

    /// The same with a lifetime of its own. One of exactly zero removes the key.
    ///
    /// ```
    /// # use hailtansy::{Book, Opening, Refusal};
    /// # use std::time::Duration;
    /// let mut book = Book::open(Opening::new(2, 1))?;
    /// let minute = Duration::from_secs(60);
    /// assert_eq!(book.insert_with_ttl(0, 7, 70, minute), Ok(None));
    /// assert_eq!(book.insert_with_ttl(0, 8, 80, minute), Err(Refusal::KeyLimitReached));
    /// assert_eq!(book.insert_with_ttl(0, 7, 71, Duration::ZERO), Ok(Some(70)));
    /// assert!(!book.contains(0, 7));
    /// # Ok::<(), Refusal>(())
    /// ```
    ///
    /// # Errors
    ///
    /// [`Refusal::KeyLimitReached`].
    pub fn insert_with_ttl(
        &mut self,
        now: u64,
        key: u64,
        value: u64,
        ttl: Duration,
    ) -> Result<Option<u64>, Refusal> {
        let (secs, nanos) = (ttl.as_secs(), ttl.subsec_nanos().into());
        let reply =
            self.change(|n, w| exports::insert_with_ttl(n, w, now, key, value, secs, nanos));
        reply.accepted().map(Reply::number)
    }

    /// Removes a key, and returns its value unless it has expired.
    pub fn remove(&mut self, now: u64, key: u64) -> Option<u64> {
        self.change(|n, w| exports::remove(n, w, now, key)).number()
    }

    /// Removes all keys and deadlines. Expirations stay counted.
    pub fn clear(&mut self, now: u64) {
        let reply = self.change(|n, w| exports::clear(n, w, now));
        if reply.done().is_err() {
            reply.unexpected();
        }
    }

    /// How the lifetime of a key stands.
    pub fn ttl_status(&self, now: u64, key: u64) -> TtlStatus {
        self.look(|n, w| exports::ttl_status(n, w, now, key))
            .status()
    }

    /// Gives a stored key a lifetime, and says whether it has one. A key that has expired is
    /// removed, and so is one that is given less than a millisecond.
    ///
    /// # Errors
    ///
    /// [`Refusal::KeyLimitReached`].
    pub fn set_ttl(&mut self, now: u64, key: u64, ttl: Duration) -> Result<bool, Refusal> {
        let (secs, nanos) = (ttl.as_secs(), ttl.subsec_nanos().into());
        let reply = self.change(|n, w| exports::set_ttl(n, w, now, key, secs, nanos));
        reply.accepted().map(Reply::yes)
    }

    /// Removes all that has expired, and returns how many deadlines that were.
    pub fn purge_expired(&mut self, now: u64) -> u64 {
        self.change(|n, w| exports::purge_expired(n, w, now))
            .count()
    }

    /// How many keys are stored, less the expired deadlines that are held, not below 0. Deadlines
    /// of keys that were pushed out count too, until they are purged.
    pub fn live_len(&self, now: u64) -> u64 {
        self.look(|n, w| exports::live_len(n, w, now)).count()
    }

    /// How many expirations there have been.
    pub fn expirations(&self, now: u64) -> u64 {
        self.look(|n, w| exports::expirations(n, w, now)).count()
    }

    /// What is due next, key and deadline; of equal deadlines the one set earlier. Keys that were
    /// pushed out are among them.
    pub fn next_deadline(&mut self, now: u64) -> Option<(u64, u64)> {
        self.change(|n, w| exports::next_deadline(n, w, now)).pair()
    }

    /// Makes a key the most recent, and says whether it is stored.
    pub fn touch(&mut self, now: u64, key: u64) -> bool {
        self.change(|n, w| exports::touch(n, w, now, key)).yes()
    }

    /// How many keys are more recent.
    pub fn recency_rank(&self, now: u64, key: u64) -> Option<u64> {
        self.look(|n, w| exports::recency_rank(n, w, now, key))
            .number()
    }

    /// Removes the least recent key, and returns it with its value.
    pub fn pop_lru(&mut self, now: u64) -> Option<(u64, u64)> {
        self.change(|n, w| exports::pop_lru(n, w, now)).pair()
    }

    /// The least recent key and its value.
    pub fn peek_lru(&self, now: u64) -> Option<(u64, u64)> {
        self.look(|n, w| exports::peek_lru(n, w, now)).pair()
    }

    /// Whether numbers and words form a book, which is always so. It walks all of them.
    pub fn check(&self) -> bool {
        exports::check(&self.numbers, self.words.as_ref())
    }

    /// Runs calls of six words each, operation, now, key, value, seconds and nanoseconds, with four
    /// words for each answer, as include/hailtansy.h lists them. Says how many it ran: as many as
    /// have room for an answer and come before the first that is none.
    pub fn replay(&mut self, calls: &[[u64; 6]], answers: &mut [[u64; 4]]) -> usize {
        let ran = exports::replay(&mut self.numbers, self.words.as_mut(), calls, answers) as usize;
        self.discarded = ran.checked_sub(1).map_or(0, |last| answers[last][3]);
        ran
    }

    /// How many keys it has room for.
    pub fn capacity(&self) -> u64 {
        self.numbers[CAPACITY]
    }

    /// How many deadlines it has room for.
    pub fn deadlines(&self) -> u64 {
        self.numbers[DEADLINES]
    }

    /// How many keys are stored, expired ones among them.
    pub fn len(&self) -> u64 {
        self.numbers[LEN]
    }

    /// Whether none is.
    pub fn is_empty(&self) -> bool {
        self.len() == 0
    }

    /// How many keys hold a deadline, those among them that were pushed out.
    pub fn deadlines_held(&self) -> u64 {
        self.numbers[DEADLINES_HELD]
    }

    /// How many entries the heap of deadlines has, out-of-date ones among them.
    pub fn heap_len(&self) -> u64 {
        self.numbers[ENTRIES]
    }

    /// How many entries of the heap the last call that may change the book discarded.
    pub fn discarded(&self) -> u64 {
        self.discarded
    }

    /// The book's memory.
    pub fn into_words(self) -> W {
        self.words
    }

    fn change(&mut self, call: impl FnOnce(&mut Numbers, &mut [u64]) -> Answer) -> Reply {
        let answer = call(&mut self.numbers, self.words.as_mut());
        self.discarded = answer[3];
        Reply(answer)
    }

    fn look(&self, call: impl FnOnce(&Numbers, &[u64]) -> Answer) -> Reply {
        Reply(call(&self.numbers, self.words.as_ref()))
    }
}

impl<W: Words> fmt::Debug for Book<W> {
    fn fmt(&self, f: &mut fmt::Formatter<'_>) -> fmt::Result {
        f.debug_struct("Book")
            .field("capacity", &self.capacity())
            .field("len", &self.len())
            .field("deadlines", &self.deadlines())
            .field("deadlines_held", &self.deadlines_held())
            .field("heap_len", &self.heap_len())
            .finish_non_exhaustive()
    }
}

/// An answer in words, read as the call that gave it expects.
#[derive(Clone, Copy)]
struct Reply(Answer);

impl Reply {
    fn accepted(self) -> Result<Self, Refusal> {
        match self.0 {
            [10, 1, ..] => Err(Refusal::LimitOutOfRange),
            [10, 2, ..] => Err(Refusal::TooFewWords),
            [10, 4, ..] => Err(Refusal::KeyLimitReached),
            _ => Ok(self),
        }
    }

    fn done(self) -> Result<(), Refusal> {
        match self.accepted()?.0 {
            [9, ..] => Ok(()),
            _ => self.unexpected(),
        }
    }

    fn yes(self) -> bool {
        match self.0 {
            [0, ..] => false,
            [1, ..] => true,
            _ => self.unexpected(),
        }
    }

    fn number(self) -> Option<u64> {
        match self.0 {
            [2, ..] => None,
            [3, number, ..] => Some(number),
            _ => self.unexpected(),
        }
    }

    fn count(self) -> u64 {
        self.number().unwrap_or_else(|| self.unexpected())
    }

    fn pair(self) -> Option<(u64, u64)> {
        match self.0 {
            [2, ..] => None,
            [4, first, second, _] => Some((first, second)),
            _ => self.unexpected(),
        }
    }

    fn status(self) -> TtlStatus {
        match self.0 {
            [12, ..] => TtlStatus::Missing,
            [13, ..] => TtlStatus::Immortal,
            [14, ..] => TtlStatus::Expired,
            [15, remaining, deadline, _] => TtlStatus::Live {
                remaining: Duration::from_millis(remaining),
                deadline,
            },
            _ => self.unexpected(),
        }
    }

    /// The library is proved to answer each call in its own form.
    fn unexpected(self) -> ! {
        unreachable!("the library answered {:?}", self.0)
    }
}
