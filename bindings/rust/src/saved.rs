//! A book as bytes: `HAILTAN` and a version, a checksum, how many words there are, the numbers and
//! the words, all little-endian.
//!
//! The checksum (FNV-1a of all that comes after it) finds a byte that was changed by accident. What
//! passes it need not be a book all the same, since anyone can write a checksum; so the library's
//! check has the last word, and it says yes for books alone.

use crate::exports::{self, Numbers};
use crate::{Book, CAPACITY, DEADLINES, NUMBERS, Words, words_len};
use std::error::Error;
use std::fmt;

const MARK: [u8; 8] = *b"HAILTAN\x01";

/// Why bytes were not loaded.
#[derive(Clone, Copy, Debug, PartialEq, Eq, Hash)]
pub enum LoadError {
    /// They do not begin as a saved book, or as one of another version.
    UnknownFormat,
    /// There are fewer or more of them than they say.
    WrongLength,
    /// They are not what was saved.
    ChecksumMismatch,
    /// They form no book.
    NoBook,
    /// The words to load into are fewer than those saved.
    TooFewWords,
}

impl fmt::Display for LoadError {
    fn fmt(&self, f: &mut fmt::Formatter<'_>) -> fmt::Result {
        f.write_str(match self {
            Self::UnknownFormat => "no saved book, or one of another version",
            Self::WrongLength => "a saved book of another length",
            Self::ChecksumMismatch => "the checksum does not match",
            Self::NoBook => "the numbers and words form no book",
            Self::TooFewWords => "there are fewer words than the saved book needs",
        })
    }
}

impl Error for LoadError {}

impl<W: Words> Book<W> {
    /// The book as bytes, without words beyond those that it needs.
    ///
    /// ```
    /// # use hailtansy::{Book, Opening};
    /// let mut book = Book::open(Opening::new(4, 8))?;
    /// book.insert(0, 7, 70)?;
    /// let bytes = book.save();
    /// let mut same = Book::load(&bytes)?;
    /// assert_eq!(same.get(1, 7), Some(70));
    ///
    /// let mut damaged = bytes;
    /// damaged[200] ^= 1;
    /// assert!(Book::load(&damaged).is_err());
    /// # Ok::<(), Box<dyn std::error::Error>>(())
    /// ```
    pub fn save(&self) -> Vec<u8> {
        let needed = words_len(self.numbers[CAPACITY], self.numbers[DEADLINES]);
        let words = &self.words.as_ref()[..needed];
        let mut content = Vec::with_capacity(8 * (1 + NUMBERS + needed));
        for n in [needed as u64].iter().chain(&self.numbers).chain(words) {
            content.extend_from_slice(&n.to_le_bytes());
        }
        [&MARK[..], &checksum(&content).to_le_bytes(), &content].concat()
    }

    /// Loads a saved book into the words that it is lent. What they held is lost, even where the
    /// bytes turn out to be no book.
    ///
    /// # Errors
    ///
    /// As [`Book::load`], and [`LoadError::TooFewWords`].
    pub fn load_in(bytes: &[u8], mut words: W) -> Result<Self, LoadError> {
        let Saved {
            numbers,
            words: saved,
        } = Saved::read(bytes)?;
        let place = words
            .as_mut()
            .get_mut(..saved.len())
            .ok_or(LoadError::TooFewWords)?;
        for (word, saved) in place.iter_mut().zip(saved) {
            *word = u64::from_le_bytes(*saved);
        }
        if !exports::check(&numbers, words.as_ref()) {
            return Err(LoadError::NoBook);
        }
        Ok(Self {
            numbers,
            words,
            discarded: 0,
        })
    }
}

impl Book {
    /// Loads a saved book into words of its own.
    ///
    /// # Errors
    ///
    /// Where the bytes are not those of a saved book: any but [`LoadError::TooFewWords`].
    pub fn load(bytes: &[u8]) -> Result<Self, LoadError> {
        let needed = Saved::read(bytes)?.words.len();
        Self::load_in(bytes, vec![0; needed])
    }
}

/// Bytes with the right length and checksum.
struct Saved<'a> {
    numbers: Numbers,
    words: &'a [[u8; 8]],
}

impl<'a> Saved<'a> {
    fn read(bytes: &'a [u8]) -> Result<Self, LoadError> {
        let rest = bytes.strip_prefix(&MARK).ok_or(LoadError::UnknownFormat)?;
        let (sum, content) = rest.split_first_chunk().ok_or(LoadError::WrongLength)?;
        let (parts, []) = content.as_chunks() else {
            return Err(LoadError::WrongLength);
        };
        let ([count], parts) = parts.split_first_chunk().ok_or(LoadError::WrongLength)?;
        let (numbers, words) = parts.split_first_chunk().ok_or(LoadError::WrongLength)?;
        if u64::from_le_bytes(*count) != words.len() as u64 {
            return Err(LoadError::WrongLength);
        }
        if u64::from_le_bytes(*sum) != checksum(content) {
            return Err(LoadError::ChecksumMismatch);
        }
        let numbers: &[[u8; 8]; NUMBERS] = numbers;
        Ok(Self {
            numbers: numbers.map(u64::from_le_bytes),
            words,
        })
    }
}

/// Each step is a bijection, so that a single changed byte always changes the sum.
fn checksum(bytes: &[u8]) -> u64 {
    bytes.iter().fold(0xcbf2_9ce4_8422_2325, |sum, byte| {
        (sum ^ u64::from(*byte)).wrapping_mul(0x0100_0000_01b3)
    })
}
