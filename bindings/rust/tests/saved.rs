//! A saved book is loaded as it was, and nothing else is loaded.

use hailtansy::{Book, LoadError, Opening, TtlStatus};
use std::time::Duration;

const CONTENT: usize = 16;

fn book() -> Book {
    let mut book = Book::open(Opening::new(2, 2)).expect("the opening is accepted");
    book.insert(0, 7, 70).expect("there is room");
    book.insert_with_ttl(0, 8, 80, Duration::from_secs(1))
        .expect("there is room");
    book
}

/// The sum of src/saved.rs, written where it stands.
fn sign(bytes: &mut [u8]) {
    let mut sum: u64 = 0xcbf29ce484222325;
    for byte in &bytes[CONTENT..] {
        sum = (sum ^ u64::from(*byte)).wrapping_mul(0x100000001b3);
    }
    bytes[8..CONTENT].copy_from_slice(&sum.to_le_bytes());
}

#[test]
fn a_book_comes_back() {
    let bytes = book().save();
    assert_eq!(bytes.len(), 24 + 8 * (12 + 128 + 8 * 2 + 32 * 2));
    let mut loaded = Book::load(&bytes).expect("it was saved");
    assert_eq!(loaded.save(), bytes);
    assert_eq!(loaded.get(999, 7), Some(70));
    assert_eq!(loaded.next_deadline(999), Some((8, 1000)));
    assert_eq!(loaded.get(1000, 8), None);
}

#[test]
fn it_comes_back_in_borrowed_words() {
    let bytes = book().save();
    let mut memory = [u64::MAX; 300];
    let mut loaded = Book::load_in(&bytes, &mut memory[..]).expect("it was saved");
    assert_eq!(loaded.remove(0, 7), Some(70));
    assert_eq!(loaded.ttl_status(0, 7), TtlStatus::Missing);
    // Words beyond the book's own are not saved.
    let shorter = loaded.save();
    assert_eq!(shorter.len(), bytes.len());
    assert_eq!(Book::load(&shorter).map(|b| b.len()), Ok(1));
    assert_eq!(memory[208..], [u64::MAX; 92]);

    let short = Book::load_in(&bytes, &mut memory[..207]);
    assert_eq!(short.err(), Some(LoadError::TooFewWords));
}

#[test]
fn no_damaged_byte_is_overlooked() {
    let bytes = book().save();
    for place in 0..bytes.len() {
        for bit in [1, 0x80] {
            let mut damaged = bytes.clone();
            damaged[place] ^= bit;
            assert!(Book::load(&damaged).is_err(), "byte {place}");
        }
    }
}

#[test]
fn no_other_length_is_taken() {
    let bytes = book().save();
    for len in 0..bytes.len() {
        assert!(Book::load(&bytes[..len]).is_err(), "{len} bytes");
    }
    let longer = [bytes.as_slice(), &[0; 8]].concat();
    assert_eq!(Book::load(&longer).err(), Some(LoadError::WrongLength));
    let mut other = bytes;
    other[7] += 1;
    assert_eq!(Book::load(&other).err(), Some(LoadError::UnknownFormat));
}

/// With a sum that fits, the library's check still tells a book from what is none.
#[test]
fn a_forged_book_is_refused() {
    let bytes = book().save();
    let mut signed = bytes.clone();
    sign(&mut signed);
    assert_eq!(signed, bytes);

    let number = |i: usize| CONTENT + 8 + 8 * i;
    let mut forged = bytes.clone();
    forged[number(1)] += 1;
    sign(&mut forged);
    assert_eq!(Book::load(&forged).err(), Some(LoadError::NoBook));
    // Capacity and keys; deadlines' limit, keys that hold one, entries and factor.
    for i in [0, 1, 3, 4, 6, 8] {
        let mut forged = bytes.clone();
        forged[number(i)..number(i + 1)].fill(0xff);
        sign(&mut forged);
        assert_eq!(Book::load(&forged).err(), Some(LoadError::NoBook), "{i}");
    }
}

/// Another value is no less a book. Whatever is loaded answers every call, and stays a book.
#[test]
fn what_is_loaded_is_a_book() {
    let bytes = book().save();
    let mut loaded = 0;
    for place in (CONTENT + 8..bytes.len()).step_by(8) {
        let mut forged = bytes.clone();
        forged[place] ^= 1;
        sign(&mut forged);
        let Ok(mut book) = Book::load(&forged) else {
            continue;
        };
        loaded += 1;
        for key in 5..10 {
            let _ = book.insert_with_ttl(0, key, 1, Duration::from_millis(key));
            book.get(key, key);
            book.next_deadline(key);
            assert!(book.check());
        }
        book.purge_expired(u64::MAX);
        while book.pop_lru(0).is_some() {}
        assert!(book.check());
        assert_eq!((book.len(), book.deadlines_held()), (0, 0));
    }
    assert!(loaded > 0);
}
