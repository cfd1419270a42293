//! A robot's shift: a deck of four places, room for eight deadlines, ticks in milliseconds since
//! the shift began. Run it with `cargo run --example shift`.

use hailtansy::{Book, Opening, TtlStatus};
use std::error::Error;
use std::time::Duration;

const WATER: u64 = 100;
const STANDARD: u64 = 111;
const ENZYME: u64 = 201;

const MINUTE: u64 = 60_000;

fn minutes(n: u64) -> Duration {
    Duration::from_secs(60 * n)
}

fn main() -> Result<(), Box<dyn Error>> {
    let mut book = Book::open(Opening::new(4, 8))?;

    // A tube's value is its place on the deck.
    book.insert(0, WATER, 1)?;
    book.insert_with_ttl(MINUTE, STANDARD, 2, minutes(30))?;
    book.insert_with_ttl(3 * MINUTE, ENZYME, 4, minutes(15))?;
    if let Some((tube, deadline)) = book.next_deadline(3 * MINUTE) {
        println!("{tube} is due first, at minute {}", deadline / MINUTE);
    }

    match book.ttl_status(10 * MINUTE, ENZYME) {
        TtlStatus::Live { remaining, .. } => println!("{ENZYME} has {remaining:?} left"),
        status => println!("{ENZYME}: {status:?}"),
    }
    match book.get(18 * MINUTE, ENZYME) {
        Some(place) => println!("draw {ENZYME} from place {place}"),
        None => println!("{ENZYME} has expired"),
    }

    // Over the break the book is kept as bytes; what is loaded was checked.
    let kept = book.save();
    let mut book = Book::load(&kept)?;
    println!("{} bytes kept, {book:?}", kept.len());
    println!("{} purged at minute 40", book.purge_expired(40 * MINUTE));
    println!("{} live at the end", book.live_len(40 * MINUTE));
    Ok(())
}
