//! A robot's long day, for timing: a session of any number of lines, in which the clock goes on by a
//! millisecond a line.

use crate::form::{At, Call, Opening, Ttl};
use samples::splitmix64::SplitMix64;
use std::io::{self, Write};

/// As many as may hold a deadline at once, so that none is refused; a third more than are stored.
const KEYS: u64 = 128;

const OPENING: Opening = Opening {
    capacity: 96,
    limit: KEYS,
    seq: 0,
    default_ttl: None,
};

/// Half status and get, a quarter inserts with a lifetime, the rest `set_ttl`, `remove`, and of every
/// twenty lines a purge and every other time a look at the next deadline.
fn call(random: &mut SplitMix64, turn: u64) -> Call {
    let key = 1 + random.below(KEYS);
    let lifetime = Ttl::from_millis(1 + random.below(2 * KEYS));
    match turn % 40 {
        0 | 20 => Call::PurgeExpired,
        12 => Call::NextDeadline,
        x if x % 4 == 1 => Call::TtlStatus(key),
        x if x % 4 == 2 => Call::Get(key),
        x if x % 4 == 3 => Call::InsertWithTtl(key, turn, lifetime),
        x if x % 8 == 4 => Call::SetTtl(key, lifetime),
        _ => Call::Remove(key),
    }
}

pub fn write(mut out: impl Write, lines: u64) -> io::Result<()> {
    let mut random = SplitMix64(0xea11b66d22);
    writeln!(out, "{OPENING}")?;
    for turn in 0..lines {
        writeln!(out, "{}", At(turn, call(&mut random, turn)))?;
    }
    out.flush()
}
