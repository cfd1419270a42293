//! Questions about durations, deadlines and clocks, one a line, edges before random ones.

use self::Question::{Advance, Clock, Deadline, Remaining, Set, Ticks, Zero};
use crate::splitmix64::SplitMix64;
use cachekit::duration_to_ticks;
use cachekit::policy::expiring::Expiring;
use cachekit::policy::fast_lru::FastLru;
use cachekit::time::{Clock as _, MockClock};
use cachekit::traits::{ExpiringCache, TtlStatus};
use std::fmt;
use std::time::Duration;

const HEADER: &str = "\
# Questions about time, in stdin, and what the Rust of docs/src answered, in stdout.
# Made by running that Rust, unchanged: `cargo run --bin record` in the folder reference.
# Edges come first, then random numbers from a fixed seed.
#
# ticks SECS NANOS          the duration in whole milliseconds
# zero SECS NANOS           whether the duration is exactly zero
# deadline TICK SECS NANOS  the deadline that an insert with this lifetime sets at TICK
# remaining DEADLINE TICK   the milliseconds left of that deadline at TICK, or expired
# clock TICK                a clock made to read TICK, and what it reads
# set TICK                  the same clock set to TICK, and what it reads
# advance SECS NANOS        the same clock moved on by a duration, and what it reads
";

/// The list of questions, and the same list with each question's answer behind it.
pub fn questions_and_answers() -> (String, String) {
    let mut samples = Samples::new();
    ask_edges(&mut samples);
    ask_random(&mut samples);
    (samples.questions, samples.answers)
}

#[derive(Clone, Copy)]
enum Question {
    Ticks(Duration),
    Zero(Duration),
    /// The lifetime is not zero: such an insert sets no deadline.
    Deadline {
        tick: u64,
        lifetime: Duration,
    },
    /// The deadline is one that an insert at tick 0 can set: from 1 to `u64::MAX - 1`.
    Remaining {
        deadline: u64,
        tick: u64,
    },
    Clock(u64),
    Set(u64),
    Advance(Duration),
}

impl fmt::Display for Question {
    fn fmt(&self, f: &mut fmt::Formatter<'_>) -> fmt::Result {
        let parts = |d: Duration| format!("{} {}", d.as_secs(), d.subsec_nanos());
        match *self {
            Ticks(duration) => write!(f, "ticks {}", parts(duration)),
            Zero(duration) => write!(f, "zero {}", parts(duration)),
            Deadline { tick, lifetime } => write!(f, "deadline {tick} {}", parts(lifetime)),
            Remaining { deadline, tick } => write!(f, "remaining {deadline} {tick}"),
            Clock(tick) => write!(f, "clock {tick}"),
            Set(tick) => write!(f, "set {tick}"),
            Advance(duration) => write!(f, "advance {}", parts(duration)),
        }
    }
}

struct Samples {
    questions: String,
    answers: String,
    clock: MockClock,
}

impl Samples {
    fn new() -> Self {
        Self {
            questions: HEADER.into(),
            answers: HEADER.into(),
            clock: MockClock::new(),
        }
    }

    fn comment(&mut self, text: &str) {
        for list in [&mut self.questions, &mut self.answers] {
            *list += &format!("# {text}\n");
        }
    }

    fn ask(&mut self, question: Question) {
        let answer = self.answer(question);
        self.questions += &format!("{question}\n");
        self.answers += &format!("{question} = {answer}\n");
    }

    fn answer(&mut self, question: Question) -> String {
        match question {
            Ticks(duration) => duration_to_ticks(duration).to_string(),
            Zero(duration) => if duration.is_zero() { "yes" } else { "no" }.into(),
            Deadline { tick, lifetime } => deadline(tick, lifetime).to_string(),
            Remaining { deadline, tick } => remaining(deadline, tick),
            Clock(tick) => {
                self.clock = MockClock::with_tick(tick);
                self.clock.now().to_string()
            }
            Set(tick) => {
                self.clock.set(tick);
                self.clock.now().to_string()
            }
            Advance(duration) => {
                self.clock.advance(duration);
                self.clock.now().to_string()
            }
        }
    }
}

const KEY: u64 = 7;

type Cache = Expiring<FastLru<u64, u64>, u64, u64, MockClock>;

/// A cache that holds only KEY, inserted at `tick` with `lifetime`.
fn cache_with_key(tick: u64, lifetime: Duration) -> Cache {
    let clock = MockClock::with_tick(tick);
    let mut cache = Expiring::with_default_ttl(FastLru::new(1), clock, None);
    cache.insert_with_ttl(KEY, 0, lifetime);
    cache
}

fn deadline(tick: u64, lifetime: Duration) -> u64 {
    let cache = cache_with_key(tick, lifetime);
    // At tick 0 every deadline shows itself: all but 0 are still to come.
    cache.clock().set(0);
    match cache.ttl_status(&KEY) {
        TtlStatus::Live { deadline, .. } => deadline.as_u64(),
        TtlStatus::Expired => 0,
        status => panic!("{status:?} after an insert at {tick} for {lifetime:?}"),
    }
}

fn remaining(deadline: u64, tick: u64) -> String {
    let cache = cache_with_key(0, Duration::from_millis(deadline));
    cache.clock().set(tick);
    match cache.ttl_status(&KEY) {
        TtlStatus::Live { remaining, .. } => remaining.as_millis().to_string(),
        TtlStatus::Expired => "expired".into(),
        status => panic!("{status:?} with deadline {deadline} at {tick}"),
    }
}

const EDGE_TICKS: [u64; 5] = [0, 1, u64::MAX - 2, u64::MAX - 1, u64::MAX];

const EDGE_NANOS: [u32; 6] = [0, 1, 999_999, 1_000_000, 1_999_999, 999_999_999];

/// The whole seconds of `u64::MAX` milliseconds, which are this and 615 milliseconds.
const LAST_SECOND: u64 = u64::MAX / 1000;

fn edge_durations() -> Vec<Duration> {
    let around_the_last_tick = [
        613_000_000,
        614_000_000,
        614_999_999,
        615_000_000,
        615_999_999,
        616_000_000,
        999_999_999,
    ];
    let mut durations = Vec::new();
    durations.extend(EDGE_NANOS.map(|nanos| Duration::new(0, nanos)));
    durations.push(Duration::new(1, 0));
    durations.extend(around_the_last_tick.map(|nanos| Duration::new(LAST_SECOND, nanos)));
    durations.push(Duration::new(LAST_SECOND + 1, 0));
    durations.push(Duration::new(u64::MAX, 0));
    durations.push(Duration::new(u64::MAX, 999_999_999));
    durations
}

fn ask_edges(samples: &mut Samples) {
    let durations = edge_durations();
    ask_duration_edges(samples, &durations);
    ask_deadline_edges(samples, &durations);
    ask_remaining_edges(samples);
    ask_clock_edges(samples, &durations);
}

fn ask_duration_edges(samples: &mut Samples, durations: &[Duration]) {
    samples.comment("ticks and zero: edges");
    for &duration in durations {
        samples.ask(Ticks(duration));
        samples.ask(Zero(duration));
    }
}

fn ask_deadline_edges(samples: &mut Samples, durations: &[Duration]) {
    samples.comment("deadline: edges");
    for tick in EDGE_TICKS {
        for &lifetime in durations.iter().filter(|lifetime| !lifetime.is_zero()) {
            samples.ask(Deadline { tick, lifetime });
        }
    }

    samples.comment("deadline: sums that end two, one and no ticks short of the last, and past it");
    for tick in [1, 1000, 1 << 63, u64::MAX - 1000, u64::MAX - 3] {
        let to_last = u64::MAX - tick;
        for millis in [to_last - 2, to_last - 1, to_last, to_last + 1] {
            let lifetime = Duration::from_millis(millis);
            samples.ask(Deadline { tick, lifetime });
        }
    }
}

fn ask_remaining_edges(samples: &mut Samples) {
    samples.comment("remaining: edges");
    for deadline in [1, 2, 1000, 1 << 63, u64::MAX - 2, u64::MAX - 1] {
        for tick in EDGE_TICKS {
            samples.ask(Remaining { deadline, tick });
        }
        for tick in [deadline - 1, deadline, deadline + 1] {
            samples.ask(Remaining { deadline, tick });
        }
    }
}

fn ask_clock_edges(samples: &mut Samples, durations: &[Duration]) {
    samples.comment("clock: edges, each advance from the same tick");
    for tick in EDGE_TICKS {
        samples.ask(Clock(tick));
        for &duration in durations {
            samples.ask(Advance(duration));
            samples.ask(Set(tick));
        }
    }

    samples.comment("clock: parts of a tick are lost at each advance");
    samples.ask(Clock(0));
    for nanos in [999_999, 999_999, 1_999_999, 1_999_999] {
        samples.ask(Advance(Duration::new(0, nanos)));
    }

    samples.comment("clock: set on, and back below");
    samples.ask(Clock(u64::MAX - 1));
    for tick in EDGE_TICKS {
        samples.ask(Set(tick));
    }
    for tick in EDGE_TICKS.into_iter().rev() {
        samples.ask(Set(tick));
    }
}

fn ask_random(samples: &mut Samples) {
    let mut random = Random(SplitMix64(0xea11b66d22));

    samples.comment("ticks: random");
    for _ in 0..700 {
        samples.ask(Ticks(random.duration()));
    }

    samples.comment("zero: random");
    for _ in 0..100 {
        samples.ask(Zero(random.duration()));
    }

    samples.comment("deadline: random");
    for _ in 0..1000 {
        let tick = random.number();
        let lifetime = random.duration().max(Duration::from_nanos(1));
        samples.ask(Deadline { tick, lifetime });
    }

    samples.comment("remaining: random");
    for _ in 0..800 {
        let deadline = random.number().clamp(1, u64::MAX - 1);
        let tick = random.number_or_near(deadline);
        samples.ask(Remaining { deadline, tick });
    }

    samples.comment("clock: random");
    for _ in 0..100 {
        samples.ask(Clock(random.number()));
        for _ in 0..8 {
            let question = random.clock_step();
            samples.ask(question);
        }
    }
}

struct Random(SplitMix64);

impl Random {
    /// A small number, one near a power of two, or any.
    fn number(&mut self) -> u64 {
        match self.0.below(3) {
            0 => self.0.below(1 << 16) >> self.0.below(17),
            1 => {
                let power = 1 << self.0.below(64);
                self.near(power)
            }
            _ => self.0.next(),
        }
    }

    fn near(&mut self, middle: u64) -> u64 {
        middle.wrapping_add(self.0.below(5)).wrapping_sub(2)
    }

    fn number_or_near(&mut self, middle: u64) -> u64 {
        match self.0.below(2) {
            0 => self.number(),
            _ => self.near(middle),
        }
    }

    /// Seconds drawn as a number are mostly past the last tick, so half of the durations are drawn
    /// as milliseconds.
    fn duration(&mut self) -> Duration {
        match self.0.below(2) {
            0 => Duration::new(self.number(), self.nanos()),
            _ => {
                let part_of_a_tick = Duration::from_nanos(self.0.below(1_000_000));
                Duration::from_millis(self.number()) + part_of_a_tick
            }
        }
    }

    fn nanos(&mut self) -> u32 {
        match self.0.below(2) {
            0 => EDGE_NANOS[self.0.below(EDGE_NANOS.len() as u64) as usize],
            _ => self.0.below(1_000_000_000) as u32,
        }
    }

    fn clock_step(&mut self) -> Question {
        match self.0.below(4) {
            0 => Set(self.number()),
            _ => Advance(self.duration()),
        }
    }
}
