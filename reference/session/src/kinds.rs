//! Random sessions, each of one kind: what is rare in one kind is common in another.

use crate::damage::{DAMAGES, lengthen, pick};
use crate::form::{At, Call, Opening, Ttl};
use samples::splitmix64::SplitMix64;
use std::io::Write;

#[derive(Clone, Copy, Debug, PartialEq, Eq)]
pub enum Kind {
    Churn,
    FewDeadlines,
    NoCapacity,
    LastNumbers,
    DefaultTtl,
    ClockBack,
    LongestTtls,
    RefusedOpening,
    RefusedCalls,
    Malformed,
    LongLines,
    NoLastNewline,
    CutShort,
}

impl Kind {
    pub const ALL: [Self; 13] = [
        Self::Churn,
        Self::FewDeadlines,
        Self::NoCapacity,
        Self::LastNumbers,
        Self::DefaultTtl,
        Self::ClockBack,
        Self::LongestTtls,
        Self::RefusedOpening,
        Self::RefusedCalls,
        Self::Malformed,
        Self::LongLines,
        Self::NoLastNewline,
        Self::CutShort,
    ];

    pub fn name(self) -> &'static str {
        match self {
            Self::Churn => "churn",
            Self::FewDeadlines => "few-deadlines",
            Self::NoCapacity => "no-capacity",
            Self::LastNumbers => "last-numbers",
            Self::DefaultTtl => "default-ttl",
            Self::ClockBack => "clock-back",
            Self::LongestTtls => "longest-ttls",
            Self::RefusedOpening => "refused-opening",
            Self::RefusedCalls => "refused-calls",
            Self::Malformed => "malformed",
            Self::LongLines => "long-lines",
            Self::NoLastNewline => "no-last-newline",
            Self::CutShort => "cut-short",
        }
    }
}

/// How large a session may be.
#[derive(Clone, Copy)]
pub struct Size {
    pub capacity: u64,
    pub lines: u64,
    /// The lengths of lines that are too long, in bytes.
    pub long_lines: &'static [usize],
}

/// The same session for the same kind, number and size.
pub fn session(kind: Kind, number: u64, size: Size) -> Vec<u8> {
    let mut random = SplitMix64(number);
    random.0 = random.next() ^ kind as u64;
    let shape = Shape::new(kind, &mut random, size);
    let mut writer = Writer {
        random,
        shape,
        size,
        favourite: number as usize % DAMAGES.len(),
        input: Vec::new(),
    };
    if kind == Kind::RefusedOpening {
        writer.refused_opening();
    } else {
        writer.line(shape.opening);
    }
    let fewest = match kind {
        Kind::NoLastNewline => 0,
        // Enough for the numbers to run out.
        Kind::LastNumbers => 16,
        _ => 4,
    };
    for turn in 0..fewest + writer.random.below(size.lines) {
        writer.any_line(turn);
    }
    let mut input = writer.input;
    match kind {
        // A blank last line without its newline would be none.
        Kind::NoLastNewline => {
            while input.ends_with(b"\n") {
                input.pop();
            }
        }
        // From number to number a byte more, from the empty input on.
        Kind::CutShort => input.truncate(number as usize % (input.len() + 1)),
        _ => {}
    }
    input
}

/// From which rolls of the dice to which a call is drawn.
type Rolls = (u64, u64);

const ANY: Rolls = (0, 100);
const INSERTS: Rolls = (0, 36);
const INSERTS_AND_LOOKS: Rolls = (27, 62);
const MORE_CLEARS: Rolls = (0, 108);

#[derive(Clone, Copy)]
struct Shape {
    opening: Opening,
    /// Keys are mostly below it.
    keys: u64,
    tick: u64,
    /// Lifetimes are mostly below it, in ticks.
    span: u64,
    /// Lifetimes and steps of the clock are mostly a multiple of it, so that deadlines may be alike.
    grain: u64,
    /// Of a hundred lines, those before which the clock goes back.
    back: u64,
    /// Of a hundred lifetimes, those at an edge and those that are none.
    edge_ttls: u64,
    bad_ttls: u64,
    /// Of a hundred lines, those that are no form and those that are too long.
    damaged: u64,
    long: u64,
    rolls: Rolls,
}

impl Shape {
    fn new(kind: Kind, random: &mut SplitMix64, size: Size) -> Self {
        let capacity = 1 + random.below(size.capacity);
        let mut shape = Self {
            opening: Opening {
                capacity,
                limit: (capacity + random.below(capacity + 1)).min(128),
                seq: pick(random, &[0, 0, 1, 1 << 32, 1 << 63]),
                default_ttl: None,
            },
            keys: capacity + 1 + pick(random, &[0, 1, capacity / 2]),
            tick: pick(random, &[0, 0, 1000, 1000, 1 << 40]),
            span: pick(random, &[4, 20, 2000, 20 * capacity, 200 * capacity]),
            grain: 1,
            back: 2,
            edge_ttls: 4,
            bad_ttls: 1,
            damaged: 1,
            long: 0,
            rolls: ANY,
        };
        let opening = &mut shape.opening;
        match kind {
            Kind::FewDeadlines => {
                opening.capacity = capacity.max(2);
                opening.limit = 1 + random.below(opening.capacity - 1);
            }
            Kind::NoCapacity => opening.capacity = 0,
            // A `clear` keeps the next number, which only a later renumbering shows.
            Kind::LastNumbers => {
                opening.seq = u64::MAX - random.below(8);
                shape.span = 3000;
                shape.grain = 1000;
                shape.rolls = MORE_CLEARS;
            }
            Kind::DefaultTtl => opening.default_ttl = Some(default_ttl(random, shape.span)),
            Kind::ClockBack => shape.back = 40,
            Kind::LongestTtls => {
                shape.edge_ttls = 70;
                shape.tick = pick(random, &[0, 1 << 63, u64::MAX - 4]);
                if random.below(4) == 0 {
                    opening.default_ttl = Some(pick_ttl(random, &LONGEST_TTLS));
                }
            }
            Kind::RefusedCalls => {
                opening.limit = 1 + random.below(2);
                if random.below(3) == 0 {
                    opening.default_ttl = Some(default_ttl(random, shape.span));
                }
                shape.bad_ttls = 25;
                shape.damaged = 15;
            }
            Kind::Malformed => shape.damaged = 50,
            Kind::LongLines => shape.long = 30,
            Kind::NoLastNewline => {
                shape.damaged = 15;
                shape.long = 3;
            }
            // The order of recency shows in what is still there.
            Kind::Churn if random.below(2) == 0 => {
                opening.capacity = capacity.max(2);
                shape.rolls = INSERTS_AND_LOOKS;
            }
            Kind::Churn | Kind::RefusedOpening | Kind::CutShort => {}
        }
        shape
    }
}

/// The whole seconds of `u64::MAX` milliseconds, which are this and 615 milliseconds.
const LAST_SECOND: u64 = u64::MAX / 1000;

/// Around the largest number of ticks.
const LONGEST_TTLS: [(u64, u64); 8] = [
    (LAST_SECOND, 0),
    (LAST_SECOND, 613_000_000),
    (LAST_SECOND, 614_000_000),
    (LAST_SECOND, 615_000_000),
    (LAST_SECOND, 616_000_000),
    (LAST_SECOND + 1, 0),
    (u64::MAX, 0),
    (u64::MAX, 999_999_999),
];

/// Of no tick at all, of less than one, and of one.
const SHORTEST_TTLS: [(u64, u64); 5] =
    [(0, 0), (0, 1), (0, 999_999), (0, 1_000_000), (0, 1_999_999)];

const BAD_NANOS: [u64; 6] = [
    1_000_000_000,
    1_000_000_001,
    (1 << 32) - 1,
    1 << 32,
    1 << 63,
    u64::MAX,
];

fn pick_ttl(random: &mut SplitMix64, from: &[(u64, u64)]) -> Ttl {
    let (secs, nanos) = pick(random, from);
    Ttl { secs, nanos }
}

fn default_ttl(random: &mut SplitMix64, span: u64) -> Ttl {
    match random.below(3) {
        0 => pick_ttl(random, &SHORTEST_TTLS),
        _ => Ttl::from_millis(random.below(span)),
    }
}

struct Writer {
    random: SplitMix64,
    shape: Shape,
    size: Size,
    /// The damage that every other line that is no form has.
    favourite: usize,
    input: Vec<u8>,
}

impl Writer {
    fn line(&mut self, line: impl std::fmt::Display) {
        writeln!(self.input, "{line}").expect("a vector takes all");
    }

    fn bytes(&mut self, line: &[u8]) {
        self.input.extend_from_slice(line);
        self.input.push(b'\n');
    }

    fn below(&mut self, bound: u64) -> u64 {
        self.random.below(bound)
    }

    /// The first lines mostly fill the book.
    fn any_line(&mut self, turn: u64) {
        let tick = self.turn_clock();
        let is_filling = turn < self.shape.keys && self.below(4) != 0;
        let rolls = if is_filling {
            INSERTS
        } else {
            self.shape.rolls
        };
        let at = At(tick, self.call(rolls));
        let Shape { damaged, long, .. } = self.shape;
        match self.below(100) {
            x if x < damaged => self.damaged_line(&at.to_string()),
            x if x < damaged + long => {
                let lengths = self.size.long_lines;
                let line = lengthen(&mut self.random, at.to_string().as_bytes(), lengths);
                self.bytes(&line);
            }
            _ => self.line(at),
        }
    }

    /// A second opening is no form either.
    fn damaged_line(&mut self, line: &str) {
        let damage = match self.below(16) {
            0 => return self.line(self.shape.opening),
            1..8 => DAMAGES[self.favourite],
            _ => pick(&mut self.random, &DAMAGES),
        };
        let line = damage(&mut self.random, line.as_bytes());
        self.bytes(&line);
    }

    fn grains(&mut self, bound: u64) -> u64 {
        let grain = self.shape.grain;
        self.below(bound) / grain * grain
    }

    /// Mostly on, by so little that a lifetime lasts for as many lines as there are keys; at times
    /// back, and for one line to an end.
    fn turn_clock(&mut self) -> u64 {
        let Shape {
            tick, span, grain, ..
        } = self.shape;
        self.shape.tick = if self.below(100) < self.shape.back {
            if self.below(4) == 0 {
                return pick(
                    &mut self.random,
                    &[0, 1, u64::MAX - 2, u64::MAX - 1, u64::MAX],
                );
            }
            tick.saturating_sub(self.grains(span))
        } else {
            match self.below(4) {
                0 => tick.saturating_add(self.grains(span / self.shape.keys + 1)),
                1 => tick.saturating_add(grain),
                _ => tick,
            }
        };
        self.shape.tick
    }

    fn key(&mut self) -> u64 {
        match self.below(100) {
            0 => pick(&mut self.random, &[u64::MAX, 1 << 32, 1 << 63]),
            _ => self.below(self.shape.keys),
        }
    }

    fn value(&mut self) -> u64 {
        match self.below(50) {
            0 => u64::MAX,
            1 => self.random.next(),
            _ => self.below(1000),
        }
    }

    fn ttl(&mut self) -> Ttl {
        let Shape {
            edge_ttls,
            bad_ttls,
            ..
        } = self.shape;
        match self.below(100) {
            x if x < bad_ttls => Ttl {
                secs: pick(&mut self.random, &[0, 1, u64::MAX]),
                nanos: pick(&mut self.random, &BAD_NANOS),
            },
            x if x < bad_ttls + edge_ttls => match self.below(4) {
                0 => pick_ttl(&mut self.random, &SHORTEST_TTLS),
                _ => pick_ttl(&mut self.random, &LONGEST_TTLS),
            },
            _ => Ttl::from_millis(self.grains(self.shape.span)),
        }
    }

    fn call(&mut self, (first, end): Rolls) -> Call {
        let key = self.key();
        match first + self.below(end - first) {
            0..27 => Call::InsertWithTtl(key, self.value(), self.ttl()),
            27..36 => Call::Insert(key, self.value()),
            36..45 => Call::Get(key),
            45..52 => Call::Peek(key),
            52..57 => Call::Contains(key),
            57..62 => Call::TtlStatus(key),
            62..71 => Call::Remove(key),
            71..82 => Call::SetTtl(key, self.ttl()),
            82..88 => Call::PurgeExpired,
            88..95 => Call::NextDeadline,
            95..99 => Call::LiveLen,
            // A large book is seldom cleared, so that it fills.
            _ if self.below(self.size.capacity) < 5 => Call::Clear,
            _ => Call::NextDeadline,
        }
    }

    /// Now and then one at the edge that is accepted.
    fn refused_opening(&mut self) {
        let sizes = [129, 130, 4096, 4097, 1 << 32, u64::MAX];
        let mut opening = self.shape.opening;
        let bad_default = Ttl {
            secs: pick(&mut self.random, &[0, 1, u64::MAX]),
            nanos: pick(&mut self.random, &BAD_NANOS),
        };
        match self.below(8) {
            0 => opening.capacity = pick(&mut self.random, &sizes),
            1 => opening.limit = pick(&mut self.random, &sizes),
            2 => opening.limit = 0,
            3 => opening.default_ttl = Some(bad_default),
            // Refusal 1 comes before refusal 3.
            4 => {
                opening.limit = pick(&mut self.random, &[0, 129, u64::MAX]);
                opening.default_ttl = Some(bad_default);
            }
            5 => {
                (opening.capacity, opening.limit) =
                    pick(&mut self.random, &[(128, 128), (0, 1), (0, 128), (128, 1)]);
            }
            6 => {
                let call = At(self.shape.tick, self.call(ANY));
                return self.line(call);
            }
            _ => {
                let line = opening.to_string();
                let damage = pick(&mut self.random, &DAMAGES);
                let line = damage(&mut self.random, line.as_bytes());
                return self.bytes(&line);
            }
        }
        self.line(opening);
    }
}
