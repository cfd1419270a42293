//! The lines of a session, read and written. A form has one spelling only: one space between two
//! parts, and base-ten numbers without leading zeros.

use std::fmt;
use std::time::Duration;

/// The bytes of the longest line that may be a form, without its newline.
pub const MAX_LINE: usize = 200;

/// Seconds and nanoseconds, which need not be below a second.
#[derive(Clone, Copy, Debug, PartialEq, Eq)]
pub struct Ttl {
    pub secs: u64,
    pub nanos: u64,
}

impl Ttl {
    pub fn from_millis(millis: u64) -> Self {
        Self {
            secs: millis / 1000,
            nanos: millis % 1000 * 1_000_000,
        }
    }

    /// None where refusal 3 is due.
    pub fn duration(self) -> Option<Duration> {
        (self.nanos < 1_000_000_000).then(|| Duration::new(self.secs, self.nanos as u32))
    }
}

/// The first line.
#[derive(Clone, Copy, Debug, PartialEq, Eq)]
pub struct Opening {
    pub capacity: u64,
    pub limit: u64,
    /// The first sequence number.
    pub seq: u64,
    pub default_ttl: Option<Ttl>,
}

#[derive(Clone, Copy, Debug, PartialEq, Eq)]
pub enum Call {
    /// Key and value.
    Insert(u64, u64),
    InsertWithTtl(u64, u64, Ttl),
    Get(u64),
    Peek(u64),
    Contains(u64),
    Remove(u64),
    SetTtl(u64, Ttl),
    TtlStatus(u64),
    PurgeExpired,
    NextDeadline,
    LiveLen,
    Clear,
}

/// Every line but the first: a call, and the tick that the clock reads then.
#[derive(Clone, Copy, Debug, PartialEq, Eq)]
pub struct At(pub u64, pub Call);

impl Opening {
    pub fn parse(line: &[u8]) -> Option<Self> {
        let mut rest = Rest::of(line)?;
        rest.text(b"(book")?;
        let opening = Self {
            capacity: rest.argument()?,
            limit: rest.argument()?,
            seq: rest.argument()?,
            default_ttl: rest.optional_ttl()?,
        };
        rest.end(b")")?;
        Some(opening)
    }
}

impl At {
    pub fn parse(line: &[u8]) -> Option<Self> {
        let mut rest = Rest::of(line)?;
        rest.text(b"(at")?;
        let tick = rest.argument()?;
        rest.text(b" (")?;
        let call = rest.call()?;
        rest.end(b"))")?;
        Some(Self(tick, call))
    }
}

/// What is still to be read of a line. Each part that is not there as asked is none.
struct Rest<'a>(&'a [u8]);

impl<'a> Rest<'a> {
    fn of(line: &'a [u8]) -> Option<Self> {
        (line.len() <= MAX_LINE).then_some(Self(line))
    }

    fn text(&mut self, text: &[u8]) -> Option<()> {
        self.0 = self.0.strip_prefix(text)?;
        Some(())
    }

    fn end(&self, text: &[u8]) -> Option<()> {
        (self.0 == text).then_some(())
    }

    fn number(&mut self) -> Option<u64> {
        let mut number = 0_u64;
        let mut digits = 0;
        while let Some(byte @ b'0'..=b'9') = self.0.get(digits) {
            number = number
                .checked_mul(10)?
                .checked_add(u64::from(byte - b'0'))?;
            digits += 1;
        }
        let is_canonical = digits == 1 || (1 < digits && self.0[0] != b'0');
        self.0 = &self.0[digits..];
        is_canonical.then_some(number)
    }

    fn argument(&mut self) -> Option<u64> {
        self.text(b" ")?;
        self.number()
    }

    fn ttl(&mut self) -> Option<Ttl> {
        Some(Ttl {
            secs: self.argument()?,
            nanos: self.argument()?,
        })
    }

    /// The outer none is for a part that is no lifetime.
    fn optional_ttl(&mut self) -> Option<Option<Ttl>> {
        if !self.0.starts_with(b" ") {
            return Some(None);
        }
        self.text(b" (ttl")?;
        let ttl = self.ttl()?;
        self.text(b")")?;
        Some(Some(ttl))
    }

    fn call(&mut self) -> Option<Call> {
        let letters = self.0.iter().take_while(|byte| byte.is_ascii_lowercase());
        let (name, rest) = self.0.split_at(letters.count());
        self.0 = rest;
        Some(match name {
            b"put" => {
                let (key, value) = (self.argument()?, self.argument()?);
                match self.optional_ttl()? {
                    None => Call::Insert(key, value),
                    Some(ttl) => Call::InsertWithTtl(key, value, ttl),
                }
            }
            b"get" => Call::Get(self.argument()?),
            b"peek" => Call::Peek(self.argument()?),
            b"has" => Call::Contains(self.argument()?),
            b"drop" => Call::Remove(self.argument()?),
            b"ttl" => Call::SetTtl(self.argument()?, self.ttl()?),
            b"status" => Call::TtlStatus(self.argument()?),
            b"purge" => Call::PurgeExpired,
            b"due" => Call::NextDeadline,
            b"live" => Call::LiveLen,
            b"clear" => Call::Clear,
            _ => return None,
        })
    }
}

impl fmt::Display for Ttl {
    fn fmt(&self, f: &mut fmt::Formatter<'_>) -> fmt::Result {
        write!(f, "{} {}", self.secs, self.nanos)
    }
}

impl fmt::Display for Opening {
    fn fmt(&self, f: &mut fmt::Formatter<'_>) -> fmt::Result {
        write!(f, "(book {} {} {}", self.capacity, self.limit, self.seq)?;
        match self.default_ttl {
            None => write!(f, ")"),
            Some(ttl) => write!(f, " (ttl {ttl}))"),
        }
    }
}

impl fmt::Display for Call {
    fn fmt(&self, f: &mut fmt::Formatter<'_>) -> fmt::Result {
        match self {
            Self::Insert(key, value) => write!(f, "(put {key} {value})"),
            Self::InsertWithTtl(key, value, ttl) => write!(f, "(put {key} {value} (ttl {ttl}))"),
            Self::Get(key) => write!(f, "(get {key})"),
            Self::Peek(key) => write!(f, "(peek {key})"),
            Self::Contains(key) => write!(f, "(has {key})"),
            Self::Remove(key) => write!(f, "(drop {key})"),
            Self::SetTtl(key, ttl) => write!(f, "(ttl {key} {ttl})"),
            Self::TtlStatus(key) => write!(f, "(status {key})"),
            Self::PurgeExpired => write!(f, "(purge)"),
            Self::NextDeadline => write!(f, "(due)"),
            Self::LiveLen => write!(f, "(live)"),
            Self::Clear => write!(f, "(clear)"),
        }
    }
}

impl fmt::Display for At {
    fn fmt(&self, f: &mut fmt::Formatter<'_>) -> fmt::Result {
        write!(f, "(at {} {})", self.0, self.1)
    }
}
