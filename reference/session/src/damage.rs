//! Lines that are no form, made from forms. None has a newline.

use samples::splitmix64::SplitMix64;
use std::ops::Range;

/// Makes a line that is no form, neither of an opening nor of a call, from one that is.
pub type Damage = fn(&mut SplitMix64, &[u8]) -> Vec<u8>;

pub const DAMAGES: [Damage; 25] = [
    blank,
    no_such_form,
    leading_zeros,
    beyond_u64,
    signed,
    another_number,
    missing_number,
    further_number,
    second_space,
    another_space,
    space_at_bracket,
    missing_bracket,
    further_bracket,
    another_bracket,
    upper_case,
    missing_letter,
    further_letter,
    foreign_byte,
    top_bit,
    before,
    behind,
    cut_end,
    cut_start,
    twice,
    nested,
];

pub fn pick<T: Copy>(random: &mut SplitMix64, from: &[T]) -> T {
    from[random.below(from.len() as u64) as usize]
}

fn splice(line: &[u8], range: Range<usize>, with: &[u8]) -> Vec<u8> {
    [&line[..range.start], with, &line[range.end..]].concat()
}

/// The place of one of the bytes asked for, of which a form has at least one.
fn place(random: &mut SplitMix64, line: &[u8], is_asked: impl Fn(u8) -> bool) -> usize {
    let places: Vec<usize> = (0..line.len()).filter(|&at| is_asked(line[at])).collect();
    pick(random, &places)
}

fn bracket(random: &mut SplitMix64, line: &[u8]) -> usize {
    place(random, line, |byte| matches!(byte, b'(' | b')'))
}

fn letter(random: &mut SplitMix64, line: &[u8]) -> usize {
    place(random, line, |byte| byte.is_ascii_lowercase())
}

fn space(random: &mut SplitMix64, line: &[u8]) -> usize {
    place(random, line, |byte| byte == b' ')
}

fn number(random: &mut SplitMix64, line: &[u8]) -> Range<usize> {
    let is_digit = |at: usize| line.get(at).is_some_and(u8::is_ascii_digit);
    let starts: Vec<usize> = (1..line.len())
        .filter(|&at| is_digit(at) && !is_digit(at - 1))
        .collect();
    let start = pick(random, &starts);
    let digits = (start..).take_while(|&at| is_digit(at)).count();
    start..start + digits
}

fn blank(random: &mut SplitMix64, _: &[u8]) -> Vec<u8> {
    pick(random, &["", "", " ", "  ", "\t", "\r", "\0"]).into()
}

fn no_such_form(random: &mut SplitMix64, _: &[u8]) -> Vec<u8> {
    let lines = [
        "(at 5 (touch 7))",
        "(at 5 (expirations))",
        "(at 5 (pop))",
        "(at 5 (rank 7))",
        "(at 5 (len))",
        "(at 5 (check))",
        "(at 5 (insert 7 70))",
        "(at 5 (put))",
        "(at 5 (put 7))",
        "(at 5 (put 7 (ttl 1 0)))",
        "(at 5 (put 7 (ttl 1 0) 70))",
        "(at 5 (put 7 70 ttl 1 0))",
        "(at 5 (put 7 70 (ttl)))",
        "(at 5 (put 7 70 (ttl 1)))",
        "(at 5 (put 7 70 (ttl 1 0 0)))",
        "(at 5 (put 7 70 (ttl 1 0) (ttl 1 0)))",
        "(at 5 (put 7 70 (get 7)))",
        "(at 5 (put 7 70) (ttl 1 0))",
        "(at 5 (get))",
        "(at 5 (get 7 8))",
        "(at 5 (get 7 (ttl 1 0)))",
        "(at 5 (get (get 7)))",
        "(at 5 (get 7) (get 8))",
        "(at 5 (ttl 7 1))",
        "(at 5 (ttl 7 (ttl 1 0)))",
        "(at 5 (status))",
        "(at 5 (purge 7))",
        "(at 5 (due 7))",
        "(at 5 (live 7))",
        "(at 5 (clear 7))",
        "(at 5 (purge) )",
        "(at 5 (book 2 4 0))",
        "(at 5 ())",
        "(at 5 (7))",
        "(at 5 7)",
        "(at 5)",
        "(at)",
        "(at (get 7))",
        "(at (get 7) 5)",
        "(at 5 get 7)",
        "(now 5 (get 7))",
        "(get 7)",
        "get 7",
        "()",
        "(",
        ")",
        "(book)",
        "(book 2)",
        "(book 2 4)",
        "(book 2 4 0 0)",
        "(book 2 4 0 (ttl))",
        "(book 2 4 0 (ttl 1))",
        "(book 2 4 0 (ttl 1 0) (ttl 1 0))",
        "(book 2 4 0 ttl 1 0)",
        "(book 2 4 (ttl 1 0) 0)",
        "# a remark",
        "; a remark",
        "none",
        "(none (thrown 0) (heap 0) (held 0))",
    ];
    pick(random, &lines).into()
}

fn leading_zeros(random: &mut SplitMix64, line: &[u8]) -> Vec<u8> {
    let start = number(random, line).start;
    splice(line, start..start, pick(random, &[&b"0"[..], b"0", b"000"]))
}

/// Among them numbers that would be the line's own if they wrapped around.
fn beyond_u64(random: &mut SplitMix64, line: &[u8]) -> Vec<u8> {
    let range = number(random, line);
    let digits = str::from_utf8(&line[range.clone()]).expect("digits");
    let number: u128 = digits.parse().expect("a number");
    let large = match random.below(5) {
        0 => number + (1 << 64),
        1 => number + (1 << 65),
        2 => 99_999_999_999_999_999_999,
        3 => u128::MAX,
        _ => 1 << 64,
    };
    splice(line, range, large.to_string().as_bytes())
}

fn signed(random: &mut SplitMix64, line: &[u8]) -> Vec<u8> {
    let start = number(random, line).start;
    splice(line, start..start, pick(random, &[b"+", b"-"]))
}

fn another_number(random: &mut SplitMix64, line: &[u8]) -> Vec<u8> {
    let texts = [
        "", "1_000", "1,000", "0x7", "7.0", "1e3", "7u64", "\"7\"", "'7", "seven", "７", "(7)",
    ];
    let range = number(random, line);
    splice(line, range, pick(random, &texts).as_bytes())
}

fn missing_number(random: &mut SplitMix64, line: &[u8]) -> Vec<u8> {
    let range = number(random, line);
    splice(line, range.start - 1..range.end, b"")
}

fn further_number(random: &mut SplitMix64, line: &[u8]) -> Vec<u8> {
    let end = number(random, line).end;
    splice(line, end..end, b" 5")
}

fn second_space(random: &mut SplitMix64, line: &[u8]) -> Vec<u8> {
    let at = space(random, line);
    splice(line, at..at, b" ")
}

fn another_space(random: &mut SplitMix64, line: &[u8]) -> Vec<u8> {
    let texts = [
        "", "\t", "\t", "\r", "\0", "\x0b", "\x0c", "\u{a0}", ",", "_",
    ];
    let at = space(random, line);
    splice(line, at..at + 1, pick(random, &texts).as_bytes())
}

fn space_at_bracket(random: &mut SplitMix64, line: &[u8]) -> Vec<u8> {
    let at = bracket(random, line) + random.below(2) as usize;
    splice(line, at..at, b" ")
}

fn missing_bracket(random: &mut SplitMix64, line: &[u8]) -> Vec<u8> {
    let at = bracket(random, line);
    splice(line, at..at + 1, b"")
}

fn further_bracket(random: &mut SplitMix64, line: &[u8]) -> Vec<u8> {
    let at = bracket(random, line);
    splice(line, at..at, &line[at..at + 1])
}

fn another_bracket(random: &mut SplitMix64, line: &[u8]) -> Vec<u8> {
    let at = bracket(random, line);
    let other = if line[at] == b'(' { b"[{<)" } else { b"]}>(" };
    splice(line, at..at + 1, &[pick(random, other)])
}

fn upper_case(random: &mut SplitMix64, line: &[u8]) -> Vec<u8> {
    let mut upper = line.to_vec();
    match random.below(3) {
        0 => upper.make_ascii_uppercase(),
        _ => upper[letter(random, line)].make_ascii_uppercase(),
    }
    upper
}

fn missing_letter(random: &mut SplitMix64, line: &[u8]) -> Vec<u8> {
    let at = letter(random, line);
    splice(line, at..at + 1, b"")
}

fn further_letter(random: &mut SplitMix64, line: &[u8]) -> Vec<u8> {
    let at = letter(random, line);
    splice(line, at..at, &line[at..at + 1])
}

fn foreign_byte(random: &mut SplitMix64, line: &[u8]) -> Vec<u8> {
    let at = random.below(line.len() as u64 + 1) as usize;
    let byte = match random.below(3) {
        0 => 0,
        1 => pick(random, b"\r\t\x1b\x7f\"';#-./:"),
        _ => 0x80 + random.below(0x80) as u8,
    };
    splice(line, at..at, &[byte])
}

fn top_bit(random: &mut SplitMix64, line: &[u8]) -> Vec<u8> {
    let mut other = line.to_vec();
    other[random.below(line.len() as u64) as usize] |= 0x80;
    other
}

fn before(random: &mut SplitMix64, line: &[u8]) -> Vec<u8> {
    let texts = [" ", "\t", "\r", "\0", "\u{feff}", "0", "> ", "()", ")"];
    [pick(random, &texts).as_bytes(), line].concat()
}

fn behind(random: &mut SplitMix64, line: &[u8]) -> Vec<u8> {
    let texts = [
        " ", "\t", "\r", "\r", "\0", "\0\0\0", "\0x", ".", "0", "x", " ()", " # ", "\u{85}",
    ];
    [line, pick(random, &texts).as_bytes()].concat()
}

fn cut_end(random: &mut SplitMix64, line: &[u8]) -> Vec<u8> {
    line[..random.below(line.len() as u64) as usize].into()
}

fn cut_start(random: &mut SplitMix64, line: &[u8]) -> Vec<u8> {
    line[1 + random.below(line.len() as u64) as usize..].into()
}

fn twice(random: &mut SplitMix64, line: &[u8]) -> Vec<u8> {
    let between = pick(random, &["", " ", "\r", "\0", ";", "  "]);
    [line, between.as_bytes(), line].concat()
}

fn nested(random: &mut SplitMix64, line: &[u8]) -> Vec<u8> {
    match random.below(3) {
        0 => [b"(", line, b")"].concat(),
        1 => [b"(at 5 ", line, b")"].concat(),
        _ => [b"\"", line, b"\""].concat(),
    }
}

/// A line at the limit of 200 bytes or beyond it. Such a line is no form, but may have one at its
/// start, at its end, and where the limit cuts it.
pub fn lengthen(random: &mut SplitMix64, line: &[u8], lengths: &[usize]) -> Vec<u8> {
    let length = pick(random, lengths);
    let filler = pick(random, b"   00)x\0\xff");
    let fill = |from: usize| vec![filler; length.saturating_sub(from)];
    match random.below(6) {
        0 => [line, &fill(line.len())].concat(),
        1 => [&fill(line.len()), line].concat(),
        // The second form begins where a limit may cut.
        2 => [&fill(0), line].concat(),
        3 => [line, &fill(line.len()), line].concat(),
        4 => {
            let start = number(random, line).start;
            let zeros = vec![b'0'; length.saturating_sub(line.len())];
            splice(line, start..start, &zeros)
        }
        _ => {
            let copies = length / line.len() + 1;
            let mut many = line.repeat(copies);
            many.truncate(length);
            many
        }
    }
}

#[cfg(test)]
mod tests {
    use super::{DAMAGES, lengthen};
    use crate::form::{At, Call, Opening, Ttl};
    use samples::splitmix64::SplitMix64;

    const TTL: Ttl = Ttl { secs: 12, nanos: 0 };

    const CALLS: [Call; 12] = [
        Call::Insert(7, u64::MAX),
        Call::InsertWithTtl(7, 70, TTL),
        Call::Get(0),
        Call::Peek(17),
        Call::Contains(7),
        Call::Remove(7),
        Call::SetTtl(7, TTL),
        Call::TtlStatus(7),
        Call::PurgeExpired,
        Call::NextDeadline,
        Call::LiveLen,
        Call::Clear,
    ];

    fn forms() -> Vec<String> {
        let opening = |default_ttl| Opening {
            capacity: 2,
            limit: 4,
            seq: 0,
            default_ttl,
        };
        let mut forms = vec![opening(None).to_string(), opening(Some(TTL)).to_string()];
        forms.extend(CALLS.map(|call| At(1000, call).to_string()));
        forms
    }

    fn is_form(line: &[u8]) -> bool {
        Opening::parse(line).is_some() || At::parse(line).is_some()
    }

    #[test]
    fn what_is_written_reads_as_it_was() {
        for call in CALLS {
            let at = At(u64::MAX, call);
            assert_eq!(At::parse(at.to_string().as_bytes()), Some(at));
        }
        for line in forms() {
            assert!(is_form(line.as_bytes()), "{line}");
        }
    }

    #[test]
    fn every_damage_leaves_no_form() {
        let mut random = SplitMix64(1);
        for (i, damage) in DAMAGES.iter().enumerate() {
            for form in forms() {
                for _ in 0..500 {
                    let line = damage(&mut random, form.as_bytes());
                    assert!(!line.contains(&b'\n'), "{i}: {}", line.escape_ascii());
                    assert!(!is_form(&line), "{i}: {}", line.escape_ascii());
                }
            }
        }
    }

    #[test]
    fn no_long_line_is_a_form() {
        let mut random = SplitMix64(2);
        for form in forms() {
            for _ in 0..500 {
                let line = lengthen(&mut random, form.as_bytes(), &[122, 200, 201]);
                assert!(!is_form(&line), "{}", line.escape_ascii());
            }
        }
    }
}
