//! Answers as a session prints them.

use crate::book::{Answer, Reply};

pub fn reply(out: &mut Vec<u8>, reply: Reply) {
    out.push(b'(');
    answer(out, reply.answer);
    out.extend_from_slice(b" (thrown ");
    number(out, reply.discarded as u64);
    out.extend_from_slice(b") (heap ");
    number(out, reply.entries as u64);
    out.extend_from_slice(b") (held ");
    number(out, reply.held as u64);
    out.extend_from_slice(b"))\n");
}

fn answer(out: &mut Vec<u8>, answer: Answer) {
    match answer {
        Answer::None => out.extend_from_slice(b"none"),
        Answer::Value(value) => form(out, b"(value", &[value]),
        Answer::Yes => out.extend_from_slice(b"yes"),
        Answer::No => out.extend_from_slice(b"no"),
        Answer::Missing => out.extend_from_slice(b"missing"),
        Answer::Immortal => out.extend_from_slice(b"immortal"),
        Answer::Expired => out.extend_from_slice(b"expired"),
        Answer::Live {
            remaining,
            deadline,
        } => form(out, b"(live", &[remaining, deadline]),
        Answer::Count(count) => form(out, b"(count", &[count]),
        Answer::Due { key, deadline } => form(out, b"(due", &[key, deadline]),
        Answer::Done => out.extend_from_slice(b"done"),
        Answer::Refused(cause) => form(out, b"(refused", &[cause]),
    }
}

fn form(out: &mut Vec<u8>, name: &[u8], numbers: &[u64]) {
    out.extend_from_slice(name);
    for &n in numbers {
        out.push(b' ');
        number(out, n);
    }
    out.push(b')');
}

/// Through the standard formatting a line would take twice as long.
fn number(out: &mut Vec<u8>, mut number: u64) {
    let mut digits = [0; 20];
    let mut start = digits.len();
    loop {
        start -= 1;
        digits[start] = b'0' + (number % 10) as u8;
        number /= 10;
        if number == 0 {
            break;
        }
    }
    out.extend_from_slice(&digits[start..]);
}
