//! The recorded sessions are, byte for byte, what the Rust of docs/src gives, and each kind of them
//! has in it what it is named for.

use session::book::{Answer, Book, Reply};
use session::form::{At, Call, Opening};
use session::kinds::Kind;
use session::recorded::{SESSIONS, file, input, path};
use session::session::{Session, answers};
use std::fs;

#[test]
fn files() {
    for kind in Kind::ALL {
        let path = path(kind);
        assert!(
            fs::read(&path).unwrap_or_default() == file(kind),
            "{} is not what the Rust gives; `cargo run --bin record_sessions` in reference records it anew",
            path.display()
        );
    }
}

fn inputs(kind: Kind) -> impl Iterator<Item = Vec<u8>> {
    (0..SESSIONS).map(move |number| input(kind, number))
}

fn text(bytes: &[u8]) -> String {
    String::from_utf8_lossy(bytes).into_owned()
}

/// How many answers of a kind's sessions have a text in them.
fn count(kind: Kind, part: &str) -> usize {
    inputs(kind)
        .map(|input| text(&answers(&input)).matches(part).count())
        .sum()
}

#[test]
fn every_answer_is_there() {
    let parts = [
        "(none ",
        "((value ",
        "(yes ",
        "(no ",
        "(missing ",
        "(immortal ",
        "(expired ",
        "((live ",
        "((count ",
        "((due ",
        "(done ",
    ];
    for part in parts {
        assert!(5 <= count(Kind::Churn, part), "{part}");
    }
    for (kind, number) in [
        (Kind::RefusedOpening, 1),
        (Kind::RefusedOpening, 3),
        (Kind::RefusedOpening, 6),
        (Kind::RefusedCalls, 3),
        (Kind::RefusedCalls, 4),
        (Kind::RefusedCalls, 6),
        (Kind::FewDeadlines, 4),
        (Kind::Malformed, 6),
        (Kind::LongLines, 6),
    ] {
        let refusals = count(kind, &format!("((refused {number}) "));
        assert!(20 <= refusals, "{kind:?} {number}: {refusals}");
    }
    assert!(50 <= count(Kind::LongestTtls, " 18446744073709551614) (thrown"));
}

/// The replies to all calls of a kind's sessions, each with its call and the next sequence numbers before and after.
fn steps(kind: Kind) -> Vec<(At, Reply, [u64; 2])> {
    let mut steps = Vec::new();
    for input in inputs(kind) {
        let mut lines = input.split(|&byte| byte == b'\n');
        let opening = lines.next().and_then(Opening::parse).expect("a first line");
        let mut book = Book::open(opening).expect("a book");
        for at in lines.filter_map(At::parse) {
            let seq = book.seq();
            let reply = book.call(at);
            steps.push((at, reply, [seq, book.seq()]));
        }
    }
    steps
}

#[test]
fn numbers_run_out() {
    let steps = steps(Kind::LastNumbers);
    let renumberings = || {
        steps
            .iter()
            .filter(|(_, _, [before, after])| after < before)
    };
    let discards = renumberings().filter(|(_, reply, _)| 0 < reply.discarded);
    assert!(100 <= renumberings().count());
    assert!(10 <= discards.count());
}

#[test]
fn clocks_go_back() {
    let steps = steps(Kind::ClockBack);
    let back = steps.windows(2).filter(|pair| pair[1].0.0 < pair[0].0.0);
    assert!(500 <= back.count());
}

#[test]
fn nothing_is_stored_at_capacity_0() {
    for (At(_, call), reply, _) in steps(Kind::NoCapacity) {
        if matches!(call, Call::TtlStatus(_)) {
            assert_eq!(reply.answer, Answer::Missing);
        }
    }
    assert!(100 <= count(Kind::NoCapacity, "((due "));
}

#[test]
fn defaults_of_no_ticks() {
    let openings = inputs(Kind::DefaultTtl)
        .map(|input| text(&input))
        .filter(|input| {
            let line = input.lines().next().expect("a first line");
            line.ends_with(" (ttl 0 0))") || line.ends_with(" (ttl 0 999999))")
        });
    assert!(10 <= openings.count());
}

#[test]
fn lines_at_the_limit() {
    let of = |length| {
        inputs(Kind::LongLines)
            .map(|input| {
                let lines = input.split(|&byte| byte == b'\n');
                lines.filter(|line| line.len() == length).count()
            })
            .sum::<usize>()
    };
    assert!(30 <= of(200).min(of(201)), "{} {}", of(200), of(201));
}

#[test]
fn inputs_that_break_off() {
    assert!(inputs(Kind::NoLastNewline).all(|input| input.last() != Some(&b'\n')));
    let lengths: Vec<usize> = inputs(Kind::CutShort).map(|input| input.len()).collect();
    assert!(lengths.starts_with(&[0, 1, 2, 3, 4, 5, 6, 7, 8, 9, 10, 11, 12, 13, 14, 15, 16]));
}

/// Wherever the blocks of an input may break, its answers are the same.
#[test]
fn blocks_of_any_length() {
    for kind in Kind::ALL {
        for input in inputs(kind) {
            for length in [1, 2, 3, 7, 64, 199, 200, 201] {
                let mut session = Session::default();
                let mut out = Vec::new();
                for block in input.chunks(length) {
                    session.read(block, &mut out);
                }
                session.end(&mut out);
                assert!(out == answers(&input), "{kind:?}: {}", text(&input));
            }
        }
    }
}
