//! A session: its input goes in block by block, wherever the blocks may break, and its answers come
//! out.

use crate::book::{Answer, Book, Reply};
use crate::form::{At, MAX_LINE, Opening};
use crate::print;

#[derive(Default)]
pub struct Session {
    state: State,
    /// The start of a line that the last block broke off in. Of a line that is too long it holds no
    /// more than shows that it is.
    partial: Vec<u8>,
}

#[derive(Default)]
enum State {
    #[default]
    Unopened,
    Open(Box<Book>),
    /// The first line was refused.
    Over,
}

impl Session {
    pub fn is_over(&self) -> bool {
        matches!(self.state, State::Over)
    }

    pub fn read(&mut self, block: &[u8], out: &mut Vec<u8>) {
        let mut rest = block;
        while let Some(length) = rest.iter().position(|&byte| byte == b'\n') {
            let line = &rest[..length];
            if self.partial.is_empty() {
                self.answer(line, out);
            } else {
                self.keep(line);
                self.answer_partial(out);
            }
            rest = &rest[length + 1..];
        }
        self.keep(rest);
    }

    /// The last line may lack its newline.
    pub fn end(&mut self, out: &mut Vec<u8>) {
        if !self.partial.is_empty() {
            self.answer_partial(out);
        }
    }

    fn keep(&mut self, bytes: &[u8]) {
        let room = MAX_LINE + 1 - self.partial.len();
        self.partial.extend(bytes.iter().take(room));
    }

    fn answer_partial(&mut self, out: &mut Vec<u8>) {
        let mut line = std::mem::take(&mut self.partial);
        self.answer(&line, out);
        line.clear();
        self.partial = line;
    }

    fn answer(&mut self, line: &[u8], out: &mut Vec<u8>) {
        match &mut self.state {
            State::Unopened => match open(line) {
                Ok(book) => self.state = State::Open(Box::new(book)),
                Err(number) => {
                    self.state = State::Over;
                    print::reply(out, refused(number));
                }
            },
            State::Open(book) => {
                let reply = match At::parse(line) {
                    Some(at) => book.call(at),
                    None => book.refuse(6),
                };
                print::reply(out, reply);
            }
            State::Over => {}
        }
    }
}

fn open(line: &[u8]) -> Result<Book, u64> {
    Book::open(Opening::parse(line).ok_or(6_u64)?)
}

/// Without a book.
fn refused(number: u64) -> Reply {
    Reply {
        answer: Answer::Refused(number),
        discarded: 0,
        entries: 0,
        held: 0,
    }
}

/// The answers to a whole input.
pub fn answers(input: &[u8]) -> Vec<u8> {
    let mut session = Session::default();
    let mut out = Vec::new();
    session.read(input, &mut out);
    session.end(&mut out);
    out
}
