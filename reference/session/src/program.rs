//! Running a session program as a process of its own.

use crate::session::answers;
use std::io::{self, ErrorKind, Write};
use std::path::Path;
use std::process::{ChildStdin, Command, ExitStatus, Stdio};
use std::{fs, thread};

pub struct Run {
    pub answers: Vec<u8>,
    pub status: ExitStatus,
}

impl Run {
    /// Whether it is what the Rust answers.
    pub fn agrees(&self, input: &[u8]) -> bool {
        self.status.success() && self.answers == answers(input)
    }
}

/// Feeds the input to a program by a pipe, whole or in pieces of a length, each of which the program
/// reads by itself.
pub fn run(program: &Path, input: &[u8], piece: Option<usize>) -> io::Result<Run> {
    let mut child = Command::new(program)
        .stdin(Stdio::piped())
        .stdout(Stdio::piped())
        .spawn()?;
    let id = child.id();
    let pipe = child.stdin.take().expect("it is piped");
    let output = thread::scope(|scope| {
        let feeder = scope.spawn(move || feed(pipe, input, piece, id));
        let output = child.wait_with_output()?;
        feeder.join().expect("feeding does not panic")?;
        io::Result::Ok(output)
    })?;
    Ok(Run {
        answers: output.stdout,
        status: output.status,
    })
}

fn feed(mut pipe: ChildStdin, input: &[u8], piece: Option<usize>, id: u32) -> io::Result<()> {
    let fed = match piece {
        None => pipe.write_all(input),
        Some(length) => input.chunks(length).try_for_each(|piece| {
            pipe.write_all(piece)?;
            wait_for_sleep(id);
            Ok(())
        }),
    };
    match fed {
        // A refused first line ends the program, which leaves the rest unread.
        Err(error) if error.kind() == ErrorKind::BrokenPipe => Ok(()),
        fed => fed,
    }
}

/// Until the process waits, as it does once it has read all that the pipe held, or has ended.
fn wait_for_sleep(id: u32) {
    let is_busy = || {
        let stat = fs::read_to_string(format!("/proc/{id}/stat")).unwrap_or_default();
        // The state comes after the program's name, which stands in brackets.
        let state = stat
            .rsplit(") ")
            .next()
            .and_then(|rest| rest.chars().next());
        matches!(state, Some('R' | 'D'))
    };
    while is_busy() {
        thread::yield_now();
    }
}
