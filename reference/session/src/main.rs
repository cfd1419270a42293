//! The session program over the Rust of docs/src: a session goes in, its answers come out.

use session::session::Session;
use std::io::{self, ErrorKind, Read, Write};

const BLOCK: usize = 1 << 16;

/// Where input or output fails there is nobody left to answer, and the session is over.
fn main() {
    let _ = run(io::stdin().lock(), io::stdout().lock());
}

fn run(mut input: impl Read, mut output: impl Write) -> io::Result<()> {
    let mut session = Session::default();
    let mut block = vec![0; BLOCK];
    let mut out = Vec::with_capacity(2 * BLOCK);
    while !session.is_over() {
        let length = match input.read(&mut block) {
            Err(error) if error.kind() == ErrorKind::Interrupted => continue,
            length => length?,
        };
        if length == 0 {
            session.end(&mut out);
            return write(&mut output, &mut out);
        }
        session.read(&block[..length], &mut out);
        write(&mut output, &mut out)?;
    }
    Ok(())
}

fn write(output: &mut impl Write, out: &mut Vec<u8>) -> io::Result<()> {
    output.write_all(out)?;
    out.clear();
    output.flush()
}
