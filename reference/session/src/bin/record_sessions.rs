//! Records the sessions of tests/sessions anew from the Rust of docs/src.

use session::kinds::Kind;
use session::recorded::{file, path};
use std::{fs, io};

fn main() -> io::Result<()> {
    for kind in Kind::ALL {
        fs::write(path(kind), file(kind))?;
    }
    Ok(())
}
