//! Records the samples anew from the Rust of docs/src.

use std::{fs, io};

fn main() -> io::Result<()> {
    let (questions, answers) = samples::clock::questions_and_answers();
    let folder = samples::clock_folder();
    fs::create_dir_all(&folder)?;
    fs::write(folder.join("stdin"), questions)?;
    fs::write(folder.join("stdout"), answers)
}
