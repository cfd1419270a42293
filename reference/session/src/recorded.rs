//! The sessions of tests/sessions, a file for each kind.

use crate::kinds::{self, Kind, Size};
use crate::session::answers;
use std::path::{Path, PathBuf};

/// Of every kind.
pub const SESSIONS: u64 = 200;

const SIZE: Size = Size {
    capacity: 5,
    lines: 22,
    long_lines: &[122, 199, 200, 200, 200, 201, 201, 201, 202, 256, 600],
};

pub fn path(kind: Kind) -> PathBuf {
    let folder = Path::new(env!("CARGO_MANIFEST_DIR")).join("../../tests/sessions");
    folder.join(format!("{}.sessions", kind.name()))
}

pub fn input(kind: Kind, number: u64) -> Vec<u8> {
    kinds::session(kind, number, SIZE)
}

/// All sessions of a kind, each as its input and its answers. Since any byte may stand in an input, the
/// line before each part says how many bytes it has; a newline follows the part.
pub fn file(kind: Kind) -> Vec<u8> {
    let mut file = Vec::new();
    for number in 0..SESSIONS {
        let input = input(kind, number);
        let answers = answers(&input);
        for (part, bytes) in [("input", input), ("answers", answers)] {
            let name = kind.name();
            let header = format!("{name} {number} {part}: {} bytes\n", bytes.len());
            file.extend([header.as_bytes(), &bytes, b"\n"].concat());
        }
    }
    file
}
