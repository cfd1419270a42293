//! Questions with the answers that the Rust of docs/src gives, recorded for the port to be held to.

use std::path::{Path, PathBuf};

pub mod clock;
pub mod splitmix64;

/// The folder of the recorded questions (`stdin`) and answers (`stdout`) of [`clock`].
pub fn clock_folder() -> PathBuf {
    Path::new(env!("CARGO_MANIFEST_DIR")).join("../../crates/clock_samples")
}
