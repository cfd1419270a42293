//! Proves the layers' replays and the crates below them, and links the libraries that come of it.

use std::path::{Path, PathBuf};
use std::process::Command;
use std::{env, fs};

/// A library for each layer: in one for all of them fewer calls would be inlined.
const CRATES: [&str; 5] = [
    "replay_linked_hash_map",
    "replay_fast_lru",
    "replay_lazy_heap",
    "replay_expiration_index",
    "replay_expiring",
];

fn main() {
    let root = Path::new(env!("CARGO_MANIFEST_DIR")).join("../..");
    for input in ["crates", "crates.txt"] {
        println!("cargo:rerun-if-changed={}", root.join(input).display());
    }
    println!("cargo:rerun-if-env-changed=HAILTANSY_LIBRARIES");
    // The gate has just proved all crates, and makes the libraries before cargo begins.
    let made = env::var_os("HAILTANSY_LIBRARIES").map(PathBuf::from);
    let folder = PathBuf::from(env::var_os("OUT_DIR").expect("cargo sets OUT_DIR"));
    println!("cargo:rustc-link-search=native={}", folder.display());
    for name in CRATES {
        let libraries = made.clone().unwrap_or_else(|| prove(&root, name));
        let library = format!("lib{name}.a");
        fs::copy(libraries.join(&library), folder.join(&library)).expect("the library is there");
        println!("cargo:rustc-link-lib=static={name}");
    }
}

/// Makes a crate's library, and says in which folder it is.
fn prove(root: &Path, name: &str) -> PathBuf {
    let proof = Command::new(root.join("bindings/library"))
        .arg(name)
        .output()
        .expect("bindings/library is there");
    assert!(
        proof.status.success(),
        "`bindings/library {name}`: {}\n{}{}",
        proof.status,
        String::from_utf8_lossy(&proof.stderr),
        String::from_utf8_lossy(&proof.stdout)
    );
    root.join("target/staticlib")
}
