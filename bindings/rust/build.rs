//! Proves the cache and links the library that comes of it.

use std::path::{Path, PathBuf};
use std::process::Command;
use std::{env, fs};

fn main() {
    let root = Path::new(env!("CARGO_MANIFEST_DIR")).join("../..");
    for input in ["crates", "crates.txt"] {
        println!("cargo:rerun-if-changed={}", root.join(input).display());
    }
    println!("cargo:rerun-if-env-changed=HAILTANSY_LIBRARIES");
    // The gate has just proved all crates, and makes the libraries before cargo begins.
    let libraries = match env::var_os("HAILTANSY_LIBRARIES") {
        Some(made) => PathBuf::from(made),
        None => prove(&root),
    };
    let folder = PathBuf::from(env::var_os("OUT_DIR").expect("cargo sets OUT_DIR"));
    fs::copy(
        libraries.join("libhailtansy.a"),
        folder.join("libhailtansy.a"),
    )
    .expect("the library is there");
    println!("cargo:rustc-link-search=native={}", folder.display());
    println!("cargo:rustc-link-lib=static=hailtansy");
}

/// Makes the library, and says in which folder it is.
fn prove(root: &Path) -> PathBuf {
    let proof = Command::new(root.join("bindings/library"))
        .arg("hailtansy")
        .output()
        .expect("bindings/library is there");
    assert!(
        proof.status.success(),
        "`bindings/library hailtansy`: {}\n{}{}",
        proof.status,
        String::from_utf8_lossy(&proof.stderr),
        String::from_utf8_lossy(&proof.stdout)
    );
    root.join("target/staticlib")
}
