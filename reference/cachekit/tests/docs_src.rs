//! docs/src holds the files that docs-src.sha256 records, each unchanged, and no other.

use std::collections::BTreeSet;
use std::fs;
use std::path::{Path, PathBuf};
use std::process::Command;

const REFERENCE: &str = concat!(env!("CARGO_MANIFEST_DIR"), "/..");

fn docs_src() -> PathBuf {
    Path::new(REFERENCE).join("../docs/src")
}

fn record() -> PathBuf {
    Path::new(REFERENCE).join("docs-src.sha256")
}

#[test]
fn every_recorded_file_is_unchanged() {
    let check = Command::new("sha256sum")
        .args(["--check", "--strict", "--quiet"])
        .arg(record())
        .current_dir(docs_src())
        .output()
        .expect("sha256sum runs");
    assert!(
        check.status.success(),
        "{}{}",
        String::from_utf8_lossy(&check.stdout),
        String::from_utf8_lossy(&check.stderr)
    );
}

#[test]
fn the_files_are_those_recorded() {
    let record = fs::read_to_string(record()).unwrap();
    let recorded = record
        .lines()
        .map(|line| line.split_once("  ").expect("CHECKSUM  PATH").1.into())
        .collect();
    let mut found = BTreeSet::new();
    collect_files(&docs_src(), Path::new(""), &mut found);
    assert_eq!(found, recorded);
}

/// Adds the files below `root`/`folder`, as paths from `root`.
fn collect_files(root: &Path, folder: &Path, files: &mut BTreeSet<PathBuf>) {
    for entry in fs::read_dir(root.join(folder)).unwrap() {
        let entry = entry.unwrap();
        let path = folder.join(entry.file_name());
        if entry.file_type().unwrap().is_dir() {
            collect_files(root, &path, files);
        } else {
            files.insert(path);
        }
    }
}
