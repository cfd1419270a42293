//! The recorded samples are, byte for byte, what the Rust of docs/src gives.

use std::fs;

#[test]
fn clock_samples() {
    let (questions, answers) = samples::clock::questions_and_answers();
    assert_recorded("stdin", &questions);
    assert_recorded("stdout", &answers);
}

fn assert_recorded(name: &str, expected: &str) {
    let path = samples::clock_folder().join(name);
    let recorded = fs::read_to_string(&path).unwrap_or_default();
    assert!(
        recorded == expected,
        "{} is not what the Rust gives; `cargo run --bin record` in reference records it anew",
        path.display()
    );
}
