//! The proved book against the Rust's `Expiring<FastLru>`, and against junk.

mod beside;
mod junk;
mod random;
#[path = "../shared/mod.rs"]
#[allow(dead_code)]
mod shared;
