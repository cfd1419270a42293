//! The proved recency list against the Rust's `FastLru`, and against junk.

mod beside;
mod junk;
mod random;
#[path = "../shared/mod.rs"]
mod shared;
