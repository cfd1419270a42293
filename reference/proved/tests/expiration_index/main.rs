//! The proved index against the Rust's `ExpirationIndex`, and against junk.

mod beside;
mod junk;
mod random;
#[path = "../shared/mod.rs"]
mod shared;
