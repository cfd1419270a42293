//! The proved heap against the Rust's `LazyMinHeap`, against junk, and its check against another
//! one.

mod beside;
mod check;
mod junk;
#[path = "../linked_hash_map/layout.rs"]
mod layout;
mod random;
#[path = "../shared/mod.rs"]
mod shared;
