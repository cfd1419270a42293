//! The proved crates, called from Rust.

pub mod expiration_index;
pub mod expiring;
mod exports;
pub mod fast_lru;
pub mod lazy_heap;
pub mod linked_hash_map;
pub mod replay;
