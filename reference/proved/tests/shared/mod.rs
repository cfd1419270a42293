//! What the tests of all layers share.

pub mod guarded;
pub mod junk;
pub mod lists;
