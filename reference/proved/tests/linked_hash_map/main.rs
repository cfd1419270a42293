//! The proved map against a plain model, against junk, and its check against another one.

mod check;
mod junk;
mod layout;
mod model;
mod random;
#[path = "../shared/mod.rs"]
mod shared;
