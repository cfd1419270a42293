//! Document 01's session program over the Rust of docs/src, and what the proved program is held to by
//! it: recorded sessions, and random ones run through both.

pub mod book;
pub mod damage;
pub mod day;
pub mod form;
pub mod kinds;
mod print;
pub mod program;
pub mod recorded;
pub mod session;
