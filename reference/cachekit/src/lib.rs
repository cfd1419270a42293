//! The part of cachekit that docs/src holds, compiled where it stands and unchanged.
//!
//! Modules that the source leans on and docs/src lacks are shims: `error`, and three in `metrics`.
//! `ds` and `policy` add accessors for private fields. docs/src/policy/mfu.rs is left out. rustfmt
//! skips the source, which it would otherwise rewrite.

use std::time::Duration;

pub mod ds;
pub mod error;
pub mod metrics;
pub mod policy;
#[rustfmt::skip]
#[path = "../../../docs/src/time.rs"]
pub mod time;
#[rustfmt::skip]
#[path = "../../../docs/src/traits.rs"]
pub mod traits;

/// Opens `time::duration_to_ticks`, which the source shares within its crate only.
pub fn duration_to_ticks(duration: Duration) -> u64 {
    time::duration_to_ticks(duration)
}
