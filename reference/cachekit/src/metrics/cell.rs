//! Shim for cachekit's module `metrics::cell`, which is not part of docs/src.

use std::cell::Cell;

/// A counter that can be raised through a shared reference.
#[derive(Debug, Default, Clone, PartialEq, Eq)]
pub struct MetricsCell(Cell<u64>);

impl MetricsCell {
    pub fn get(&self) -> u64 {
        self.0.get()
    }

    pub fn incr(&self) {
        self.0.set(self.0.get() + 1);
    }
}
