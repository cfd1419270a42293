pub mod cell;
#[rustfmt::skip]
#[path = "../../../docs/src/metrics/metrics_impl.rs"]
pub mod metrics_impl;
pub mod snapshot;
pub mod traits;
