//! Shim for cachekit's module `error`, which is not part of docs/src.

pub struct ConfigError(pub &'static str);

impl ConfigError {
    pub fn new(message: &'static str) -> Self {
        Self(message)
    }
}
