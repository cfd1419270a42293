use prepend_source::prepend_source;

#[rustfmt::skip]
#[path = "../../../docs/src/policy/fast_lru.rs"]
pub mod fast_lru;

#[prepend_source("../../../docs/src/policy/expiring.rs")]
pub mod expiring {
    /// Added to the source.
    impl<C, K, V, T> Expiring<C, K, V, T> {
        pub fn index(&self) -> &ExpirationIndex<K> {
            &self.index
        }

        pub fn index_mut(&mut self) -> &mut ExpirationIndex<K> {
            &mut self.index
        }
    }
}
