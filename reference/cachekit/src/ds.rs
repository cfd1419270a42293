use prepend_source::prepend_source;

#[prepend_source("../../../docs/src/ds/lazy_heap.rs")]
pub mod lazy_heap {
    /// Added to the source.
    impl<K, S> LazyMinHeap<K, S> {
        /// The sequence number that the next update takes.
        pub fn seq(&self) -> u64 {
            self.seq
        }

        /// For a heap without entries: a number taken before could bring a stale entry to life.
        pub fn set_seq(&mut self, seq: u64) {
            self.seq = seq;
        }
    }
}

#[prepend_source("../../../docs/src/ds/expiration_index.rs")]
pub mod expiration_index {
    /// Added to the source.
    impl<K> ExpirationIndex<K> {
        pub fn heap(&self) -> &LazyMinHeap<K, Deadline> {
            &self.heap
        }

        pub fn heap_mut(&mut self) -> &mut LazyMinHeap<K, Deadline> {
            &mut self.heap
        }
    }
}
