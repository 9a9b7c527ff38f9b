//! The five calls that the binary writer makes on an `IndexMap`.
//!
//! The crate is written for indexmap 2, Debian has 1.9: there `get_index_mut` lends the key to be
//! changed, which the writer's types don't fit. All else is handed on.

use std::hash::Hash;

pub struct IndexMap<K, V> {
    inner: debian_indexmap::IndexMap<K, V>,
}

impl<K: Hash + Eq, V> IndexMap<K, V> {
    pub fn new() -> Self {
        IndexMap {
            inner: debian_indexmap::IndexMap::new(),
        }
    }

    pub fn clear(&mut self) {
        self.inner.clear();
    }

    pub fn get_full(&self, key: &K) -> Option<(usize, &K, &V)> {
        self.inner.get_full(key)
    }

    pub fn insert_full(&mut self, key: K, value: V) -> (usize, Option<V>) {
        self.inner.insert_full(key, value)
    }

    pub fn get_index_mut(&mut self, index: usize) -> Option<(&K, &mut V)> {
        let (key, value) = self.inner.get_index_mut(index)?;
        Some((key, value))
    }
}
