//! `DashMap`, whose keys count up and whose values are behind an `Arc`.
use crate::payload::Payload;
use crate::rival::Rival;
use dashmap::DashMap;
use std::hint::black_box;
use std::sync::atomic::{AtomicU64, Ordering::Relaxed};
use std::sync::Arc;

pub struct Dash<V> {
    values: DashMap<u64, Arc<V>>,
    // No key is given out twice: the next one.
    next: AtomicU64,
}

impl<V: Payload> Dash<V> {
    pub fn new() -> Self {
        Dash { values: DashMap::new(), next: AtomicU64::new(0) }
    }

    // A hold: it keeps its value, also once that is removed, as a hold of the heap does.
    fn held(&self, key: u64) -> Option<Arc<V>> {
        self.values.get(&key).map(|value| Arc::clone(&value))
    }
}

impl<V: Payload> Rival for Dash<V> {
    type Owner<'a> = ();

    fn owner(&self, _shard: usize) {}

    fn insert(&self, _owner: &mut (), words: &[u64]) -> u64 {
        let key = self.next.fetch_add(1, Relaxed);
        self.values.insert(key, Arc::new(V::of(words)));
        key
    }

    fn remove_own(&self, _owner: &mut (), key: u64) {
        self.remove(key);
    }

    fn remove(&self, key: u64) {
        black_box(self.values.remove(&key)).expect("the key is there");
    }

    fn hold(&self, key: u64) -> bool {
        black_box(self.held(key)).is_some()
    }

    fn read(&self, key: u64) -> u64 {
        self.held(key).expect("the key is there").sum()
    }
}
