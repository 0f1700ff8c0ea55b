//! `DashMap` of `Arc`, whose keys count up. A value that is held is a clone of its `Arc`.
use super::Peer;
use dashmap::DashMap;
use std::sync::atomic::{AtomicU64, Ordering};
use std::sync::Arc;

#[derive(Debug, Default)]
pub struct Dash {
    map: DashMap<u64, Arc<u64>>,
    next_key: AtomicU64,
}

impl Peer for Dash {
    fn insert(&self, value: u64) -> u64 {
        let key = self.next_key.fetch_add(1, Ordering::Relaxed);
        self.map.insert(key, Arc::new(value));
        key
    }

    fn hold(&self, key: u64, act: &mut dyn FnMut(u64)) {
        let held = self.map.get(&key).map(|value| Arc::clone(&value));
        if let Some(value) = held {
            act(*value);
        }
    }

    fn remove(&self, key: u64) -> bool {
        self.map.remove(&key).is_some()
    }
}
