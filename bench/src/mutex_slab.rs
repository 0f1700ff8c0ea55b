//! `slab` in a `Mutex`.
use crate::payload::Payload;
use crate::rival::Rival;
use slab::Slab;
use std::hint::black_box;
use std::sync::{Mutex, MutexGuard};

pub struct MutexSlab<V> {
    slab: Mutex<Slab<V>>,
}

impl<V: Payload> MutexSlab<V> {
    pub fn new() -> Self {
        MutexSlab { slab: Mutex::new(Slab::new()) }
    }

    fn lock(&self) -> MutexGuard<'_, Slab<V>> {
        self.slab.lock().expect("no thread failed")
    }
}

impl<V: Payload> Rival for MutexSlab<V> {
    type Owner<'a> = ();

    fn owner(&self, _shard: usize) {}

    fn insert(&self, _owner: &mut (), words: &[u64]) -> u64 {
        let value = V::of(words);
        self.lock().insert(value) as u64
    }

    fn remove_own(&self, _owner: &mut (), key: u64) {
        self.remove(key);
    }

    fn remove(&self, key: u64) {
        black_box(self.lock().remove(key as usize));
    }

    fn hold(&self, key: u64) -> bool {
        black_box(self.lock().get(key as usize)).is_some()
    }

    fn read(&self, key: u64) -> u64 {
        self.lock().get(key as usize).expect("the key is there").sum()
    }
}
