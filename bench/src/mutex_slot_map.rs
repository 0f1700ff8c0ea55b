//! `slotmap::SlotMap` in a `Mutex`.
use crate::payload::Payload;
use crate::rival::Rival;
use crate::slot_keys::{key_of, number_of};
use slotmap::{DefaultKey, SlotMap};
use std::hint::black_box;
use std::sync::{Mutex, MutexGuard};

pub struct MutexSlotMap<V> {
    values: Mutex<SlotMap<DefaultKey, V>>,
}

impl<V: Payload> MutexSlotMap<V> {
    pub fn new() -> Self {
        MutexSlotMap { values: Mutex::new(SlotMap::new()) }
    }

    fn lock(&self) -> MutexGuard<'_, SlotMap<DefaultKey, V>> {
        self.values.lock().expect("no thread failed")
    }
}

impl<V: Payload> Rival for MutexSlotMap<V> {
    type Owner<'a> = ();

    fn owner(&self, _shard: usize) {}

    fn insert(&self, _owner: &mut (), words: &[u64]) -> u64 {
        let value = V::of(words);
        number_of(self.lock().insert(value))
    }

    fn remove_own(&self, _owner: &mut (), key: u64) {
        self.remove(key);
    }

    fn remove(&self, key: u64) {
        black_box(self.lock().remove(key_of(key)).expect("the key is there"));
    }

    fn hold(&self, key: u64) -> bool {
        black_box(self.lock().get(key_of(key))).is_some()
    }

    fn read(&self, key: u64) -> u64 {
        self.lock().get(key_of(key)).expect("the key is there").sum()
    }
}
