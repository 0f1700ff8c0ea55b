//! `slotmap::SlotMap` in an `RwLock`: a get and a read share the lock.
use crate::payload::Payload;
use crate::rival::Rival;
use crate::slot_keys::{key_of, number_of};
use slotmap::{DefaultKey, SlotMap};
use std::hint::black_box;
use std::sync::{RwLock, RwLockReadGuard, RwLockWriteGuard};

pub struct RwSlotMap<V> {
    values: RwLock<SlotMap<DefaultKey, V>>,
}

impl<V: Payload> RwSlotMap<V> {
    pub fn new() -> Self {
        RwSlotMap { values: RwLock::new(SlotMap::new()) }
    }

    fn shared(&self) -> RwLockReadGuard<'_, SlotMap<DefaultKey, V>> {
        self.values.read().expect("no thread failed")
    }

    fn alone(&self) -> RwLockWriteGuard<'_, SlotMap<DefaultKey, V>> {
        self.values.write().expect("no thread failed")
    }
}

impl<V: Payload> Rival for RwSlotMap<V> {
    type Owner<'a> = ();

    fn owner(&self, _shard: usize) {}

    fn insert(&self, _owner: &mut (), words: &[u64]) -> u64 {
        let value = V::of(words);
        number_of(self.alone().insert(value))
    }

    fn remove_own(&self, _owner: &mut (), key: u64) {
        self.remove(key);
    }

    fn remove(&self, key: u64) {
        black_box(self.alone().remove(key_of(key)).expect("the key is there"));
    }

    fn hold(&self, key: u64) -> bool {
        black_box(self.shared().get(key_of(key))).is_some()
    }

    fn read(&self, key: u64) -> u64 {
        self.shared().get(key_of(key)).expect("the key is there").sum()
    }
}
