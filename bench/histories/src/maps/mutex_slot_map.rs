//! `SlotMap` of the crate `slotmap` behind a lock. A value that is held is a copy.
use super::Peer;
use slotmap::{DefaultKey, Key, KeyData, SlotMap};
use std::sync::{Mutex, MutexGuard};

#[derive(Debug, Default)]
pub struct MutexSlotMap {
    map: Mutex<SlotMap<DefaultKey, u64>>,
}

impl MutexSlotMap {
    fn lock(&self) -> MutexGuard<'_, SlotMap<DefaultKey, u64>> {
        self.map.lock().expect("nothing panics while it is locked")
    }
}

fn key_of(number: u64) -> DefaultKey {
    KeyData::from_ffi(number).into()
}

impl Peer for MutexSlotMap {
    fn insert(&self, value: u64) -> u64 {
        self.lock().insert(value).data().as_ffi()
    }

    fn hold(&self, key: u64, act: &mut dyn FnMut(u64)) {
        let value = self.lock().get(key_of(key)).copied();
        value.into_iter().for_each(act);
    }

    fn remove(&self, key: u64) -> bool {
        self.lock().remove(key_of(key)).is_some()
    }
}
