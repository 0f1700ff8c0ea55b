//! The crate `slab` behind a lock. A value that is held is a copy.
use super::Peer;
use slab::Slab;
use std::sync::{Mutex, MutexGuard};

#[derive(Debug, Default)]
pub struct MutexSlab {
    slab: Mutex<Slab<u64>>,
}

impl MutexSlab {
    fn lock(&self) -> MutexGuard<'_, Slab<u64>> {
        self.slab.lock().expect("nothing panics while it is locked")
    }
}

impl Peer for MutexSlab {
    fn insert(&self, value: u64) -> u64 {
        self.lock().insert(value) as u64
    }

    fn hold(&self, key: u64, act: &mut dyn FnMut(u64)) {
        let value = self.lock().get(key as usize).copied();
        value.into_iter().for_each(act);
    }

    fn remove(&self, key: u64) -> bool {
        self.lock().try_remove(key as usize).is_some()
    }
}
