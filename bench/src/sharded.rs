//! `sharded_slab`.
use crate::payload::Payload;
use crate::rival::Rival;
use sharded_slab::Slab;
use std::hint::black_box;

pub struct Sharded<V> {
    slab: Slab<V>,
}

impl<V: Payload> Sharded<V> {
    pub fn new() -> Self {
        Sharded { slab: Slab::new() }
    }
}

impl<V: Payload> Rival for Sharded<V> {
    // A thread has its shard by its number, which the crate keeps.
    type Owner<'a> = ();

    fn owner(&self, _shard: usize) {}

    fn insert(&self, _owner: &mut (), words: &[u64]) -> u64 {
        self.slab.insert(V::of(words)).expect("the slab has room") as u64
    }

    fn remove_own(&self, _owner: &mut (), key: u64) {
        self.remove(key);
    }

    fn remove(&self, key: u64) {
        assert!(self.slab.remove(key as usize));
    }

    fn hold(&self, key: u64) -> bool {
        black_box(self.slab.get(key as usize)).is_some()
    }

    fn read(&self, key: u64) -> u64 {
        self.slab.get(key as usize).expect("the key is there").sum()
    }
}
