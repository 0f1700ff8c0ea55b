//! `sharded_slab`.
use super::Peer;
use sharded_slab::{Config, DefaultConfig, Slab};

/// A configuration with 20 bits of generation in place of 13: fewer pages, so that a thread has room for 2^30 values.
#[derive(Debug)]
pub struct TwentyBits;

impl Config for TwentyBits {
    const MAX_PAGES: usize = 25;
}

#[derive(Debug)]
pub struct Sharded<C: Config> {
    slab: Slab<u64, C>,
}

impl Sharded<DefaultConfig> {
    pub fn by_default() -> Self {
        Sharded { slab: Slab::new() }
    }
}

impl Sharded<TwentyBits> {
    pub fn of_20_bits() -> Self {
        Sharded { slab: Slab::new_with_config() }
    }
}

impl<C: Config> Peer for Sharded<C> {
    fn insert(&self, value: u64) -> u64 {
        self.slab.insert(value).expect("the slab has room") as u64
    }

    fn hold(&self, key: u64, act: &mut dyn FnMut(u64)) {
        if let Some(guard) = self.slab.get(key as usize) {
            act(*guard);
        }
    }

    fn remove(&self, key: u64) -> bool {
        self.slab.remove(key as usize)
    }
}
