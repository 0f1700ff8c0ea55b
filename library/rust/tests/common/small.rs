//! A small slab or pool.
use gearlongan::slab::Config;

/// One heap, which has room for 4 shards of 384 values.
pub(crate) struct Small;

impl Config for Small {
    const INITIAL_PAGE_SIZE: usize = 1;
    const MAX_PAGES: usize = 1;
    const MAX_THREADS: usize = 1;
}
