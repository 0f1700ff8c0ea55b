//! What one thread has of a slab's heaps: a pass of each heap that it removed a key from, and the shard that it inserts
//! into.
use super::chunk::Chunk;
use super::heaps::{Heaps, Need};
use super::number;
use crate::{Key, Pass, Shard};

/// A thread that found no shard, or no pass, searches again after this many calls.
const SKIPS: u32 = 64;

/// The shard that a thread inserts into.
pub(super) struct Own {
    pub(super) shard: Shard,
    pub(super) heap: usize,
    number: u32,
}

/// What a thread has of one heap.
#[derive(Default)]
struct Local {
    pass: Option<Pass>,
    // It does not ask the heap for a pass for this many calls.
    skips: u32,
}

/// What a thread has of one slab.
#[derive(Default)]
pub(super) struct Member {
    pub(super) own: Option<Own>,
    // By the numbers of heaps. The pass that owns the shard is in `own`.
    locals: Vec<Local>,
    // It does not search a shard for this many inserts.
    skips: u32,
    // The last search found that all shards with room are taken.
    asked: bool,
}

impl Member {
    // What it has of this heap. None if memory is refused.
    fn local(&mut self, heap: usize) -> Option<&mut Local> {
        if self.locals.len() <= heap {
            self.locals.try_reserve(heap + 1 - self.locals.len()).ok()?;
            self.locals.resize_with(heap + 1, Local::default);
        }
        self.locals.get_mut(heap)
    }

    // A pass of this heap, which does not own a shard.
    fn pass(&mut self, heap: usize, chunk: &Chunk) -> Option<&mut Option<Pass>> {
        let local = self.local(heap)?;
        if local.pass.is_none() {
            if local.skips > 0 {
                local.skips -= 1;
                return None;
            }
            local.pass = chunk.take_pass();
            local.skips = SKIPS;
        }
        local.pass.is_some().then_some(&mut local.pass)
    }

    /// Leaves the shard. If a thread is in the middle of a free there it stays.
    pub(super) fn leave(&mut self, heaps: &Heaps) -> bool {
        let Some(Own { shard, heap, number }) = self.own.take() else { return true };
        match shard.leave() {
            Ok(pass) => {
                if let Some(local) = self.local(heap) {
                    local.pass = Some(pass);
                }
                if let Some(chunk) = heaps.chunk(heap) {
                    chunk.release(number);
                }
                true
            }
            Err(refused) => {
                self.own = Some(Own { shard: refused.shard, heap, number });
                false
            }
        }
    }

    // Gives the shard back if another thread asked for one, and searches no other for a while.
    fn answer(&mut self, heaps: &Heaps) {
        if heaps.is_asked() && self.own.is_some() && heaps.answer() && self.leave(heaps) {
            self.skips = SKIPS;
        }
    }

    // Adopts a shard that was claimed: whether it could.
    fn adopt(&mut self, heap: usize, chunk: &Chunk, number: u32) -> bool {
        let Some(pass) = self.pass(heap, chunk).and_then(Option::take) else { return false };
        match pass.adopt(number) {
            Ok(shard) => {
                self.own = Some(Own { shard, heap, number });
                self.asked = false;
                true
            }
            Err(refused) => {
                if let Some(local) = self.local(heap) {
                    local.pass = Some(refused.pass);
                }
                false
            }
        }
    }

    // Searches a shard, and opens a heap if there is none: whether it has one now.
    fn search(&mut self, heaps: &Heaps) -> bool {
        if self.skips > 0 {
            self.skips -= 1;
            return false;
        }
        let seen = heaps.opened();
        let Err(need) = heaps.search(|heap, chunk, shard| self.adopt(heap, chunk, shard)) else { return true };
        // At first it asks for a shard, and uses the shared ones for a while.
        let asks = need == Need::Shards && !self.asked;
        self.asked = asks;
        if asks {
            heaps.ask();
        } else if heaps.grow(seen, need) && heaps.search(|heap, chunk, shard| self.adopt(heap, chunk, shard)).is_ok() {
            return true;
        }
        self.skips = SKIPS;
        false
    }

    /// A number of a shard of its own. None if it has none.
    pub(super) fn insert(&mut self, heaps: &Heaps) -> Option<u64> {
        self.answer(heaps);
        if let Some(number) = self.insert_own(heaps) {
            return Some(number);
        }
        if !self.leave(heaps) {
            return None;
        }
        if !self.search(heaps) {
            return None;
        }
        self.insert_own(heaps)
    }

    /// The same, if some shard may have room again: it searches at once.
    pub(super) fn insert_after_search(&mut self, heaps: &Heaps) -> Option<u64> {
        self.skips = 0;
        self.insert(heaps)
    }

    fn insert_own(&mut self, heaps: &Heaps) -> Option<u64> {
        let own = self.own.as_ref()?;
        let key = heaps.chunk(own.heap)?.insert(own.number, &own.shard)?;
        Some(number::number(own.heap, key))
    }

    /// Removes a key: whether it has a pass for it.
    pub(super) fn remove(&mut self, heaps: &Heaps, heap: usize, chunk: &Chunk, key: Key) -> bool {
        self.answer(heaps);
        if let Some(own) = self.own.as_ref().filter(|own| own.heap == heap) {
            remove(&own.shard, key);
            return true;
        }
        let Some(Some(pass)) = self.pass(heap, chunk) else { return false };
        remove(pass, key);
        true
    }
}

/// Removes a key that was issued and is not removed.
#[inline]
pub(super) fn remove(pass: &Pass, key: Key) {
    let removed = pass.remove(key);
    debug_assert!(removed.is_ok(), "a key that was issued can be removed");
}
