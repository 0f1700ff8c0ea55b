//! What all threads have of a slab's heaps.
use super::chunk::Chunk;
use super::config::Limits;
use super::heaps::{Heaps, Need};
use super::member::{remove, Member, Own};
use super::number;
use crate::threads::{Leave, Slots};
use crate::{Error, Key};
use std::sync::{Arc, Weak};

/// How often the end of a thread tries to leave its shard, while others are in the middle of a free there.
const LEAVE_TRIES: u32 = 1000;

/// The heaps of a slab and what threads have of them.
pub(super) struct Members {
    heaps: Heaps,
    slots: Slots<Member>,
    // Itself, as threads remember it.
    own: Weak<Members>,
}

impl Members {
    /// Opens the first heap. Nothing of it is taken.
    pub(super) fn open(limits: Limits) -> Result<Arc<Members>, Error> {
        let heaps = Heaps::open(limits)?;
        Ok(Arc::new_cyclic(|own| Members { heaps, slots: Slots::new(), own: own.clone() }))
    }

    /// Runs it with what this thread has. None if the thread cannot have anything: it ends, memory is refused, or the
    /// call comes from an allocator below another.
    fn with_member<R>(&self, act: impl FnOnce(&mut Member) -> R) -> Option<R> {
        self.slots.change(&self.own, act)
    }

    // What this thread has, if it has a shard that no other thread asked for.
    #[inline]
    fn owner(&self) -> Option<&Own> {
        let member = self.slots.member()?;
        member.own.as_ref().filter(|_| !self.heaps.is_asked())
    }

    /// The number of a key for a value that is stored elsewhere. None if there is no room.
    #[inline]
    pub(super) fn insert(&self) -> Option<u64> {
        if let Some(own) = self.owner() {
            if let Ok(key) = own.shard.insert_once(&[]) {
                return Some(number::number(own.heap, key));
            }
        }
        self.insert_elsewhere()
    }

    // The same, if the thread has no shard, or its own is full.
    #[cold]
    fn insert_elsewhere(&self) -> Option<u64> {
        let inserted = self.with_member(|member| member.insert(&self.heaps)).flatten();
        inserted.or_else(|| self.insert_shared())
    }

    // The same, in a shard that threads share, or after the slab has grown.
    fn insert_shared(&self) -> Option<u64> {
        loop {
            let seen = self.heaps.opened();
            if let Some(number) = self.heaps.insert_shared() {
                return Some(number);
            }
            if !self.heaps.grow(seen, Need::Room) {
                break;
            }
        }
        if !self.heaps.forgive() {
            return None;
        }
        let searched = self.with_member(|member| member.insert_after_search(&self.heaps)).flatten();
        searched.or_else(|| self.heaps.insert_shared())
    }

    /// Removes the key of this number, which was issued and not removed.
    #[inline]
    pub(super) fn remove(&self, number: u64) {
        let (heap, key) = (number::heap(number), number::key(number));
        let Some(chunk) = self.heaps.chunk(heap) else { return };
        match self.owner() {
            Some(own) if own.heap == heap => remove(&own.shard, key),
            _ => self.remove_elsewhere(heap, chunk, key),
        }
        chunk.note_removal(number::shard(number));
    }

    // The same, if the thread owns no shard of the key's heap.
    fn remove_elsewhere(&self, heap: usize, chunk: &Chunk, key: Key) {
        if self.with_member(|member| member.remove(&self.heaps, heap, chunk, key)) != Some(true) {
            chunk.remove_shared(key);
        }
    }

    /// How many pages each shard of this number's heap has. None if no such heap is open.
    pub(super) fn pages(&self, number: u64) -> Option<usize> {
        self.heaps.chunk(number::heap(number)).map(Chunk::pages)
    }
}

impl Leave for Members {
    fn leave(&self, number: usize) {
        let Some(mut member) = self.slots.leave(number) else { return };
        for _ in 0..LEAVE_TRIES {
            if member.leave(&self.heaps) {
                return;
            }
            std::thread::yield_now();
        }
    }
}

#[cfg(test)]
mod tests {
    use super::*;
    use crate::slab::chunk::Search;
    use crate::slab::config::DefaultConfig;
    use crate::Pass;
    use number::shard;

    fn members() -> Arc<Members> {
        Members::open(Limits::of::<DefaultConfig>()).expect("it opens")
    }

    // The first heap, all of whose shards but this thread's are taken.
    fn with_others(members: &Members) -> &Chunk {
        let first = members.heaps.chunk(0).expect("it is open");
        while let Search::Found(_) = first.claim() {}
        first
    }

    #[test]
    fn a_call_from_within_another_finds_no_member() {
        let members = members();
        let inner = members.with_member(|_| (members.owner().is_none(), members.with_member(|_| ()), members.insert()));
        assert_eq!(
            inner.map(|(owner, member, number)| (owner, member, number.map(shard))),
            Some((true, None, Some(0)))
        );
        assert_eq!(members.insert().map(shard), Some(1));
    }

    #[test]
    fn a_thread_that_finds_no_shard_does_not_search_for_64_inserts() {
        let members = members();
        let first = with_others(&members);
        let insert = || members.insert().map(shard);
        // It asks for a shard, and uses the shared one.
        assert_eq!((insert(), members.heaps.is_asked()), (Some(0), true));
        first.release(2);
        (0..64).for_each(|_| assert_eq!(insert(), Some(0)));
        assert_eq!((insert(), members.heaps.opened()), (Some(2), 1));
    }

    #[test]
    fn a_slab_gets_more_shards_if_none_is_given_back() {
        let members = members();
        with_others(&members);
        (0..65).for_each(|_| assert_eq!(members.insert().map(shard), Some(0)));
        let number = members.insert().expect("there is room");
        assert_eq!((number::heap(number), shard(number)), (1, 1));
    }

    #[test]
    fn a_thread_gives_its_shard_back_at_its_first_call_after_another_asked() {
        let members = members();
        let number = members.insert().expect("there is room");
        let first = with_others(&members);
        let remove = || members.remove(number);
        let insert = || assert_eq!(members.insert().map(shard), Some(0));
        for (act, others) in [(&remove as &dyn Fn(), 64), (&insert, 63)] {
            assert!(!members.heaps.is_asked());
            let before = first.claim();
            members.heaps.ask();
            act();
            assert_eq!((before, first.claim()), (Search::Taken, Search::Found(1)));
            first.release(1);
            // It does not take the shard back at once.
            assert_eq!((0..).take_while(|_| members.insert().map(shard) == Some(0)).count(), others);
        }
    }

    #[test]
    fn a_thread_gives_back_what_it_has_as_it_ends() {
        let members = members();
        let insert = || members.insert().expect("there is room");
        let number = std::thread::scope(|scope| scope.spawn(insert).join().expect("it ends well"));
        assert_eq!(shard(number), 1);
        let first = members.heaps.chunk(0).expect("it is open");
        assert_eq!(first.claim(), Search::Found(1));
        first.release(1);
        // All passes but that of the shared shard are at home.
        let passes: Vec<Pass> = std::iter::from_fn(|| first.take_pass()).collect();
        assert_eq!(passes.len(), 63);
        // Without a pass the thread uses the shared shard.
        members.remove(number);
        assert_eq!(shard(insert()), 0);
        drop(passes);
    }

    #[test]
    fn a_slab_that_is_dropped_frees_its_heaps_though_threads_remember_it() {
        let members = members();
        assert!(members.insert().is_some());
        let weak = Arc::downgrade(&members);
        drop(members);
        assert!(weak.upgrade().is_none());
    }
}
