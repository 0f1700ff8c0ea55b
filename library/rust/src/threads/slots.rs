//! Slots by the numbers of threads: what each thread has of one slab or one table.
//!
//! The slab or table owns them. A thread only remembers which of them have something of it, by weak references, and
//! gives that back as it ends. So one that is dropped frees its heaps at once.
use super::number::{known, number, remember};
use std::cell::{Cell, UnsafeCell};
use std::panic::RefUnwindSafe;
use std::sync::{OnceLock, Weak};

/// What owns slots.
pub(crate) trait Leave: Send + Sync {
    /// Gives back what the thread of this number has. The caller is that thread, which ends.
    fn leave(&self, number: usize);
}

/// What one thread has. The next slot begins on other cache lines.
#[derive(Default)]
#[repr(align(128))]
pub(crate) struct Slot<M> {
    // Set while the member is borrowed alone.
    is_changing: Cell<bool>,
    // The thread gives back what it has as it ends.
    is_remembered: Cell<bool>,
    member: UnsafeCell<M>,
}

// SAFETY: a slot is used only by the thread that has its number, and no two threads have one at the same time: what a
// thread did happens before what the next one with its number does. What is in it may go to another thread.
unsafe impl<M: Send> Sync for Slot<M> {}

// No code of the user runs while the member is borrowed, so that no panic leaves it half changed.
impl<M> RefUnwindSafe for Slot<M> {}

impl<M> Slot<M> {
    // The member, unless it is changing. The caller is the thread that has the number of the slot, and calls no code of
    // the user while it has the result.
    #[inline]
    fn member(&self) -> Option<&M> {
        // SAFETY: only this thread uses the slot, and it is not within `change`. It does not come to it while it has
        // the result, since no call of the library calls back.
        (!self.is_changing.get()).then(|| unsafe { &*self.member.get() })
    }

    // Runs it with the member, unless it is changing: an allocator of the user may call from within. The caller is as
    // of `member`.
    #[inline]
    fn change<R>(&self, act: impl FnOnce(&mut M) -> R) -> Option<R> {
        if self.is_changing.replace(true) {
            return None;
        }
        // SAFETY: only this thread uses the slot, and a call from within finds it changing.
        let result = act(unsafe { &mut *self.member.get() });
        self.is_changing.set(false);
        Some(result)
    }
}

/// The threads of the first numbers have a slot in place. The others have buckets of 16, 32, 64 slots and so on, which
/// are allocated as threads have the numbers for them.
const FIRST: usize = 16;

const BUCKETS: usize = 40;

/// The slots of one slab or one table.
pub(crate) struct Slots<M> {
    first: [Slot<M>; FIRST],
    buckets: [OnceLock<Box<[Slot<M>]>>; BUCKETS],
}

// The bucket of a number after the first, and its place there.
fn place(number: usize) -> (usize, usize) {
    let power = number.max(FIRST).ilog2();
    ((power - FIRST.ilog2()) as usize, number - (1 << power))
}

// The slots of a bucket. None if memory is refused.
fn slots<M: Default>(bucket: usize) -> Option<Box<[Slot<M>]>> {
    let count = FIRST << bucket;
    let mut slots = Vec::new();
    slots.try_reserve_exact(count).ok()?;
    slots.resize_with(count, Slot::default);
    Some(slots.into_boxed_slice())
}

impl<M: Default> Slots<M> {
    pub(crate) fn new() -> Slots<M> {
        Slots { first: Default::default(), buckets: [const { OnceLock::new() }; BUCKETS] }
    }

    // The slot of this thread.
    #[inline]
    fn own_slot(&self) -> Option<&Slot<M>> {
        match self.first.get(known()) {
            Some(slot) => Some(slot),
            None => self.own_later_slot(),
        }
    }

    // The same, if the thread has no number of the first.
    #[cold]
    fn own_later_slot(&self) -> Option<&Slot<M>> {
        self.slot(number()?)
    }

    fn slot(&self, number: usize) -> Option<&Slot<M>> {
        match self.first.get(number) {
            Some(slot) => Some(slot),
            None => self.later_slot(number),
        }
    }

    fn later_slot(&self, number: usize) -> Option<&Slot<M>> {
        let (bucket, at) = place(number);
        let bucket_of = self.buckets.get(bucket)?;
        if bucket_of.get().is_none() {
            // Another thread may be first.
            _ = bucket_of.set(slots(bucket)?);
        }
        bucket_of.get()?.get(at)
    }

    /// What this thread has. None if it has no number, or the call comes from an allocator within `change`. The caller
    /// calls no code of the user while it has the result.
    #[inline]
    pub(crate) fn member(&self) -> Option<&M> {
        self.own_slot()?.member()
    }

    /// Runs it with what this thread has. None if the thread cannot have anything: it ends, memory is refused, or the
    /// call comes from an allocator within another. `owner` is what gives back what the thread has.
    pub(crate) fn change<R>(&self, owner: &Weak<impl Leave + 'static>, act: impl FnOnce(&mut M) -> R) -> Option<R> {
        let slot = self.own_slot()?;
        let with = |member: &mut M| {
            if !slot.is_remembered.get() {
                slot.is_remembered.set(remember(owner.clone()));
            }
            slot.is_remembered.get().then(|| act(member))
        };
        slot.change(with).flatten()
    }

    /// Runs it with what this thread has, which it changed before. None as of [`member`](Slots::member).
    #[inline]
    pub(crate) fn change_own<R>(&self, act: impl FnOnce(&mut M) -> R) -> Option<R> {
        self.own_slot()?.change(act)
    }

    /// What the thread of this number had, which has nothing afterwards. The caller is that thread, which ends.
    pub(crate) fn leave(&self, number: usize) -> Option<M> {
        let slot = self.slot(number)?;
        slot.is_remembered.set(false);
        slot.change(std::mem::take)
    }
}

#[cfg(test)]
mod tests {
    use super::*;
    use std::collections::HashSet;

    #[test]
    fn numbers_have_places_of_their_own() {
        let places: Vec<_> = (16..1000).map(place).collect();
        assert_eq!(
            (places[0], places[15], places[16], places[47], places[48]),
            ((0, 0), (0, 15), (1, 0), (1, 31), (2, 0))
        );
        assert!(places.iter().all(|(bucket, at)| *at < FIRST << bucket));
        assert_eq!(places.iter().collect::<HashSet<_>>().len(), 984);
        let slots = Slots::<u8>::new();
        let all: HashSet<_> = (0..1000).flat_map(|n| slots.slot(n)).map(|it| it as *const Slot<u8>).collect();
        assert_eq!(all.len(), 1000);
    }
}
