//! A table of slots with generations, whose values `crossbeam-epoch` frees once no reader can have them. A reader that
//! stops keeps the memory of all that is removed after.
use crate::map::{Caller, Map, Room};
use crate::payload::Payload;
use crossbeam_epoch::{pin, Atomic, Owned, Shared as Seen};
use parking_lot::Mutex;
use std::mem::swap;
use std::sync::atomic::Ordering::{AcqRel, Acquire, Release};

// The number of a slot is in the low bits of a key, and its generation above.
const SLOT_BITS: u32 = 32;
// No two callers have a generation in common: those of each differ by this from one to the next.
const STEP: u64 = 64;

struct Entry<V> {
    key: u64,
    value: V,
}

pub struct Slots<V> {
    slots: Vec<Atomic<Entry<V>>>,
    // How many slots each owner has, one after the other.
    each: usize,
    // The slots of each owner that others freed.
    returned: Vec<Mutex<Vec<u32>>>,
    // What owners that ended have left: their number, free slots and generation.
    left: Mutex<Vec<(usize, Vec<u32>, u64)>>,
}

/// An owner of slots: its number, the free ones among them, and its last generation.
pub struct Owner<'a, V> {
    map: &'a Slots<V>,
    number: usize,
    free: Vec<u32>,
    generation: u64,
}

fn slot_of(key: u64) -> u32 {
    key as u32
}

impl<V> Drop for Slots<V> {
    fn drop(&mut self) {
        for slot in self.slots.drain(..) {
            // SAFETY: no caller borrows the map any more, so nobody else has what is in its slots.
            drop(unsafe { slot.try_into_owned() });
        }
    }
}

impl<V> Slots<V> {
    fn slot(&self, key: u64) -> &Atomic<Entry<V>> {
        &self.slots[slot_of(key) as usize]
    }
}

impl<V> Owner<'_, V> {
    // A free slot of its own, which others may have freed.
    fn free_slot(&mut self) -> u32 {
        if self.free.is_empty() {
            swap(&mut self.free, &mut *self.map.returned[self.number].lock());
        }
        self.free.pop().expect("there is a free slot")
    }

    fn give_back(&mut self, slot: u32) {
        match slot as usize / self.map.each {
            home if home == self.number => self.free.push(slot),
            home => self.map.returned[home].lock().push(slot),
        }
    }
}

impl<V: Payload> Map for Slots<V> {
    type Caller<'a> = Owner<'a, V>;
    type Idle<'a> = ();

    fn open(room: Room) -> Self {
        let Room { owners, values: each, .. } = room;
        let share = |owner: usize| ((owner * each) as u32..((owner + 1) * each) as u32).rev().collect();
        Slots {
            slots: (0..each * owners).map(|_| Atomic::null()).collect(),
            each,
            returned: (0..owners).map(|_| Mutex::default()).collect(),
            left: Mutex::new((0..owners).rev().map(|owner| (owner, share(owner), owner as u64)).collect()),
        }
    }

    fn idle(&self) {}

    fn begin<'a>(&'a self, _idle: (), _shard: usize) -> Owner<'a, V> {
        let (number, free, generation) = self.left.lock().pop().expect("there is an owner for each thread");
        Owner { map: self, number, free, generation }
    }

    fn end<'a>(&'a self, caller: Owner<'a, V>) {
        self.left.lock().push((caller.number, caller.free, caller.generation));
    }
}

impl<V: Payload> Caller for Owner<'_, V> {
    fn insert(&mut self, words: &[u64]) -> u64 {
        let slot = self.free_slot();
        self.generation += STEP;
        let key = self.generation << SLOT_BITS | u64::from(slot);
        self.map.slots[slot as usize].store(Owned::new(Entry { key, value: V::of(words) }), Release);
        key
    }

    fn remove(&mut self, key: u64) -> bool {
        let (guard, slot) = (pin(), self.map.slot(key));
        let seen = slot.load(Acquire, &guard);
        // SAFETY: what a slot has is destroyed only after the guards that may have seen it are gone.
        let found = unsafe { seen.as_ref() }.is_some_and(|entry| entry.key == key);
        if !found {
            return false;
        }
        if slot.compare_exchange(seen, Seen::null(), AcqRel, Acquire, &guard).is_err() {
            return false;
        }
        // SAFETY: the slot has no longer the entry, and this thread alone took it out.
        unsafe { guard.defer_destroy(seen) };
        self.give_back(slot_of(key));
        true
    }

    fn read(&mut self, key: u64) -> Option<u64> {
        let guard = pin();
        // SAFETY: as in `remove`.
        let entry = unsafe { self.map.slot(key).load(Acquire, &guard).as_ref() }?;
        (entry.key == key).then(|| entry.value.sum())
    }
}
