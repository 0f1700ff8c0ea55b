//! A node: the memory for the value of one place, and its state.
//!
//! The state is one word: the generation of the key, four flags and the number of users. The place of a node and the
//! generation are all that a key has. So one comparison decides whether a key finds the value, and one exchange counts
//! the caller as a user of just that value.
//!
//! | Flags | Meaning |
//! |---|---|
//! | none | the place has no value |
//! | `MADE` | the node has a value, which no key finds |
//! | `WRITING` | the call that issued the key makes its value: no key finds or removes it |
//! | `MADE`, `OPEN` | the key finds it |
//! | `MADE`, `WRITING` | one guard may write it, and its key does not find it yet |
//! | `MARKED` with one of these two | the key was removed: nobody becomes a user, and the last user ends the value |
//!
//! The memory of a node stays as long as its slab. So a call with an old key may still look at the state.
use std::cell::UnsafeCell;
use std::mem::MaybeUninit;
use std::panic::RefUnwindSafe;
use std::sync::atomic::AtomicU64;
use std::sync::atomic::Ordering::{Acquire, Relaxed, Release};

const COUNT: u64 = (1 << 24) - 1;
const MADE: u64 = 1 << 24;
const WRITING: u64 = 1 << 25;
const OPEN: u64 = 1 << 26;
const MARKED: u64 = 1 << 27;

/// The state of a node whose key finds its value, and which has no user.
fn open(generation: u32) -> u64 {
    u64::from(generation) << 32 | MADE | OPEN
}

/// The same, for a guard that may write the value. The guard is its only user.
fn written(generation: u32) -> u64 {
    u64::from(generation) << 32 | MADE | WRITING
}

/// The memory for one value. All bits zero are a node without a value.
pub(super) struct Node<T> {
    state: AtomicU64,
    value: UnsafeCell<MaybeUninit<T>>,
}

// SAFETY: threads that share a node have `&T` of its value at the same time, and any of them may be the one that ends
// it.
unsafe impl<T: Send + Sync> Sync for Node<T> {}

// A panic leaves no value half written: `fill` moves it, and a guard that writes keeps others out until it is dropped.
impl<T: RefUnwindSafe> RefUnwindSafe for Node<T> {}

/// What a removal did.
#[derive(Debug, PartialEq, Eq)]
pub(super) enum Removal {
    /// The key has no value, or another call removed it.
    Nothing,
    /// This call removed the key. The last user ends the value.
    Marked,
    /// This call removed the key, and nobody uses the value: the node is the caller's alone, who ends the value.
    Alone,
}

impl<T> Node<T> {
    /// Where the value is.
    pub(super) fn at(&self) -> *mut T {
        self.value.get().cast()
    }

    /// Whether the node has a value.
    pub(super) fn is_made(&mut self) -> bool {
        *self.state.get_mut() & MADE != 0
    }

    /// Whether a key finds the value.
    pub(super) fn is_found(&mut self) -> bool {
        *self.state.get_mut() & (OPEN | MARKED) == OPEN
    }

    /// Stores the value of a key that was issued for this place, and opens it.
    ///
    /// # Panics
    ///
    /// If the place has a value, which no heap lets happen: it issues a place again once its key is removed.
    #[inline]
    pub(super) fn fill(&self, generation: u32, value: T) {
        assert!(self.state.load(Acquire) == 0, "a place was issued that is in use");
        // SAFETY: the place has no value, so that nobody uses it, and its key was issued to this call alone.
        unsafe { self.at().write(value) };
        self.state.store(open(generation), Release);
    }

    /// Begins the exclusive use of a place that was issued, and makes its value if there is none. The use is that of a
    /// guard: the key can be removed.
    ///
    /// # Panics
    ///
    /// If the place is in use, and if `make` panics.
    #[inline]
    pub(super) fn begin_writing(&self, generation: u32, make: impl FnOnce() -> T) {
        self.begin_alone(written(generation) + 1, make);
    }

    /// The same, for a call that keeps the key to itself meanwhile: no key removes the value.
    ///
    /// # Panics
    ///
    /// If the place is in use, and if `make` panics.
    #[inline]
    pub(super) fn begin_making(&self, make: impl FnOnce() -> T) {
        self.begin_alone(WRITING, make);
    }

    // Begins an exclusive use with this state.
    #[inline]
    fn begin_alone(&self, state: u64, make: impl FnOnce() -> T) {
        let before = self.state.load(Acquire);
        assert!(before & !MADE == 0, "a place was issued that is in use");
        if before == 0 {
            let value = make();
            // SAFETY: as in `fill`.
            unsafe { self.at().write(value) };
        }
        // Others read the value only once it is shared, which orders what was written.
        self.state.store(state, Relaxed);
    }

    /// Ends the exclusive use that [`begin_making`](Node::begin_making) began, and lets the key find the value. No
    /// other call changed the state meanwhile, so that it is stored and not exchanged.
    ///
    /// # Safety
    ///
    /// The caller has that use, and has none afterwards.
    #[inline]
    pub(super) unsafe fn end_making(&self, generation: u32) {
        self.state.store(open(generation), Release);
    }

    /// Turns the exclusive use of the caller into a shared one, and lets the key find the value.
    ///
    /// # Safety
    ///
    /// The caller has the exclusive use.
    pub(super) unsafe fn share(&self) {
        self.state.fetch_add(OPEN - WRITING, Release);
    }

    /// Ends an exclusive use, and lets the key find the value if it was not removed. The result is as of
    /// [`end`](Node::end).
    ///
    /// # Safety
    ///
    /// The caller has the exclusive use, and has none afterwards.
    #[inline]
    pub(super) unsafe fn end_writing(&self) -> bool {
        self.was_last(self.state.fetch_add(OPEN - WRITING - 1, Release))
    }

    /// Becomes a user of the value of a key: whether it did. It does not if the key finds none, or the value has
    /// 16,777,215 users.
    #[inline]
    pub(super) fn begin(&self, generation: u32) -> bool {
        let none = open(generation);
        let mut state = self.state.load(Relaxed);
        // Both are the same above the count, and the count is not the greatest: one comparison for both.
        while state ^ none < COUNT {
            match self.state.compare_exchange_weak(state, state + 1, Acquire, Relaxed) {
                Ok(_) => return true,
                Err(now) => state = now,
            }
        }
        false
    }

    /// Becomes a user of the value that a key finds now: the generation of that key.
    pub(super) fn begin_any(&self) -> Option<u32> {
        let generation = (self.state.load(Relaxed) >> 32) as u32;
        self.begin(generation).then_some(generation)
    }

    /// Ends one use: whether it was the last one of a removed key. The node is the caller's alone then, who ends the
    /// value.
    ///
    /// # Safety
    ///
    /// The caller is a user, and is none afterwards.
    #[inline]
    pub(super) unsafe fn end(&self) -> bool {
        self.was_last(self.state.fetch_sub(1, Release))
    }

    // Whether the use that just ended, with this state before, was the last one of a removed key.
    #[inline]
    fn was_last(&self, before: u64) -> bool {
        if before & (MARKED | COUNT) != MARKED | 1 {
            return false;
        }
        // What the other users did happens before what the caller does. (A load, since sanitizers know no fences.)
        self.state.load(Acquire);
        true
    }

    /// Removes a key, whether its value is open or written.
    #[inline]
    pub(super) fn remove(&self, generation: u32) -> Removal {
        self.mark(0, |flags| flags == open(generation) || flags == written(generation))
    }

    // Marks a node whose state without the count `is_there`, and adds this many users.
    #[inline]
    fn mark(&self, users: u64, is_there: impl Fn(u64) -> bool) -> Removal {
        let mut state = self.state.load(Relaxed);
        while is_there(state & !COUNT) {
            match self.state.compare_exchange_weak(state, state + MARKED + users, Acquire, Relaxed) {
                Ok(before) if before & COUNT == 0 => return Removal::Alone,
                Ok(_) => return Removal::Marked,
                Err(now) => state = now,
            }
        }
        Removal::Nothing
    }

    /// Removes a key whose value is open, and `wait`s until nobody uses it: whether it removed the key. The node is the
    /// caller's alone then.
    #[inline]
    pub(super) fn remove_alone(&self, generation: u32, wait: impl Fn()) -> bool {
        // The call is a user itself, so that no other one is the last.
        match self.mark(1, |flags| flags == open(generation)) {
            Removal::Nothing => false,
            Removal::Alone => true,
            Removal::Marked => {
                while self.state.load(Acquire) & COUNT != 1 {
                    wait();
                }
                true
            }
        }
    }

    /// Gives the node back whose value was ended: its place may be issued again. A node that is `kept` still has a
    /// value, for the next key.
    ///
    /// # Safety
    ///
    /// The node is the caller's alone, and it has a value exactly if it is kept.
    #[inline]
    pub(super) unsafe fn free(&self, kept: bool) {
        self.state.store(if kept { MADE } else { 0 }, Release);
    }
}

#[cfg(test)]
mod tests {
    use super::*;

    fn node<T>() -> Node<T> {
        Node { state: AtomicU64::new(0), value: UnsafeCell::new(MaybeUninit::uninit()) }
    }

    #[test]
    fn a_generation_finds_its_value_alone() {
        let node = node();
        node.fill(7, 'a');
        assert!(!node.begin(6) && !node.begin(8) && node.remove(8) == Removal::Nothing);
        assert_eq!(node.begin_any(), Some(7));
        // SAFETY: it was just begun, and the key was not removed.
        assert!(!unsafe { node.end() });
        assert_eq!(node.remove(7), Removal::Alone);
        assert!(!node.begin(7) && node.begin_any().is_none() && node.remove(7) == Removal::Nothing);
        // SAFETY: the removal left the node to this test, and a character needs no drop.
        unsafe { node.free(false) };
        node.fill(8, 'b');
        assert!(node.begin(8) && !node.begin(7));
    }

    #[test]
    fn the_last_user_of_a_removed_key_ends_the_value() {
        let node = node();
        node.fill(7, 'a');
        assert!(node.begin(7) && node.begin(7));
        assert_eq!(node.remove(7), Removal::Marked);
        // SAFETY: two uses were begun.
        assert!(unsafe { !node.end() && node.end() });
    }

    #[test]
    fn a_written_value_is_found_once_it_is_shared() {
        let node = node();
        node.begin_writing(7, || 'a');
        assert!(!node.begin(7) && node.begin_any().is_none());
        // SAFETY: the exclusive use is this test's.
        unsafe { node.share() };
        assert!(node.begin(7));
        assert_eq!(node.remove(7), Removal::Marked);
        // SAFETY: the shared use of the writer, and that which was begun.
        assert!(unsafe { !node.end() && node.end() });
        // SAFETY: the last user has the node alone, which keeps its value.
        unsafe { node.free(true) };
        node.begin_writing(8, || unreachable!("the value was kept"));
        assert_eq!(node.remove(8), Removal::Marked);
        // SAFETY: the exclusive use is this test's.
        assert!(unsafe { node.end_writing() });
    }

    #[test]
    fn a_value_that_is_made_is_neither_found_nor_removed() {
        let node = node();
        node.begin_making(|| 'a');
        assert!(!node.begin(7) && node.remove(7) == Removal::Nothing);
        // SAFETY: the exclusive use is this test's.
        unsafe { node.end_making(7) };
        assert!(node.begin(7) && !node.begin(8));
        assert_eq!(node.remove(7), Removal::Marked);
    }

    #[test]
    fn a_place_that_is_in_use_is_not_filled() {
        let uses: [fn(&Node<char>); 4] = [
            |node| node.fill(7, 'a'),
            |node| node.begin_writing(7, || 'a'),
            |node| node.begin_making(|| 'a'),
            |node| {
                node.fill(7, 'a');
                assert_eq!(node.remove(7), Removal::Alone);
            },
        ];
        for first in uses {
            let node = node();
            first(&node);
            for second in uses {
                let used = std::panic::catch_unwind(std::panic::AssertUnwindSafe(|| second(&node)));
                assert!(used.is_err());
            }
        }
    }

    #[test]
    fn too_many_users_are_refused() {
        let node = node();
        node.fill(7, 'a');
        node.state.fetch_add(COUNT - 1, Relaxed);
        assert!(node.begin(7) && !node.begin(7));
        // SAFETY: as many uses were begun.
        assert!(!unsafe { node.end() });
        assert!(node.begin(7));
    }
}
