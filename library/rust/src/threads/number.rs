//! The number of a thread, and what the end of a thread gives back.
//!
//! Numbers are small, no two threads have the same at the same time, and a number is used again once its thread has
//! ended. A slab or a table has slots by them.
use super::slots::Leave;
use super::taken::Taken;
use std::cell::{Cell, RefCell};
use std::sync::Weak;

/// The thread has no number yet.
const NONE: usize = usize::MAX;

/// The thread ends, and has no number any more.
const ENDED: usize = usize::MAX - 1;

/// The thread is about to have a number.
const BEGINNING: usize = usize::MAX - 2;

thread_local! {
    // It has no destructor, so that it can be read at any time.
    static NUMBER: Cell<usize> = const { Cell::new(NONE) };
    static THREAD: RefCell<Thread> = const { RefCell::new(Thread { number: NONE, owners: Vec::new(), prune_at: 8 }) };
}

/// The numbers that threads have: as many as Linux has threads at most. Memory that is not used stays zero, and takes
/// none.
static NUMBERS: [Taken; 1 << 16] = [const { Taken::free(64) }; 1 << 16];

/// What a thread gives back as it ends.
struct Thread {
    number: usize,
    // The slabs and tables that have something of this thread. One that was dropped cannot be upgraded.
    owners: Vec<Weak<dyn Leave>>,
    // With this many it looks which of them were dropped.
    prune_at: usize,
}

impl Drop for Thread {
    fn drop(&mut self) {
        if self.number == NONE {
            return;
        }
        let number = NUMBER.replace(ENDED);
        for owner in self.owners.drain(..) {
            if let Some(owner) = owner.upgrade() {
                owner.leave(number);
            }
        }
        give_back(number);
    }
}

// The lowest number that no thread has. None if all are taken.
fn lease() -> Option<usize> {
    NUMBERS.iter().enumerate().find_map(|(at, taken)| Some(at * 64 + taken.take_lowest()?))
}

fn give_back(number: usize) {
    if let Some(taken) = NUMBERS.get(number / 64) {
        taken.give_back(number % 64);
    }
}

/// The number of this thread, or one that no slot has.
#[inline]
pub(super) fn known() -> usize {
    NUMBER.get()
}

/// The number of this thread, which it has from now on. None while it ends, and if an allocator calls from within this.
pub(crate) fn number() -> Option<usize> {
    match NUMBER.get() {
        ENDED | BEGINNING => return None,
        NONE => {}
        number => return Some(number),
    }
    // A call from within would register the destructor twice.
    NUMBER.set(BEGINNING);
    // What gives the number back is there before the number is.
    let with = |thread: &RefCell<Thread>| {
        let mut thread = thread.try_borrow_mut().ok()?;
        thread.number = lease()?;
        Some(thread.number)
    };
    let number = THREAD.try_with(with).ok().flatten();
    NUMBER.set(number.unwrap_or(NONE));
    number
}

/// Remembers that a slab or a table has something of this thread: whether it is remembered.
pub(super) fn remember(owner: Weak<dyn Leave>) -> bool {
    let with = |thread: &RefCell<Thread>| {
        let Ok(mut thread) = thread.try_borrow_mut() else { return false };
        if thread.owners.len() >= thread.prune_at {
            thread.owners.retain(|owner| owner.strong_count() > 0);
            thread.prune_at = 8 + 2 * thread.owners.len();
        }
        if thread.owners.try_reserve(1).is_err() {
            return false;
        }
        thread.owners.push(owner);
        true
    };
    THREAD.try_with(with).unwrap_or(false)
}

#[cfg(test)]
mod tests {
    use super::*;
    use std::collections::HashSet;
    use std::sync::{Barrier, Mutex};
    use std::thread;

    #[test]
    fn threads_have_different_numbers_and_use_those_of_ended_ones_again() {
        let most = |count| {
            let (all, start) = (Mutex::new(HashSet::new()), Barrier::new(count));
            thread::scope(|scope| {
                let work = || {
                    let number = number().expect("it has one");
                    all.lock().expect("no thread panics").insert(number);
                    start.wait();
                };
                (0..count).for_each(|_| drop(scope.spawn(work)));
            });
            let all = all.into_inner().expect("no thread panics");
            assert_eq!(all.len(), count);
            all.into_iter().max()
        };
        let first = most(100);
        // Other tests run at the same time, and have numbers too.
        (0..20).for_each(|_| assert!(most(100) < first.map(|number| number + 100)));
    }
}
