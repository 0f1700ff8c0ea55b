//! Each allocation of Rust that a call of a slab or a pool makes is refused in turn. The call returns None or does
//! without, and the next one finds all as it was. (The heaps take memory by C's functions: see `memory.rs`.)
#[path = "common/small.rs"]
mod small;

use gearlongan::slab::{Pool, Slab};
use small::Small;
use std::alloc::{GlobalAlloc, Layout, System};
use std::cell::Cell;
use std::ptr;
use std::thread;

thread_local! {
    // How many allocations of this thread are granted before one is refused. The most: none is.
    static GRANTED: Cell<usize> = const { Cell::new(usize::MAX) };
}

struct Refusing;

/// Whether this allocation is granted. After one that was refused, all are.
fn is_granted() -> bool {
    let granted = GRANTED.get();
    if granted < usize::MAX {
        GRANTED.set(granted.checked_sub(1).unwrap_or(usize::MAX));
    }
    granted > 0
}

// SAFETY: each call is passed on to the system's allocator, or it refuses.
unsafe impl GlobalAlloc for Refusing {
    unsafe fn alloc(&self, layout: Layout) -> *mut u8 {
        if !is_granted() {
            return ptr::null_mut();
        }
        // SAFETY: as the caller says.
        unsafe { System.alloc(layout) }
    }

    unsafe fn dealloc(&self, at: *mut u8, layout: Layout) {
        // SAFETY: as the caller says: it was allocated by `System`.
        unsafe { System.dealloc(at, layout) }
    }
}

#[global_allocator]
static ALLOCATOR: Refusing = Refusing;

/// How many values a `Small` slab has room for.
const SMALL_ROOM: usize = 4 * 384;

/// Runs it in a new thread, with the allocation of this number refused: whether there was one.
fn refused(number: usize, act: impl FnOnce() + Send) -> bool {
    let work = || {
        GRANTED.set(number);
        act();
        GRANTED.replace(usize::MAX) == usize::MAX
    };
    thread::scope(|scope| scope.spawn(work).join().expect("it ends well"))
}

/// Inserts until two calls after each other return None: the keys.
fn filled(keys: &mut Vec<usize>, mut insert: impl FnMut(usize) -> Option<usize>) {
    let mut refusals = 0;
    while refusals < 2 && keys.len() < keys.capacity() {
        match insert(keys.len()) {
            Some(key) => {
                keys.push(key);
                refusals = 0;
            }
            None => refusals += 1,
        }
    }
}

/// Values of which 48 take more memory than a block of nodes has, so that each page has a block of its own.
type Wide = [usize; 200];

/// Fills a small slab, with each allocation refused in turn: how many there were.
fn refusals_of_small<T: Copy + PartialEq + Send + Sync>(value: fn(usize) -> T) -> usize {
    let all = |number: &usize| {
        let slab = Slab::new_with_config::<Small>();
        let mut keys = Vec::with_capacity(2 * SMALL_ROOM);
        let was_refused = refused(*number, || filled(&mut keys, |n| slab.insert(value(n))));
        assert_eq!(keys.len(), SMALL_ROOM, "allocation {number}");
        assert!(keys.iter().enumerate().all(|(n, key)| slab.take(*key) == Some(value(n))));
        was_refused
    };
    (0..).take_while(all).count()
}

#[test]
fn a_slab_loses_no_room() {
    // One for each page of 48 values, and some more.
    assert!(refusals_of_small::<Wide>(|n| [n; 200]) > SMALL_ROOM / 48);
    // One for each shard.
    assert!(refusals_of_small(|n| n) > 4);
}

/// Grows a slab, with each allocation refused in turn: how many there were.
fn refusals_of_growing<T: Copy + Send + Sync>(count: usize, value: T) -> usize {
    let all = |number: &usize| {
        let slab = Slab::new();
        let (mut keys, mut removed) = (Vec::with_capacity(count), 0);
        let act = || {
            filled(&mut keys, |_| slab.insert(value));
            removed = keys.iter().filter(|key| slab.remove(**key)).count();
        };
        let was_refused = refused(*number, act);
        assert_eq!((keys.len(), removed), (count, count), "allocation {number}");
        assert!(keys.last().is_some_and(|key| key >> 52 > 0));
        was_refused
    };
    (0..).take_while(all).count()
}

#[test]
fn a_slab_grows_though_memory_was_refused() {
    let count = 2 * SMALL_ROOM;
    assert!(refusals_of_growing::<Wide>(count, [0; 200]) > count / 48);
    assert!(refusals_of_growing(count, 0) > 8);
}

#[test]
fn a_pool_loses_no_room() {
    let all = |number: &usize| {
        let pool = Pool::<Vec<usize>>::new_with_config::<Small>();
        let mut keys = Vec::with_capacity(2 * SMALL_ROOM);
        let was_refused = refused(*number, || filled(&mut keys, |_| pool.create_with(|_| {})));
        assert_eq!(keys.len(), SMALL_ROOM, "allocation {number}");
        assert!(keys.iter().all(|key| pool.clear(*key)));
        was_refused
    };
    assert!((0..).take_while(all).count() > 4);
}
