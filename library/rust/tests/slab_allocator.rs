//! A program whose global allocator uses the slab: no call holds a lock of the slab while it allocates or frees.
use gearlongan::slab::Slab;
use std::alloc::{GlobalAlloc, Layout, System};
use std::cell::Cell;
use std::sync::atomic::{AtomicUsize, Ordering::SeqCst};
use std::sync::mpsc::channel;
use std::sync::OnceLock;
use std::thread;
use std::time::Duration;

/// The values of a shard of the first heap. Of its four, three are for threads of their own.
const SHARD: usize = 384;

/// How many values the thread inserts whose allocations are watched.
const COUNT: usize = 10_000;

/// A slab for each kind of watch.
static SLABS: [OnceLock<Slab<usize>>; 2] = [const { OnceLock::new() }; 2];

/// How often another thread was asked to use the slab, and how often it has.
static ASKED: AtomicUsize = AtomicUsize::new(0);
static ANSWERED: AtomicUsize = AtomicUsize::new(0);

#[derive(Clone, Copy, Debug)]
enum Watch {
    /// The allocator uses the slab.
    Here,
    /// The allocator waits until another thread has used the slab.
    Elsewhere,
}

thread_local! {
    static WATCH: Cell<Option<Watch>> = const { Cell::new(None) };
}

struct Calling;

/// Inserts more values than the shared shard has room for, so that the slab grows here too.
fn use_slab(watch: Watch) {
    let Some(slab) = SLABS[watch as usize].get() else { return };
    let keys: [Option<usize>; SHARD + 1] = std::array::from_fn(|n| slab.insert(n));
    keys.iter().flatten().enumerate().for_each(|(n, key)| assert!(slab.get(*key).is_some_and(|value| *value == n)));
    keys.iter().flatten().for_each(|key| assert!(slab.remove(*key)));
}

fn watched() {
    // What this call allocates itself is not watched. A thread that ends has no watch.
    let watch = WATCH.try_with(Cell::take).ok().flatten();
    match watch {
        Some(Watch::Here) => use_slab(Watch::Here),
        Some(Watch::Elsewhere) => {
            let asked = ASKED.fetch_add(1, SeqCst) + 1;
            while ANSWERED.load(SeqCst) < asked {
                thread::yield_now();
            }
        }
        None => return,
    }
    WATCH.set(watch);
}

// SAFETY: each call is passed on to the system's allocator.
unsafe impl GlobalAlloc for Calling {
    unsafe fn alloc(&self, layout: Layout) -> *mut u8 {
        watched();
        // SAFETY: as the caller says.
        unsafe { System.alloc(layout) }
    }

    unsafe fn dealloc(&self, at: *mut u8, layout: Layout) {
        watched();
        // SAFETY: as the caller says: it was allocated by `System`.
        unsafe { System.dealloc(at, layout) }
    }
}

#[global_allocator]
static ALLOCATOR: Calling = Calling;

/// Grows a slab, and fails if that does not end. The allocations after this many inserts are watched.
fn grow(watch: Watch, unwatched: usize) {
    let (ended, end) = channel();
    thread::spawn(move || {
        let slab = SLABS[watch as usize].get_or_init(Slab::new);
        let mut keys = Vec::with_capacity(COUNT);
        keys.extend((0..unwatched).flat_map(|n| slab.insert(n)));
        WATCH.set(Some(watch));
        keys.extend((unwatched..COUNT).flat_map(|n| slab.insert(n)));
        WATCH.set(None);
        assert!(keys.iter().any(|key| key >> 52 > 0), "the slab has grown");
        assert!(keys.iter().enumerate().all(|(n, key)| slab.take(*key) == Some(n)));
        ended.send(keys.len()).expect("somebody waits");
    });
    assert_eq!(end.recv_timeout(Duration::from_secs(60)), Ok(COUNT), "{watch:?}: no timeout, and no panic");
}

/// The first thread of the process that has a number waits for the second one.
#[test]
fn an_allocator_may_use_the_slab() {
    thread::spawn(|| loop {
        let asked = ASKED.load(SeqCst);
        if ANSWERED.load(SeqCst) < asked {
            use_slab(Watch::Elsewhere);
            ANSWERED.store(asked, SeqCst);
        }
        thread::yield_now();
    });
    grow(Watch::Elsewhere, 0);
    // The next insert finds no room except in the shared shard, so that it opens a heap.
    grow(Watch::Here, 3 * SHARD);
}
