//! Memory that is refused: the process may have no more. (`library/c/memory.c` refuses each allocation in turn.)
#![cfg(all(target_os = "linux", target_pointer_width = "64"))]
use gearlongan::slab::Slab;
use gearlongan::{Error, Heap, Key, Layout, Room};

#[repr(C)]
#[derive(Clone, Copy)]
struct Limit {
    soft: u64,
    hard: u64,
}

extern "C" {
    fn getrlimit(resource: i32, limit: *mut Limit) -> i32;
    fn setrlimit(resource: i32, limit: *const Limit) -> i32;
}

const ADDRESS_SPACE: i32 = 9;

/// Runs it while the process may have no more memory than it has.
fn without_memory<T>(act: impl FnOnce() -> T) -> T {
    let mut usual = Limit { soft: 0, hard: 0 };
    // SAFETY: C's own calls, with a limit of this function.
    assert_eq!(unsafe { getrlimit(ADDRESS_SPACE, &mut usual) }, 0);
    let none = Limit { soft: 1, ..usual };
    // SAFETY: as above.
    assert_eq!(unsafe { setrlimit(ADDRESS_SPACE, &none) }, 0);
    let result = act();
    // SAFETY: as above.
    assert_eq!(unsafe { setrlimit(ADDRESS_SPACE, &usual) }, 0);
    result
}

fn refused_memory_is_an_answer() {
    let room = Room { owners: 1, values: 1, words: 1, passes: 64 };
    let heap = Heap::open_for(Layout::Wide, room).expect("it opens");
    let large = Room { owners: 4, values: 1_000_000, words: 16, passes: 1 };
    let (opened, passes) = without_memory(|| (Heap::open_for(Layout::Deep, large), [heap.take(), heap.take()]));
    assert_eq!(opened.err(), Some(Error::Memory));
    // What is small may have been granted from what the process had; nothing is lost if it was not.
    assert!(passes.iter().all(|pass| pass.is_ok() || matches!(pass, Err(Error::Memory))));
    drop(passes);
    let all: Vec<_> = std::iter::from_fn(|| heap.take().ok()).collect();
    assert_eq!(all.len(), 64);
}

fn a_slab_that_cannot_grow_returns_none_and_stays_as_it_is() {
    let slab = Slab::new();
    // A heap of this many values is larger than what the process has.
    const MOST: usize = 1_000_000;
    let mut keys: Vec<usize> = Vec::with_capacity(MOST);
    let vacant = without_memory(|| {
        keys.extend((0..MOST).map_while(|n| slab.insert(n)));
        slab.vacant_entry().is_some()
    });
    assert!(keys.len() < MOST && !vacant);
    assert!(keys.iter().enumerate().all(|(n, key)| slab.get(*key).is_some_and(|value| value == n)));
    assert_eq!(without_memory(|| slab.take(keys[7])), Some(7));
    assert!(slab.insert(7).is_some_and(|key| slab.contains(key)));
}

fn a_growing_heap_that_cannot_grow_is_refused_and_stays_as_it_is() {
    let heap = Heap::growing(Room { owners: 1, values: 1, words: 1, passes: 1 }, 256).expect("it opens");
    let caller = heap.take().expect("a pass is at home");
    // Chunks for this many values are larger than what the process has.
    const MOST: usize = 1_000_000;
    let mut keys: Vec<Key> = Vec::with_capacity(MOST);
    let refused = without_memory(|| {
        keys.extend((0..MOST as u64).map_while(|n| caller.insert(&[n]).ok()));
        caller.insert(&[7])
    });
    assert!(keys.len() < MOST);
    assert_eq!(refused, Err(Error::Memory));
    for (n, key) in keys.iter().enumerate() {
        assert_eq!(caller.load(*key).expect("it is there"), [n as u64]);
    }
    assert!(caller.insert(&[7]).is_ok());
}

/// One test, since the limit is of the process: no other thread may allocate.
#[test]
fn refused_memory() {
    refused_memory_is_an_answer();
    a_slab_that_cannot_grow_returns_none_and_stays_as_it_is();
    a_growing_heap_that_cannot_grow_is_refused_and_stays_as_it_is();
}
