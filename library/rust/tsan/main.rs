//! A program of threads over a slab, a pool, a table and a heap, for ThreadSanitizer. Threads pass keys on by relaxed
//! atomics, which order nothing: so what orders the values is the slab, the table or the heap alone. For `tsan.py`.
use gearlongan::slab::{Pool, Slab};
use gearlongan::table::Key;
use gearlongan::{Heap, Room, Table};
use std::ffi::c_void;
use std::ptr;
use std::sync::atomic::AtomicUsize;
use std::sync::atomic::Ordering::Relaxed;
use std::thread::yield_now;

extern "C" {
    fn pthread_create(
        thread: *mut usize,
        attributes: *const c_void,
        start: extern "C" fn(*mut c_void) -> *mut c_void,
        argument: *mut c_void,
    ) -> i32;
    fn pthread_join(thread: usize, result: *mut *mut c_void) -> i32;
}

struct Work<'a> {
    number: usize,
    act: &'a (dyn Fn(usize) + Sync),
}

extern "C" fn start(work: *mut c_void) -> *mut c_void {
    // SAFETY: it is the work that `in_threads` passes, which outlives the thread.
    let work = unsafe { &*work.cast::<Work<'_>>() };
    (work.act)(work.number);
    ptr::null_mut()
}

/// Runs it in several threads. (Those of the standard library end by fences, which the sanitizer does not know.)
fn in_threads(threads: usize, act: &(dyn Fn(usize) + Sync)) {
    let mut works: Vec<Work<'_>> = (0..threads).map(|number| Work { number, act }).collect();
    let begin = |work: &mut Work<'_>| {
        let mut thread = 0;
        // SAFETY: C's own call. The work stays until the thread is joined.
        assert_eq!(unsafe { pthread_create(&mut thread, ptr::null(), start, ptr::from_mut(work).cast()) }, 0);
        thread
    };
    let all: Vec<usize> = works.iter_mut().map(begin).collect();
    // SAFETY: C's own call, once for each thread.
    all.into_iter().for_each(|thread| assert_eq!(unsafe { pthread_join(thread, ptr::null_mut()) }, 0));
}

const PLACES: usize = 8;
const ROUNDS: usize = 4_000;

/// Keys that threads leave for each other, 0 for none.
struct Board([AtomicUsize; PLACES]);

impl Board {
    fn new() -> Board {
        Board([const { AtomicUsize::new(0) }; PLACES])
    }

    /// Leaves a key, and takes the one that was there.
    fn swap(&self, place: usize, key: usize) -> Option<usize> {
        Some(self.0[place % PLACES].swap(key, Relaxed)).filter(|key| *key != 0)
    }

    fn look(&self, place: usize) -> Option<usize> {
        Some(self.0[place % PLACES].load(Relaxed)).filter(|key| *key != 0)
    }
}

/// Each thread inserts, gets what others inserted, and removes or takes it. The values own memory that is read.
fn slab(threads: usize) {
    let (slab, board) = (Slab::new(), Board::new());
    in_threads(threads, &|number| {
        for round in 0..ROUNDS {
            let key = slab.insert(Box::new(round)).expect("there is room");
            let old = board.swap(round + number, key);
            let entry = board.look(round).and_then(|key| slab.get(key));
            assert!(entry.as_deref().is_none_or(|value| **value < ROUNDS));
            // A thread that waits for the others' guards has none itself.
            let entry = entry.filter(|_| round % 3 != 0);
            match old {
                Some(old) if entry.is_none() => assert!(slab.take(old).is_some()),
                Some(old) => assert!(slab.remove(old)),
                None => {}
            }
            if round % 400 == 0 {
                drop(entry);
                assert!(slab.iter().all(|value| **value < ROUNDS));
            }
        }
    });
}

/// Makes a value, leaves its key before or after it is written, and returns the key that was left before.
fn make(pool: &Pool<Vec<usize>>, board: &Board, round: usize) -> Option<usize> {
    if round % 3 == 0 {
        let key = pool.create_with(|values| values.extend([round; 2])).expect("there is room");
        return board.swap(round, key);
    }
    let mut guard = pool.create().expect("there is room");
    let old = board.swap(round, guard.key());
    guard.extend([round; 2]);
    if round % 2 == 0 {
        assert_eq!(guard.downgrade().len(), 2);
    }
    old
}

/// The same with a pool, whose values are written, read and cleared in place.
fn pool(threads: usize) {
    let (pool, board) = (Pool::<Vec<usize>>::new(), Board::new());
    in_threads(threads, &|_| {
        for round in 0..ROUNDS {
            let old = make(&pool, &board, round);
            let found = board.look(round + 1).and_then(|key| pool.get(key));
            assert!(found.is_none_or(|values| values.len() == 2));
            assert!(old.is_none_or(|key| pool.clear(key)));
        }
    });
}

/// Slabs that threads use for the first time, and leave as they end.
fn ends(threads: usize) {
    for _ in 0..20 {
        let slab = Slab::new();
        in_threads(threads, &|number| {
            let keys: Vec<usize> = (0..500).flat_map(|_| slab.insert(number)).collect();
            assert!(keys.iter().all(|key| slab.remove(*key)));
        });
    }
}

type Records = Table<[usize; 3]>;

fn named(key: usize) -> Key<[usize; 3]> {
    Key::from_bits(key as u64).expect("no key is 0")
}

/// A thread's rounds with a table: it inserts, gets what others inserted, and removes or takes it.
fn use_table(table: &Records, board: &Board, number: usize, rounds: usize) {
    for round in 0..rounds {
        let key = table.insert(&[round; 3]).expect("there is room").to_bits() as usize;
        let old = board.swap(round + number, key);
        let found = board.look(round).and_then(|key| table.get(named(key)));
        assert!(found.is_none_or(|words| words == [words[0]; 3]));
        match old {
            Some(old) if round % 3 == 0 => assert!(table.take(named(old)).is_some()),
            Some(old) => assert!(table.remove(named(old))),
            None => {}
        }
        if round % 100 == number {
            table.rest();
        }
        if round % 400 == number {
            assert!(table.iter().all(|(_, words)| words == [words[0]; 3]));
        }
    }
}

/// What is left on the board is what the table has.
fn end_table(table: &Records, board: &Board) {
    let left = (0..PLACES).flat_map(|place| board.swap(place, 0)).filter(|key| table.remove(named(*key))).count();
    assert!(left > 0 && table.is_empty());
}

/// Threads that each have a place of their own. They end, and the next ones have their places.
fn table(threads: usize) {
    let (table, board) = (Table::new(), Board::new());
    for _ in 0..4 {
        in_threads(threads, &|number| use_table(&table, &board, number, ROUNDS / 4));
    }
    end_table(&table, &board);
}

/// More threads at once than there are places, so that some share one, and take another's as it ends.
fn crowd(threads: usize) {
    let (table, board, begun) = (Table::new(), Board::new(), AtomicUsize::new(0));
    in_threads(threads, &|number| {
        use_table(&table, &board, number, 1);
        begun.fetch_add(1, Relaxed);
        while begun.load(Relaxed) < threads {
            yield_now();
        }
        use_table(&table, &board, number, 40);
    });
    end_table(&table, &board);
}

/// Tables that are dropped while threads have places there.
fn dropped() {
    in_threads(8, &|number| {
        for round in 0..40 {
            let table = Records::new();
            use_table(&table, &Board::new(), number, round);
        }
    });
}

static FREED: AtomicUsize = AtomicUsize::new(0);

/// Boxes that threads read under guards. The call that ends a key frees its box, after all reads.
fn boxes(threads: usize) {
    let room = Room { owners: threads as u32, values: 1000, words: 1, passes: threads as u32 };
    let (heap, board) = (Heap::growing(room, 64).expect("it opens"), Board::new());
    let user = || {
        let mut caller = heap.take().expect("a pass is at home");
        caller.on_end(|_, words| {
            FREED.fetch_add(1, Relaxed);
            // SAFETY: it is the box from below. Its key ends once.
            drop(unsafe { Box::from_raw(words[0] as *mut [usize; 2]) });
        });
        caller
    };
    in_threads(threads, &|number| {
        let caller = user();
        for round in 0..ROUNDS {
            let value = Box::into_raw(Box::new([round; 2]));
            let key = caller.insert(&[value as u64]).expect("there is room");
            let old = board.swap(round + number, u64::from(key) as usize);
            let guard = board.look(round).and_then(|key| caller.get((key as u64).into()).ok());
            // SAFETY: it is a box from above. Its key does not end before the guard goes.
            assert!(guard.is_none_or(|words| unsafe { *(words[0] as *const [usize; 2]) }[1] < ROUNDS));
            assert!(old.is_none_or(|key| caller.remove((key as u64).into()).is_ok()));
        }
    });
    assert_eq!(user().remove_if(|_, _| true), PLACES);
    assert_eq!(FREED.load(Relaxed), threads * ROUNDS);
}

fn main() {
    for threads in [2, 4, 8] {
        slab(threads);
        pool(threads);
        ends(threads);
    }
    // (The stand-in of `stub.py` has no heap that grows.)
    if std::env::args().nth(1).as_deref() != Some("slab") {
        [2, 4, 8].into_iter().for_each(table);
        boxes(8);
        crowd(80);
        dropped();
    }
    println!("tsan: all threads ended well");
}
