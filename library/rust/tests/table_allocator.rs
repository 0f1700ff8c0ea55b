//! A program whose allocator uses a table, both that of Rust and that of the heap: a call from within another waits for
//! no lock.
#![cfg(all(target_os = "linux", target_env = "gnu"))]
#[path = "common/malloc.rs"]
mod malloc;

use gearlongan::{Error, Table};
use std::cell::Cell;
use std::sync::atomic::{AtomicUsize, Ordering::SeqCst};
use std::sync::mpsc::channel;
use std::sync::{Barrier, OnceLock};
use std::thread;
use std::time::Duration;

static TABLE: OnceLock<Table<u64>> = OnceLock::new();
static SERVED: AtomicUsize = AtomicUsize::new(0);
static REFUSED: AtomicUsize = AtomicUsize::new(0);

thread_local! {
    // Whether the allocations of this thread use the table.
    static IS_WATCHED: Cell<bool> = const { Cell::new(false) };
    // The standard library ends the process if its first destructor of a thread allocates, and the allocator registers
    // another one meanwhile.
    static FIRST: Destroyed = const { Destroyed };
}

struct Destroyed;

impl Drop for Destroyed {
    fn drop(&mut self) {}
}

/// All is granted, after the table was used.
fn is_granted() -> bool {
    if IS_WATCHED.replace(false) {
        use_table();
        IS_WATCHED.set(true);
    }
    true
}

fn use_table() {
    let Some(table) = TABLE.get() else { return };
    match table.insert(&7) {
        Ok(key) => {
            // A place that was free may be taken meanwhile, and then the call finds nothing.
            assert!(matches!(table.get(key), None | Some(7)));
            assert!(table.capacity() > 0 && table.bytes() > 0);
            assert!(table.keys().take(4).count() <= 4);
            while !table.remove(key) {
                thread::yield_now();
            }
            SERVED.fetch_add(1, SeqCst);
        }
        Err(error) => {
            assert_eq!(error, Error::NoPlace);
            REFUSED.fetch_add(1, SeqCst);
        }
    }
}

/// Threads whose allocations use the table, more than have places of their own.
#[test]
fn an_allocator_may_use_the_table() {
    const THREADS: usize = 100;
    const COUNT: u64 = 200;
    let (ended, end) = channel();
    thread::spawn(move || {
        let table = TABLE.get_or_init(Table::new);
        let start = Barrier::new(THREADS);
        thread::scope(|scope| {
            for n in 0..THREADS as u64 {
                let start = &start;
                scope.spawn(move || {
                    let mut keys = Vec::with_capacity(COUNT as usize);
                    FIRST.with(|_| ());
                    start.wait();
                    IS_WATCHED.set(true);
                    keys.extend((0..COUNT).map(|k| table.insert(&(n << 32 | k)).expect("there is room")));
                    IS_WATCHED.set(false);
                    assert!(keys.iter().zip(0..).all(|(key, k)| table.take(*key) == Some(n << 32 | k)));
                });
            }
        });
        ended.send(table.len()).expect("somebody waits");
    });
    assert_eq!(end.recv_timeout(Duration::from_secs(60)), Ok(0), "no timeout, and no panic");
    assert!(SERVED.load(SeqCst) > 0, "{} were refused", REFUSED.load(SeqCst));
}
