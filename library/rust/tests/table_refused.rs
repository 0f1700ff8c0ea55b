//! Each allocation that a call of a table makes is refused in turn, those of Rust and those of the heap. An insert is
//! refused as `Memory` or does without. The other calls are never refused, and all is as it was afterwards.
#![cfg(all(target_os = "linux", target_env = "gnu"))]
#[path = "common/malloc.rs"]
mod malloc;

use gearlongan::table::Key;
use gearlongan::{Error, Table};
use std::cell::Cell;
use std::thread;

thread_local! {
    // How many allocations of this thread are granted before one is refused. The most: none is.
    static GRANTED: Cell<usize> = const { Cell::new(usize::MAX) };
    // The standard library ends the process if memory for its first destructor of a thread is refused.
    static FIRST: Destroyed = const { Destroyed };
}

struct Destroyed;

impl Drop for Destroyed {
    fn drop(&mut self) {}
}

/// Whether this allocation is granted. After one that was refused, all are.
fn is_granted() -> bool {
    let granted = GRANTED.get();
    if granted < usize::MAX {
        GRANTED.set(granted.checked_sub(1).unwrap_or(usize::MAX));
    }
    granted > 0
}

/// Runs it in a new thread, with the allocation of this number refused: whether there was one.
fn refused(number: usize, act: impl FnOnce() + Send) -> bool {
    let work = || {
        FIRST.with(|_| ());
        GRANTED.set(number);
        act();
        GRANTED.replace(usize::MAX) == usize::MAX
    };
    thread::scope(|scope| scope.spawn(work).join().expect("it ends well"))
}

const COUNT: u64 = 3000;

/// Inserts until there are `COUNT` records.
fn fill(table: &Table<u64>, keys: &mut Vec<Key<u64>>) {
    while (keys.len() as u64) < COUNT {
        match table.insert(&(keys.len() as u64)) {
            Ok(key) => keys.push(key),
            Err(error) => assert_eq!(error, Error::Memory),
        }
    }
}

#[test]
fn an_insert_is_refused_and_loses_nothing() {
    let all = |number: &usize| {
        let table = Table::new();
        let mut keys = Vec::with_capacity(COUNT as usize);
        let was_refused = refused(*number, || fill(&table, &mut keys));
        assert_eq!(table.len(), keys.len(), "allocation {number}");
        assert!(keys.iter().zip(0..).all(|(key, n)| table.take(*key) == Some(n)), "allocation {number}");
        assert!(table.is_empty());
        was_refused
    };
    // One for each of a few segments, and what the first call of a thread takes.
    assert!((0..).take_while(all).count() > 8);
}

#[test]
fn get_take_remove_and_walks_are_never_refused() {
    let table = Table::new();
    let all = |number: &usize| {
        let keys: Vec<_> = (0..3).map(|n| table.insert(&n).expect("there is room")).collect();
        table.rest();
        let was_refused = refused(*number, || {
            assert_eq!((table.keys().count(), table.iter().map(|(_, n)| n).sum::<u64>()), (3, 3));
            assert_eq!((table.get(keys[0]), table.contains(keys[1])), (Some(0), true));
            assert_eq!((table.take(keys[1]), table.remove(keys[2])), (Some(1), true));
            assert_eq!(table.remove_if(|key, _| key == keys[0]), 1);
        });
        assert!(table.is_empty(), "allocation {number}");
        was_refused
    };
    assert!((0..).take_while(all).count() > 0);
}

#[test]
fn a_thread_is_told_that_it_has_no_place_for_want_of_memory() {
    let all = |number: &usize| {
        let table = Table::<u64>::new();
        let mut entered = Ok(());
        let was_refused = refused(*number, || {
            entered = table.enter();
            assert_eq!(table.enter(), Ok(()));
        });
        assert!(entered.is_ok() || entered == Err(Error::Memory), "allocation {number}");
        was_refused
    };
    assert!((0..).take_while(all).count() > 0);
}
