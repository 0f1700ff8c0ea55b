//! Walks over a table: what they meet, what their loops may do, and threads that insert and remove beside them.
use gearlongan::table::Key;
use gearlongan::{Record, Table};
use std::cell::Cell;
use std::collections::HashSet;
use std::mem::forget;
use std::panic::{catch_unwind, AssertUnwindSafe};
use std::sync::atomic::{AtomicBool, AtomicUsize, Ordering::SeqCst};
use std::sync::{Barrier, Mutex};
use std::thread;
use std::time::Duration;

/// How many walks there are beside threads, and how many keys of each of these stay: few under memcheck.
const SWEEPS: usize = if cfg!(debug_assertions) { 10 } else { 200 };
const STAY: usize = if cfg!(debug_assertions) { 5 } else { 20 };
const PAUSE: Duration = Duration::from_millis(if cfg!(debug_assertions) { 100 } else { 10 });

/// Numbers of several chunks.
fn filled(count: u64) -> (Table<u64>, Vec<Key<u64>>) {
    let table = Table::builder().threads(1).open().expect("it opens");
    let keys = (0..count).map(|n| table.insert(&n).expect("there is room")).collect();
    (table, keys)
}

#[test]
fn walks_meet_each_record() {
    let (table, keys) = filled(2000);
    assert!(table.capacity() >= 2000);
    let all: HashSet<(Key<u64>, u64)> = keys.iter().copied().zip(0..).collect();
    let met: Vec<(Key<u64>, u64)> = table.iter().collect();
    assert!(met.len() == 2000 && met.iter().copied().collect::<HashSet<_>>() == all);
    assert!(table.keys().eq(met.iter().map(|(key, _)| *key)));
    assert_eq!(table.remove_if(|key, n| keys[n as usize] == key && n % 4 == 0), 500);
    table.retain(|key, n| keys[n as usize] == key && n % 2 == 1);
    assert!(table.iter().eq(met.iter().copied().filter(|(_, n)| n % 2 == 1)) && table.len() == 1000);
    table.clear();
    assert_eq!((table.len(), table.iter().count(), table.keys().count()), (0, 0, 0));
    assert!(keys.iter().all(|key| !table.contains(*key)));
}

#[test]
fn a_drain_removes_what_it_returns_and_what_it_does_not() {
    let (mut table, keys) = filled(1000);
    let drained: HashSet<(Key<u64>, u64)> = table.drain().collect();
    assert!(drained == keys.into_iter().zip(0..).collect() && table.is_empty());
    (0..1000).for_each(|n| _ = table.insert(&n));
    let mut drain = table.drain();
    let (first, second) = (drain.next(), drain.next());
    drop(drain);
    assert!(first.is_some() && first != second && table.is_empty());
    (0..1000).for_each(|n| _ = table.insert(&n));
    let mut drain = table.drain();
    assert!(drain.next().is_some());
    forget(drain);
    assert_eq!((table.len(), table.iter().count()), (999, 999));
}

/// It inserts, removes, walks and lets its place rest. A key that is removed before the walk comes to it is not met.
#[test]
fn a_loop_may_call_the_table() {
    let (table, keys) = filled(100);
    let mut met = Vec::new();
    table.retain(|key, n| {
        met.push(key);
        assert!(table.get(key) == Some(n) && table.iter().any(|(other, _)| other == key));
        assert!(n != 50 || table.keys().filter(|key| table.remove(*key)).count() == 100);
        table.rest();
        table.insert(&n).is_ok_and(|key| table.remove(key))
    });
    assert!(met == keys[..51] && table.is_empty());
    let (table, _) = filled(2000);
    let doubled = table.remove_if(|_, n| n < 2000 && table.insert(&(n + 2000)).is_ok());
    assert!(doubled == 2000 && table.len() == 2000 && table.iter().all(|(_, n)| n >= 2000));
}

#[test]
fn a_walk_goes_from_thread_to_thread() {
    let (table, keys) = filled(2000);
    let (mut walk, mut met) = (table.iter(), Vec::new());
    for count in [700, 700, 700] {
        let mut part = || met.extend(walk.by_ref().take(count));
        thread::scope(|scope| scope.spawn(&mut part).join().expect("it ends well"));
    }
    assert!(met.len() == 2000 && met.into_iter().collect::<HashSet<_>>() == keys.into_iter().zip(0..).collect());
}

thread_local! {
    static PANICS: Cell<bool> = const { Cell::new(false) };
}

/// An even number. Its `read` panics if it is to.
#[derive(Debug, PartialEq)]
struct Even(u64);

impl Record for Even {
    const WORDS: usize = 1;

    fn write(&self, words: &mut [u64]) {
        self.0.write(words);
    }

    fn read(words: &[u64]) -> Option<Even> {
        assert!(!PANICS.get(), "it is to");
        u64::read(words).filter(|n| n % 2 == 0).map(Even)
    }
}

/// A record that is not read back, by an error of its type, is met as a key alone.
#[test]
fn a_record_that_is_not_read_or_panics_leaves_the_table_whole() {
    let mut table = Table::new();
    let keys: Vec<Key<Even>> = (0..100).map(|n| table.insert(&Even(n)).expect("there is room")).collect();
    assert!(table.keys().eq(keys.iter().copied()) && table.len() == 100);
    assert!(table.iter().eq((0..50).map(|n| (keys[2 * n], Even(2 * n as u64)))));
    assert_eq!(table.remove_if(|_, Even(n)| n < 20), 10);
    PANICS.set(true);
    assert!(catch_unwind(AssertUnwindSafe(|| table.iter().next())).is_err());
    assert!(catch_unwind(AssertUnwindSafe(|| table.retain(|_, _| false))).is_err());
    assert_eq!((table.len(), table.keys().count()), (90, 90));
    assert!(catch_unwind(AssertUnwindSafe(|| table.drain().next())).is_err());
    assert_eq!((table.len(), table.keys().count()), (0, 0), "the drop of the drain removes all");
    PANICS.set(false);
    assert!(catch_unwind(AssertUnwindSafe(|| table.retain(|_, _| panic!("it is to")))).is_ok());
    assert!(table.insert(&Even(2)).is_ok());
    assert!(catch_unwind(AssertUnwindSafe(|| table.remove_if(|_, _| panic!("it is to")))).is_err());
    assert_eq!((table.iter().count(), table.enter()), (1, Ok(())));
}

const STAYS: u64 = 7;
const GOES: u64 = 8;

/// The keys that stay and that a walk meets. Each other one is a walk that removes those that go.
fn swept(table: &Table<u64>, sweep: usize, removed: &AtomicUsize) -> Vec<Key<u64>> {
    let mut met = Vec::new();
    if sweep % 2 == 0 {
        met.extend(table.iter().filter(|(_, word)| *word == STAYS).map(|(key, _)| key));
        return met;
    }
    let count = table.remove_if(|key, word| {
        met.extend((word == STAYS).then_some(key));
        word == GOES
    });
    removed.fetch_add(count, SeqCst);
    met
}

/// Threads insert and remove beside walkers.
fn stays_are_met_once(threads: usize, walkers: usize, sweeps: usize, pause: Duration) {
    let table = Table::new();
    let (stay, over) = (Mutex::<HashSet<Key<u64>>>::default(), AtomicBool::new(false));
    let (begin, inserted, removed) = (Barrier::new(threads + walkers), AtomicUsize::new(0), AtomicUsize::new(0));
    let come_and_go = || {
        let insert = |word: u64| table.insert(&word).expect("there is room");
        let all: Vec<Key<u64>> = (0..2 * STAY as u64).map(|n| insert(STAYS + n % 2)).collect();
        stay.lock().expect("no thread panics").extend(all.iter().step_by(2));
        let mut going: Vec<Key<u64>> = all.into_iter().skip(1).step_by(2).collect();
        begin.wait();
        while !over.load(SeqCst) {
            inserted.fetch_add(going.len(), SeqCst);
            removed.fetch_add(going.drain(..).filter(|key| table.remove(*key)).count(), SeqCst);
            going.extend((0..STAY).map(|_| insert(GOES)));
            thread::sleep(pause);
        }
        inserted.fetch_add(going.len(), SeqCst);
    };
    let walk = || {
        begin.wait();
        let is_right = |sweep: &usize| {
            let (met, stay) = (swept(&table, *sweep, &removed), stay.lock().expect("no thread panics"));
            met.len() == stay.len() && met.iter().all(|key| stay.contains(key))
        };
        (0..sweeps).filter(is_right).count()
    };
    thread::scope(|scope| {
        (0..threads).for_each(|_| drop(scope.spawn(come_and_go)));
        let walks: Vec<_> = (0..walkers).map(|_| scope.spawn(walk)).collect();
        let right: Vec<usize> = walks.into_iter().map(|walk| walk.join().unwrap_or(0)).collect();
        over.store(true, SeqCst);
        assert_eq!(right, vec![sweeps; walkers]);
    });
    removed.fetch_add(table.remove_if(|_, word| word == GOES), SeqCst);
    assert_eq!(removed.into_inner(), inserted.into_inner(), "each is removed once");
    assert_eq!((table.len(), table.keys().count()), (STAY * threads, STAY * threads));
}

#[test]
fn keys_that_stay_are_met_once_beside_three_threads() {
    stays_are_met_once(3, 1, SWEEPS, Duration::ZERO);
}

#[test]
fn keys_that_stay_are_met_once_by_threads_that_share_places() {
    // (Each leaves some time to the others.)
    stays_are_met_once(66, 2, 4, PAUSE);
}
