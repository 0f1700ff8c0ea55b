//! A table that threads share: more threads than places, what the end of a thread leaves, and who removes a key.
use gearlongan::table::Key;
use gearlongan::{Error, Table};
use std::sync::atomic::{AtomicUsize, Ordering::SeqCst};
use std::sync::mpsc::channel;
use std::sync::{Arc, Barrier, OnceLock};
use std::thread;

const COUNT: u64 = if cfg!(debug_assertions) { 50 } else { 500 };

/// A thread of a small stack.
fn spawn<'scope>(scope: &'scope thread::Scope<'scope, '_>, work: impl FnOnce() + Send + 'scope) {
    let spawned = thread::Builder::new().stack_size(128 << 10).spawn_scoped(scope, work);
    drop(spawned.expect("the system has so many threads"));
}

/// All have a record at the same time. 60 have a place of their own then, and the others share four.
#[test]
fn a_thousand_threads_have_no_call_refused() {
    const THREADS: u64 = 1000;
    let (table, start) = (Table::new(), Barrier::new(THREADS as usize));
    let of_all = table.insert(&u64::MAX).expect("there is room");
    thread::scope(|scope| {
        for n in 0..THREADS {
            let (table, start) = (&table, &start);
            spawn(scope, move || {
                start.wait();
                let keys: Vec<Key<u64>> = (0..COUNT).map(|k| table.insert(&(n << 32 | k)).expect("room")).collect();
                assert_eq!(table.get(of_all), Some(u64::MAX));
                start.wait();
                for (key, k) in keys.iter().zip(0..) {
                    assert!(table.contains(*key));
                    assert_eq!(table.get(*key), Some(n << 32 | k));
                    match k % 2 {
                        0 => assert!(table.remove(*key)),
                        _ => assert_eq!(table.take(*key), Some(n << 32 | k)),
                    }
                    assert_eq!(table.get(*key), None);
                }
            });
        }
    });
    assert_eq!(table.len(), 1);
}

#[test]
fn sixty_threads_have_a_place_and_the_next_has_none_until_one_ends() {
    let (table, start) = (Table::<u64>::new(), Barrier::new(61));
    thread::scope(|scope| {
        let enter = || {
            table.enter().expect("a place rests");
            start.wait();
            start.wait();
        };
        let all: Vec<_> = (0..60).map(|_| scope.spawn(enter)).collect();
        start.wait();
        assert_eq!(table.enter(), Err(Error::NoPlace));
        // It shares one.
        let key = table.insert(&7).expect("there is room");
        start.wait();
        all.into_iter().for_each(|thread| thread.join().expect("it ends well"));
        assert_eq!((table.get(key), table.enter()), (Some(7), Ok(())));
    });
}

/// A thread has the room that another left, so that the table does not grow.
#[test]
fn threads_that_end_leave_their_room_to_others() {
    let table = Table::builder().threads(1).chunks(1).open().expect("it opens");
    for n in 0..500u64 {
        let work = || {
            let keys: Vec<_> = (0..100).map(|_| table.insert(&n).expect("there is room")).collect();
            assert!(keys.iter().all(|key| table.take(*key) == Some(n)));
        };
        thread::scope(|scope| scope.spawn(work).join().expect("it ends well"));
    }
    assert!(table.is_empty());
}

/// A thread removes what another inserted, which has ended.
#[test]
fn records_outlive_their_threads() {
    let table = Table::new();
    let insert = || (0..1000u64).map(|n| table.insert(&n).expect("there is room")).collect::<Vec<_>>();
    let keys = thread::scope(|scope| scope.spawn(insert).join().expect("it ends well"));
    assert!(keys.iter().zip(0..).all(|(key, n)| table.get(*key) == Some(n)));
    assert!(keys.iter().all(|key| table.remove(*key)));
    assert!(table.is_empty());
}

/// All remove or take the same keys: each is removed once.
#[test]
fn of_all_that_remove_a_key_one_does() {
    let table = Table::new();
    let keys: Vec<_> = (0..2000u64).map(|n| table.insert(&n).expect("there is room")).collect();
    for removers in [2, 4, 70] {
        let (keys, start) = (&keys[..COUNT as usize], Barrier::new(removers));
        let keys: Vec<_> = keys.iter().map(|_| table.insert(&7).expect("there is room")).collect();
        let remove = |number: usize| {
            start.wait();
            let removes = |key: &&Key<u64>| match number % 2 {
                0 => table.remove(**key),
                _ => table.take(**key) == Some(7),
            };
            keys.iter().filter(removes).count()
        };
        let removed: usize = thread::scope(|scope| {
            let remove = &remove;
            let workers: Vec<_> = (0..removers).map(|number| scope.spawn(move || remove(number))).collect();
            workers.into_iter().map(|worker| worker.join().expect("it ends well")).sum()
        });
        assert_eq!((removed, table.len()), (keys.len(), 2000));
    }
}

/// A key that is handed over is found, and one that was removed is not.
#[test]
fn a_call_sees_what_happens_before_it() {
    let table = Table::new();
    thread::scope(|scope| {
        let ((sender, receiver), (back, removed)) = (channel(), channel());
        let table = &table;
        scope.spawn(move || {
            for n in 0..100 * COUNT {
                let key = table.insert(&n).expect("there is room");
                sender.send(key).expect("somebody listens");
                assert_eq!(removed.recv().map(|key| table.get(key)), Ok(None));
            }
        });
        scope.spawn(move || {
            for (key, n) in receiver.iter().zip(0..) {
                assert_eq!(table.get(key), Some(n));
                assert!(table.remove(key));
                back.send(key).expect("somebody listens");
            }
        });
    });
}

static LATE: OnceLock<Table<u64>> = OnceLock::new();
static SEEN: AtomicUsize = AtomicUsize::new(0);

/// Uses the table as its thread ends: after the crate's own destructors, if it was made before them.
struct Late(u64);

impl Drop for Late {
    fn drop(&mut self) {
        let table = LATE.get().expect("it is there");
        let key = table.insert(&self.0).expect("there is room");
        assert_eq!((table.get(key), table.take(key)), (Some(self.0), Some(self.0)));
        table.rest();
        SEEN.fetch_add(table.enter().is_err().into(), SeqCst);
    }
}

thread_local! {
    static FIRST: Late = const { Late(1) };
    static LAST: Late = const { Late(2) };
}

#[test]
fn destructors_of_a_thread_use_the_table() {
    let table = LATE.get_or_init(Table::new);
    for _ in 0..100 {
        let work = || {
            FIRST.with(|_| ());
            let key = table.insert(&7).expect("there is room");
            LAST.with(|_| ());
            assert!(table.remove(key));
        };
        // The join of a thread waits for its destructors.
        thread::spawn(work).join().expect("it ends well");
    }
    // Those that run after the crate's have no place of their own.
    assert_eq!((table.len(), SEEN.load(SeqCst)), (0, 100));
}

/// A thread that ends after its table was dropped gives nothing back, and one that uses it to the end keeps it whole.
#[test]
fn a_table_is_dropped_while_threads_that_used_it_go_on() {
    let (table, used, end) = (Arc::new(Table::new()), Barrier::new(9), Barrier::new(9));
    thread::scope(|scope| {
        for n in 0..8u64 {
            let (table, used, end) = (table.clone(), &used, &end);
            scope.spawn(move || {
                assert!(table.insert(&n).is_ok());
                drop(table);
                used.wait();
                end.wait();
            });
        }
        used.wait();
        assert_eq!(table.len(), 8);
        drop(table);
        end.wait();
    });
}
