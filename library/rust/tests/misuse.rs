//! Programs that use a slab and a pool as nobody should, in safe Rust alone: each value is still what was stored under
//! its key, and is dropped once. (What `mem::forget` leaves behind is in `forgotten.rs`.)
#![forbid(unsafe_code)]
use gearlongan::slab::{Clear, OwnedEntry, Pool, Slab};
use std::cell::{Cell, RefCell};
use std::panic::{catch_unwind, AssertUnwindSafe};
use std::sync::atomic::{AtomicBool, AtomicUsize, Ordering::SeqCst};
use std::sync::mpsc::channel;
use std::sync::{Arc, Barrier};
use std::thread;

const COUNT: usize = if cfg!(debug_assertions) { 300 } else { 10_000 };

/// A value of its own memory that counts how many of its kind were dropped.
struct Counted(Box<usize>, Arc<AtomicUsize>);

impl Counted {
    fn of(number: usize, dropped: &Arc<AtomicUsize>) -> Counted {
        Counted(Box::new(number), dropped.clone())
    }
}

impl Drop for Counted {
    fn drop(&mut self) {
        self.1.fetch_add(1, SeqCst);
    }
}

fn panics<R>(act: impl FnOnce() -> R) -> bool {
    catch_unwind(AssertUnwindSafe(act)).is_err()
}

/// Numbers in no order, from a seed. (Expected values do not depend on them.)
fn numbers(seed: u64) -> impl Iterator<Item = usize> {
    std::iter::successors(Some(seed | 1), |state| {
        let state = state ^ state << 13;
        let state = state ^ state >> 7;
        Some(state ^ state << 17)
    })
    .map(|state| state as usize)
}

#[test]
fn numbers_that_are_no_keys_find_nothing() {
    let dropped = Arc::default();
    let slab = Slab::new();
    let keys: Vec<usize> = (0..100).flat_map(|n| slab.insert(Counted::of(n, &dropped))).collect();
    let flipped = keys.iter().flat_map(|key| (0..64).map(move |bit| key ^ 1 << bit));
    // The page after the last of a shard is not the first of the next shard.
    let beyond = keys.iter().map(|key| key - (1 << 14) + (8 << 6));
    let all = numbers(7).take(COUNT).chain(flipped).chain(beyond);
    for number in all.filter(|number| !keys.contains(number)) {
        assert!(slab.get(number).is_none() && !slab.contains(number));
        assert!(!slab.remove(number) && slab.take(number).is_none());
    }
    assert!(keys.iter().enumerate().all(|(n, key)| slab.get(*key).is_some_and(|value| *value.0 == n)));
    assert_eq!(dropped.load(SeqCst), 0);
}

/// The first keys of two slabs are the same numbers. What one slab has under a key of the other is its own value.
#[test]
fn a_key_of_another_slab_finds_what_its_own_has() {
    let (texts, lists) = (Slab::new(), Slab::new());
    let key = texts.insert(String::from("one")).expect("there is room");
    assert_eq!(lists.insert(vec![1, 2]), Some(key));
    assert_eq!(lists.take(key), Some(vec![1, 2]));
    assert!(texts.get(key).is_some_and(|text| *text == "one"));
}

#[test]
fn a_value_is_taken_removed_and_got_while_its_entry_is_vacant() {
    let slab = Slab::new();
    let entry = slab.vacant_entry().expect("there is room");
    let key = entry.key();
    assert!(slab.get(key).is_none() && !slab.remove(key) && slab.take(key).is_none());
    entry.insert(String::from("one"));
    assert_eq!(slab.take(key).as_deref(), Some("one"));
}

#[test]
fn guards_outlive_the_arcs_of_their_slabs() {
    let dropped = Arc::default();
    let slab = Arc::new(Slab::new());
    let keys: Vec<usize> = (0..100).flat_map(|n| slab.insert(Counted::of(n, &dropped))).collect();
    let entries: Vec<OwnedEntry<Counted>> = keys.iter().flat_map(|key| slab.clone().get_owned(*key)).collect();
    keys.iter().step_by(2).for_each(|key| assert!(slab.remove(*key)));
    drop(slab);
    assert!(entries.iter().enumerate().all(|(n, entry)| *entry.0 == n));
    // The last one drops the slab, within its own drop.
    drop(entries);
    assert_eq!(dropped.load(SeqCst), 100);
}

/// A value that has guards of its own slab.
#[test]
fn a_value_holds_the_guard_of_another() {
    struct Linked(usize, Option<OwnedEntry<Linked>>, Arc<AtomicUsize>);
    impl Drop for Linked {
        fn drop(&mut self) {
            self.2.fetch_add(1, SeqCst);
        }
    }
    let dropped: Arc<AtomicUsize> = Arc::default();
    let slab = Arc::new(Slab::new());
    let mut last = None;
    for n in 0..100 {
        let entry = last.and_then(|key| slab.clone().get_owned(key));
        let key = slab.insert(Linked(n, entry, dropped.clone())).expect("there is room");
        assert!(last.is_none_or(|key| slab.remove(key)));
        last = Some(key);
    }
    assert_eq!(dropped.load(SeqCst), 0, "each has a guard of the one before");
    let entry = last.and_then(|key| slab.get(key)).expect("it is there");
    assert_eq!(entry.1.as_ref().map(|before| before.0), Some(98));
    drop(entry);
    // One drop after the other, each within the one before.
    assert!(last.is_some_and(|key| slab.remove(key)));
    assert_eq!(dropped.load(SeqCst), 100);
}

/// A value whose drop panics while its number is odd.
struct Panics(Counted);

impl Drop for Panics {
    fn drop(&mut self) {
        assert_eq!(*self.0 .0 % 2, 0, "an odd one panics");
    }
}

#[test]
fn values_that_panic_as_they_are_dropped_leave_the_others() {
    let dropped = Arc::default();
    let slab = Arc::new(Slab::new());
    let mut keys: Vec<usize> = (0..COUNT).flat_map(|n| slab.insert(Panics(Counted::of(n, &dropped)))).collect();
    for n in (1..COUNT).step_by(2) {
        let (key, theirs) = (keys[n], slab.clone());
        match n % 3 {
            0 => assert!(panics(|| slab.remove(key))),
            1 => assert!(panics(|| drop(slab.take(key)))),
            _ => {
                let entry = slab.clone().get_owned(key).expect("it is there");
                assert!(slab.remove(key));
                assert!(thread::spawn(move || drop((entry, theirs))).join().is_err());
            }
        }
        assert!(!slab.contains(key));
        keys[n] = slab.insert(Panics(Counted::of(2 * COUNT, &dropped))).expect("there is room");
    }
    assert_eq!(dropped.load(SeqCst), COUNT / 2);
    assert!(keys.iter().all(|key| slab.get(*key).is_some_and(|value| *value.0 .0 % 2 == 0)));
    drop(slab);
    assert_eq!(dropped.load(SeqCst), COUNT / 2 + COUNT);
}

/// A guard is dropped while its thread panics for another reason.
#[test]
fn guards_that_a_panic_drops_end_their_values() {
    let dropped = Arc::default();
    let slab = Slab::new();
    for n in 0..COUNT {
        let key = slab.insert(Counted::of(n, &dropped)).expect("there is room");
        let act = || {
            let entry = slab.get(key).expect("it is there");
            assert!(slab.remove(key));
            assert_ne!(*entry.0, n, "it is what was stored");
        };
        assert!(panics(act));
        assert_eq!(dropped.load(SeqCst), n + 1);
    }
}

/// A list that panics as it is cleared, before or after it is empty.
#[derive(Default)]
struct Fragile(Vec<usize>);

impl Clear for Fragile {
    fn clear(&mut self) {
        assert!(self.0.len() < 3, "it panics before it is cleared");
        self.0.clear();
        assert!(self.0.capacity() < 2, "it panics after it is cleared");
    }
}

/// Such a value is used again as it was left. It is still a value.
#[test]
fn values_that_panic_as_they_are_cleared_stay_values() {
    let pool: Pool<Fragile> = Pool::new();
    for n in 0..COUNT {
        let fill = |list: &mut Fragile| list.0.extend(0..n % 5);
        let key = pool.create_with(fill).expect("there is room");
        assert!(key >> 52 == 0, "the place is used again");
        let guard = pool.get(key).expect("it is there");
        assert!(guard.0.iter().all(|number| *number < 5));
        drop(guard);
        _ = catch_unwind(AssertUnwindSafe(|| pool.clear(key)));
        assert!(pool.get(key).is_none() && !pool.clear(key));
    }
}

/// A value that uses its pool while it is made and cleared.
#[test]
fn a_value_uses_its_pool_while_it_is_made_and_cleared() {
    thread_local! {
        static POOL: RefCell<Option<Arc<Pool<Nested>>>> = const { RefCell::new(None) };
        static DEPTH: Cell<usize> = const { Cell::new(0) };
    }
    #[derive(Debug)]
    struct Nested(Option<usize>, String);
    impl Default for Nested {
        fn default() -> Nested {
            let pool = POOL.with_borrow(|pool| pool.clone());
            let depth = DEPTH.get();
            DEPTH.set(depth + 1);
            let other = pool.filter(|_| depth < 3).and_then(|pool| pool.create_with(|it| it.1.push_str("inner")));
            DEPTH.set(depth);
            Nested(other, String::new())
        }
    }
    impl Clear for Nested {
        fn clear(&mut self) {
            let pool = POOL.with_borrow(|pool| pool.clone());
            let removed = self.0.take().zip(pool).map(|(key, pool)| pool.clear(key));
            assert!(removed.is_none_or(|removed| removed));
            self.1.clear();
        }
    }
    let pool: Arc<Pool<Nested>> = Arc::new(Pool::new());
    POOL.set(Some(pool.clone()));
    for _ in 0..COUNT {
        let key = pool.create_with(|it| it.1.push_str("outer")).expect("there is room");
        let inner = pool.get(key).and_then(|it| (it.1 == "outer").then_some(it.0).flatten());
        assert!(inner.is_none_or(|key| pool.get(key).is_some_and(|it| it.1 == "inner")));
        assert!(pool.clear(key) && inner.is_none_or(|key| pool.get(key).is_none()));
    }
    POOL.set(None);
}

/// What is cleared while it is used stays as it is for those that use it, and its key finds no later value.
#[test]
fn values_are_cleared_while_others_read_them() {
    let pool: Pool<String> = Pool::new();
    let (done, start) = (AtomicBool::new(false), Barrier::new(4));
    thread::scope(|scope| {
        let mut senders = Vec::new();
        for _ in 0..3 {
            let (sender, receiver) = channel::<(usize, usize)>();
            senders.push(sender);
            let (pool, done, start) = (&pool, &done, &start);
            scope.spawn(move || {
                start.wait();
                for (key, n) in receiver {
                    // It may be cleared already, and is never another's.
                    let Some(guard) = pool.get(key) else { continue };
                    pool.clear(key);
                    let text = format!("value {n}");
                    (0..10).for_each(|_| assert_eq!(*guard, text));
                }
                assert!(done.load(SeqCst));
            });
        }
        start.wait();
        for n in 0..COUNT {
            let key = pool.create_with(|text| text.push_str(&format!("value {n}"))).expect("there is room");
            senders.iter().for_each(|sender| sender.send((key, n)).expect("it listens"));
        }
        done.store(true, SeqCst);
    });
}

/// Threads keep guards in what is dropped after they have ended, when the slab has nothing of them any more.
#[test]
fn threads_end_with_guards() {
    thread_local! {
        static KEPT: RefCell<Kept> = const { RefCell::new(Kept(None, Vec::new())) };
    }
    struct Kept(Option<Arc<Slab<Counted>>>, Vec<OwnedEntry<Counted>>);
    impl Drop for Kept {
        fn drop(&mut self) {
            let Some(slab) = &self.0 else { return };
            // All calls work here too.
            let dropped = Arc::default();
            let key = slab.insert(Counted::of(7, &dropped)).expect("there is room");
            assert!(slab.get(key).is_some_and(|value| *value.0 == 7));
            assert!(slab.remove(key) && dropped.load(SeqCst) == 1);
            assert!(self.1.iter().enumerate().all(|(n, entry)| *entry.0 == n));
        }
    }
    let dropped = Arc::default();
    for is_first in [true, false] {
        let slab = Arc::new(Slab::new());
        let theirs = slab.clone();
        let counts = Arc::clone(&dropped);
        let work = move || {
            // The order of the two decides which of them is dropped first.
            let keep = || KEPT.with_borrow_mut(|kept| kept.0 = Some(theirs.clone()));
            is_first.then(keep);
            let keys: Vec<usize> = (0..100).flat_map(|n| theirs.insert(Counted::of(n, &counts))).collect();
            keep();
            KEPT.with_borrow_mut(|kept| kept.1.extend(keys.iter().flat_map(|key| theirs.clone().get_owned(*key))));
            keys
        };
        let keys = thread::spawn(work).join().expect("it ends well");
        assert!(keys.iter().all(|key| slab.remove(*key)));
    }
    assert_eq!(dropped.load(SeqCst), 200);
}

/// A thread ends with values in the slab, with a vacant entry of another thread, and with a value that is written.
#[test]
fn guards_go_to_other_threads_and_end_there() {
    let dropped = Arc::default();
    let slab = Arc::new(Slab::new());
    let pool: Arc<Pool<String>> = Arc::new(Pool::new());
    for n in 0..COUNT / 10 {
        let keys = thread::scope(|scope| {
            let vacant = slab.vacant_entry().expect("there is room");
            let key = vacant.key();
            let value = Counted::of(n, &dropped);
            scope.spawn(move || vacant.insert(value)).join().expect("it ends well");
            let entry = slab.get(key).expect("it is there");
            let mut written = pool.create().expect("there is room");
            let text = written.key();
            scope.spawn(move || written.push('a'));
            assert!(slab.remove(key));
            scope.spawn(move || assert_eq!(*entry.0, n));
            (key, text)
        });
        assert_eq!((slab.contains(keys.0), dropped.load(SeqCst)), (false, n + 1));
        let owned = pool.clone().get_owned(keys.1).expect("it is there");
        let theirs = pool.clone();
        thread::spawn(move || assert!(theirs.clear(owned.key()) && *owned == "a")).join().expect("it ends well");
    }
}

/// Threads do all calls with all keys that any of them ever saw. Each value says under which key it was stored.
#[test]
fn threads_use_keys_in_no_order() {
    const KEYS: usize = 64;
    let dropped = Arc::default();
    let slab: Arc<Slab<(usize, Counted)>> = Arc::new(Slab::new());
    let keys: [AtomicUsize; KEYS] = [const { AtomicUsize::new(0) }; KEYS];
    let stored: usize = thread::scope(|scope| {
        let work = |seed| {
            let (slab, keys, dropped) = (&slab, &keys, &dropped);
            move || {
                let (mut stored, mut kept) = (0, Vec::new());
                for number in numbers(seed).take(COUNT * 5) {
                    let place = &keys[number % KEYS];
                    let key = place.load(SeqCst);
                    match number >> 20 & 7 {
                        0..=2 => {
                            let vacant = slab.vacant_entry().expect("there is room");
                            place.store(vacant.key(), SeqCst);
                            let key = vacant.key();
                            vacant.insert((key, Counted::of(key, dropped)));
                            stored += 1;
                        }
                        3 => _ = slab.remove(key),
                        4 if kept.is_empty() => assert!(slab.take(key).is_none_or(|value| value.0 == key)),
                        5 => kept.clear(),
                        _ => kept.extend(slab.clone().get_owned(key)),
                    }
                    assert!(kept.iter().all(|entry: &OwnedEntry<_>| entry.0 == entry.key() && *entry.1 .0 == entry.0));
                    kept.truncate(4);
                }
                stored
            }
        };
        let workers: Vec<_> = (1..=4).map(|seed| scope.spawn(work(seed * 0x1234_5677))).collect();
        workers.into_iter().map(|worker| worker.join().expect("it ends well")).sum()
    });
    drop(slab);
    assert_eq!(dropped.load(SeqCst), stored);
}
