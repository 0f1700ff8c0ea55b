//! The slab: each value is dropped once, by its last user, and the slab grows.
#[path = "common/counted.rs"]
mod counted;
#[path = "common/small.rs"]
mod small;

use counted::Counted;
use gearlongan::slab::{Config, Entry, OwnedEntry, Slab, VacantEntry};
use gearlongan::Error;
use small::Small;
use std::future::Future;
use std::panic::{catch_unwind, AssertUnwindSafe, RefUnwindSafe, UnwindSafe};
use std::pin::{pin, Pin};
use std::sync::atomic::{AtomicUsize, Ordering::SeqCst};
use std::sync::Arc;
use std::task::{Context, Poll, Wake, Waker};
use std::thread;

const COUNT: usize = if cfg!(debug_assertions) { 1_000 } else { 10_000 };

/// How many values a `Small` slab has room for.
const SMALL_ROOM: usize = 4 * 384;

#[test]
fn what_may_be_sent_and_shared() {
    fn shared<T: Send + Sync + UnwindSafe + RefUnwindSafe + Unpin>() {}
    shared::<Slab<String>>();
    shared::<OwnedEntry<String>>();
    shared::<Entry<'_, String>>();
    shared::<VacantEntry<'_, String>>();
}

#[test]
fn a_value_is_dropped_with_the_last_entry() {
    let dropped = Arc::new(AtomicUsize::new(0));
    let slab = Slab::new();
    let key = slab.insert(Counted(7, dropped.clone())).expect("there is room");
    let (one, other) = (slab.get(key).expect("it is there"), slab.get(key).expect("it is there"));
    assert!(slab.remove(key));
    drop(one);
    assert_eq!((other.0, dropped.load(SeqCst)), (7, 0));
    drop(other);
    assert_eq!(dropped.load(SeqCst), 1);
    assert!(!slab.remove(key) && slab.get(key).is_none());
}

#[test]
fn the_slab_drops_what_is_left() {
    let dropped = Arc::new(AtomicUsize::new(0));
    let slab = Slab::new();
    let keys: Vec<usize> = (0..100).flat_map(|n| slab.insert(Counted(n, dropped.clone()))).collect();
    assert_eq!(keys.len(), 100);
    keys.iter().step_by(2).for_each(|key| assert!(slab.remove(*key)));
    assert_eq!(dropped.load(SeqCst), 50);
    drop(slab);
    assert_eq!(dropped.load(SeqCst), 100);
}

#[test]
fn an_owned_entry_outlives_its_slab() {
    let dropped = Arc::new(AtomicUsize::new(0));
    let slab = Arc::new(Slab::new());
    let key = slab.insert(Counted(7, dropped.clone())).expect("there is room");
    let entry = slab.clone().get_owned(key).expect("it is there");
    assert_eq!((entry.key(), Arc::ptr_eq(entry.slab(), &slab)), (key, true));
    drop(slab);
    let seven = thread::spawn(move || entry.0).join().expect("it ends well");
    assert_eq!((seven, dropped.load(SeqCst)), (7, 1));
}

#[test]
fn a_vacant_entry_is_filled_or_removed() {
    let slab = Slab::new();
    let (filled, dropped) = (slab.vacant_entry(), slab.vacant_entry());
    let (filled, dropped) = (filled.expect("there is room"), dropped.expect("there is room"));
    let (key, none) = (filled.key(), dropped.key());
    assert!(!slab.contains(key) && !slab.remove(key) && slab.take(none).is_none());
    filled.insert("hello");
    drop(dropped);
    assert_eq!(slab.get(key).expect("it is there"), "hello");
    assert!(!slab.contains(none));
    assert_eq!(slab.take(key), Some("hello"));
}

#[test]
fn a_full_slab_returns_none_and_drops_what_it_did_not_store() {
    let dropped = Arc::new(AtomicUsize::new(0));
    let slab = Slab::new_with_config::<Small>();
    let keys: Vec<usize> = std::iter::from_fn(|| slab.insert(Counted(7, dropped.clone()))).collect();
    assert_eq!((keys.len(), dropped.load(SeqCst)), (SMALL_ROOM, 1));
    assert!(slab.vacant_entry().is_none());
    // Whichever place is free, the slab finds it.
    for key in keys.iter().step_by(100) {
        assert!(slab.remove(*key));
        assert!(slab.insert(Counted(8, dropped.clone())).is_some());
        assert!(slab.vacant_entry().is_none());
    }
}

#[test]
fn a_room_is_had_before_the_slab_grows() {
    let slab = Slab::with_room(1000).expect("it opens");
    assert!((0..1000).flat_map(|n| slab.insert(n)).all(|key| key >> 52 == 0));
    assert_eq!(Slab::<u8>::with_room(12_289).err(), Some(Error::BadShape));
}

#[test]
fn a_slab_grows_and_finds_all_values() {
    let count = if cfg!(debug_assertions) { 20_000 } else { 200_000 };
    let slab = Slab::new();
    let keys: Vec<usize> = (0..count).flat_map(|n| slab.insert(n)).collect();
    assert_eq!(keys.len(), count);
    assert!(keys.iter().enumerate().all(|(n, key)| slab.get(*key).is_some_and(|value| *value == n)));
    let heaps = keys.iter().map(|key| key >> 52).max();
    // All but the last are used again.
    for _ in 0..3 {
        keys.iter().for_each(|key| _ = slab.remove(*key));
        let again: Vec<usize> = (0..count - 1000).flat_map(|n| slab.insert(n)).collect();
        assert!(again.iter().all(|key| slab.contains(*key)) && keys.iter().all(|key| !slab.contains(*key)));
        assert!(again.iter().map(|key| key >> 52).max() <= heaps);
        again.iter().for_each(|key| assert!(slab.remove(*key)));
    }
}

/// Where a value is: its heap, and the shard, page and slot there.
fn place(key: usize) -> (usize, usize) {
    (key >> 52, key % (1 << 20))
}

#[test]
fn a_walk_meets_what_keys_find_in_the_order_of_their_places() {
    let slab = Slab::new();
    assert_eq!(slab.iter().count(), 0);
    let mut all: Vec<(usize, usize)> = (0..COUNT).map(|n| (slab.insert(n).expect("there is room"), n)).collect();
    let (vacant, held) = (slab.vacant_entry(), slab.get(all[3].0));
    all.retain(|(key, n)| n % 5 != 3 || !slab.remove(*key));
    all.sort_unstable_by_key(|(key, _)| place(*key));
    let met = || slab.iter().map(|entry| (entry.key(), *entry)).collect::<Vec<_>>();
    assert!(vacant.is_some() && held.is_some());
    assert_eq!(met(), all);
    // The closure may call the slab.
    let mut seen = Vec::new();
    slab.retain(|key, n| {
        seen.push((key, *n));
        slab.contains(key) && (n % 2 == 0 || !slab.remove(key))
    });
    assert_eq!(seen, all);
    all.retain(|(_, n)| n % 2 == 0);
    assert_eq!(met(), all);
    slab.retain(|_, n| *n == all[0].1);
    assert_eq!(met(), all[..1]);
}

#[test]
fn a_walk_that_ends_early_has_no_value_any_more() {
    let dropped = Arc::new(AtomicUsize::new(0));
    let slab = Slab::new();
    let keys: Vec<usize> = (0..100).flat_map(|n| slab.insert(Counted(n, dropped.clone()))).collect();
    assert_eq!(slab.iter().nth(50).map(|entry| entry.0), Some(50));
    assert!(catch_unwind(AssertUnwindSafe(|| slab.retain(|_, value| panic!("at {}", value.0)))).is_err());
    assert_eq!(dropped.load(SeqCst), 0);
    assert!(keys.iter().all(|key| slab.remove(*key)));
    assert_eq!(dropped.load(SeqCst), 100);
}

#[test]
fn a_vacant_entry_that_is_dropped_leaves_its_place() {
    let slab = Slab::<u64>::new();
    for _ in 0..COUNT * 10 {
        assert!(slab.vacant_entry().is_some_and(|entry| entry.key() >> 52 == 0));
    }
    // One that is filled and removed does too.
    for n in 0..COUNT as u64 {
        let entry = slab.vacant_entry().expect("there is room");
        let key = entry.key();
        entry.insert(n);
        assert!(key >> 52 == 0 && slab.remove(key));
    }
}

#[test]
fn all_values_are_dropped_though_the_drop_of_one_panics() {
    struct Panics(usize, Arc<AtomicUsize>);
    impl Drop for Panics {
        fn drop(&mut self) {
            self.1.fetch_add(1, SeqCst);
            assert_ne!(self.0, 40, "this one panics");
        }
    }
    let dropped = Arc::new(AtomicUsize::new(0));
    let slab = Slab::new();
    let keys: Vec<usize> = (0..100).flat_map(|n| slab.insert(Panics(n, dropped.clone()))).collect();
    assert!(slab.remove(keys[10]));
    assert!(catch_unwind(AssertUnwindSafe(|| drop(slab))).is_err());
    assert_eq!(dropped.load(SeqCst), 100);
    // The place of a value whose drop panics is used again.
    let slab = Slab::new();
    for _ in 0..COUNT {
        let key = slab.insert(Panics(40, dropped.clone())).expect("there is room");
        assert!(key >> 52 == 0 && catch_unwind(AssertUnwindSafe(|| slab.remove(key))).is_err());
        assert!(!slab.contains(key));
    }
}

/// A page of such values is larger than the stack.
#[test]
fn large_values_do_not_pass_through_the_stack() {
    const SIZE: usize = 1 << 20;
    let work = || {
        let slab = Slab::new();
        let keys: Vec<usize> = (0..3).flat_map(|n| slab.insert([n; SIZE])).collect();
        assert!(keys.iter().enumerate().all(|(n, key)| slab.get(*key).is_some_and(|value| value[SIZE - 1] == n as u8)));
        assert!(slab.remove(keys[1]) && !slab.contains(keys[1]));
    };
    thread::Builder::new().stack_size(16 * SIZE).spawn(work).expect("it starts").join().expect("it ends well");
}

#[test]
fn values_of_no_size_have_keys_and_are_dropped() {
    struct Nothing;
    static DROPPED: AtomicUsize = AtomicUsize::new(0);
    impl Drop for Nothing {
        fn drop(&mut self) {
            DROPPED.fetch_add(1, SeqCst);
        }
    }
    let mut slab = Slab::new();
    let keys: Vec<usize> = (0..100).flat_map(|_| slab.insert(Nothing)).collect();
    assert!(slab.remove(keys[0]) && slab.take(keys[1]).is_some());
    assert_eq!((slab.unique_iter().count(), DROPPED.load(SeqCst)), (98, 2));
    drop(slab);
    assert_eq!(DROPPED.load(SeqCst), 100);
}

#[test]
fn a_forgotten_entry_keeps_its_value_until_the_slab_is_dropped() {
    let dropped = Arc::new(AtomicUsize::new(0));
    let mut slab = Slab::new();
    let key = slab.insert(Counted(7, dropped.clone())).expect("there is room");
    std::mem::forget(slab.get(key));
    assert!(slab.remove(key) && !slab.contains(key));
    assert_eq!((slab.unique_iter().count(), dropped.load(SeqCst)), (0, 0));
    drop(slab);
    assert_eq!(dropped.load(SeqCst), 1);
}

#[test]
fn reserved_bits_are_the_users() {
    struct Packed;
    impl Config for Packed {
        const RESERVED_BITS: usize = 6;
    }
    let slab = Slab::new_with_config::<Packed>();
    assert_eq!(Slab::<u32, Packed>::USED_BITS, 58);
    let key = slab.insert(7).expect("there is room");
    let packed = key | 0b10_1010 << 58;
    let entry = slab.get(packed).expect("it is there");
    assert_eq!((entry.key(), *entry), (packed, 7));
    assert!(slab.remove(packed) && !slab.contains(key) && !slab.remove(key));
    drop(entry);
    // Without reserved bits each bit counts.
    let slab = Slab::new();
    let key = slab.insert(7).expect("there is room");
    assert!((0..64).all(|bit| !slab.contains(key ^ 1 << bit)));
}

/// A future that is ready when it is polled a second time.
struct Later(bool);

impl Future for Later {
    type Output = ();

    fn poll(mut self: Pin<&mut Self>, _: &mut Context<'_>) -> Poll<()> {
        let ready = std::mem::replace(&mut self.0, true);
        if ready {
            Poll::Ready(())
        } else {
            Poll::Pending
        }
    }
}

struct NoWaker;

impl Wake for NoWaker {
    fn wake(self: Arc<Self>) {}
}

/// The future is polled by one thread before it waits, and by another one afterwards.
#[test]
fn an_owned_entry_is_held_while_a_future_waits() {
    fn sent<F: Future + Send>(future: F) -> F {
        future
    }
    let dropped = Arc::new(AtomicUsize::new(0));
    let slab = Arc::new(Slab::new());
    let key = slab.insert(Counted(7, dropped.clone())).expect("there is room");
    let theirs = slab.clone();
    let mut future = Box::pin(sent(async move {
        let entry = theirs.clone().get_owned(key).expect("it is there");
        Later(false).await;
        entry.0
    }));
    let waker = Waker::from(Arc::new(NoWaker));
    assert!(future.as_mut().poll(&mut Context::from_waker(&waker)).is_pending());
    assert!(slab.remove(key));
    let poll = move || pin!(future).poll(&mut Context::from_waker(&waker));
    assert_eq!(thread::spawn(poll).join().expect("it ends well"), Poll::Ready(7));
    assert_eq!(dropped.load(SeqCst), 1);
}

#[test]
fn keys_that_were_removed_find_nothing_though_their_nodes_serve_again() {
    let slab = Slab::new();
    let mut old = Vec::new();
    for n in 0..COUNT {
        let key = slab.insert(n).expect("there is room");
        assert_eq!(slab.take(key), Some(n));
        old.push(key);
    }
    let _last = slab.insert(COUNT);
    assert!(old.iter().all(|key| slab.get(*key).is_none() && !slab.remove(*key)));
    assert!(!slab.contains(0) && !slab.contains(usize::MAX));
}

#[test]
fn a_value_may_use_the_slab_while_it_is_dropped() {
    struct Parent(Arc<Slab<Parent>>, Option<usize>);
    impl Drop for Parent {
        fn drop(&mut self) {
            if let Some(child) = self.1 {
                assert!(self.0.remove(child));
            }
        }
    }
    let slab = Arc::new(Slab::new());
    let child = slab.insert(Parent(slab.clone(), None));
    let parent = slab.insert(Parent(slab.clone(), child)).expect("there is room");
    assert!(slab.remove(parent));
    assert!(!slab.contains(child.expect("there is room")));
}
