//! The pool: values are cleared by their last user, and used again.
#[path = "common/small.rs"]
mod small;

use gearlongan::slab::pool::{OwnedRef, OwnedRefMut, Ref, RefMut};
use gearlongan::slab::{Clear, Pool};
use small::Small;
use std::collections::{HashMap, HashSet};
use std::panic::{catch_unwind, AssertUnwindSafe, RefUnwindSafe, UnwindSafe};
use std::sync::atomic::{AtomicUsize, Ordering::SeqCst};
use std::sync::mpsc::channel;
use std::sync::{Arc, Mutex, RwLock};
use std::thread;

const COUNT: usize = if cfg!(debug_assertions) { 1_000 } else { 10_000 };

static MADE: AtomicUsize = AtomicUsize::new(0);
static DROPPED: AtomicUsize = AtomicUsize::new(0);

/// A value that counts how many of its kind were made and dropped. A clear that was not done shows.
struct Counted {
    number: usize,
    is_clear: bool,
}

impl Default for Counted {
    fn default() -> Counted {
        MADE.fetch_add(1, SeqCst);
        Counted { number: 0, is_clear: true }
    }
}

impl Clear for Counted {
    fn clear(&mut self) {
        assert!(!self.is_clear, "it is cleared once");
        *self = Counted { number: 0, is_clear: true };
        MADE.fetch_add(1, SeqCst);
    }
}

impl Drop for Counted {
    fn drop(&mut self) {
        DROPPED.fetch_add(1, SeqCst);
    }
}

impl Counted {
    fn set(&mut self, number: usize) {
        assert!(self.is_clear && self.number == 0, "a new value is clear");
        *self = Counted { number, is_clear: false };
        MADE.fetch_add(1, SeqCst);
    }
}

#[test]
fn what_may_be_sent_and_shared() {
    fn shared<T: Send + Sync + UnwindSafe + RefUnwindSafe + Unpin>() {}
    shared::<Pool<String>>();
    shared::<(OwnedRef<String>, OwnedRefMut<String>)>();
    shared::<(Ref<'_, String>, RefMut<'_, String>)>();
}

/// (One test for all that count, since others run at the same time.)
#[test]
fn each_value_is_cleared_once_and_dropped_with_the_pool() {
    let pool: Arc<Pool<Counted>> = Arc::new(Pool::new());
    let (sender, receiver) = channel();
    thread::scope(|scope| {
        for thread in 0..3 {
            let (sender, pool) = (sender.clone(), &pool);
            scope.spawn(move || {
                for n in 0..COUNT {
                    let mut guard = pool.create().expect("there is room");
                    guard.set(n + 1);
                    let key = guard.key();
                    assert!(pool.get(key).is_none());
                    match n % 3 {
                        0 => drop(guard),
                        1 => assert_eq!(guard.downgrade().number, n + 1),
                        _ => {
                            let mut owned = pool.clone().create_owned().expect("there is room");
                            owned.set(n + 1);
                            assert!(pool.clear(owned.key()));
                            assert!(n % 2 == 0 || owned.downgrade().number == n + 1);
                            drop(guard);
                        }
                    }
                    sender.send((key, n + 1)).expect("somebody listens");
                    let _late = pool.get(key).map(|guard| assert_eq!(guard.number, n + 1, "{thread}"));
                }
            });
        }
        drop(sender);
        for (key, number) in &receiver {
            let guard = pool.clone().get_owned(key).expect("it is there");
            assert!(pool.clear(key) && !pool.clear(key) && pool.get(key).is_none());
            assert_eq!((guard.key(), guard.number), (key, number));
        }
    });
    assert!(MADE.load(SeqCst) > DROPPED.load(SeqCst));
    drop(pool);
    assert_eq!(MADE.load(SeqCst), DROPPED.load(SeqCst));
}

#[test]
fn a_cleared_value_keeps_its_memory_for_the_next_key() {
    let pool: Pool<Vec<usize>> = Pool::new();
    let made = pool.create_with(|values| values.extend(0..1000)).expect("there is room");
    let mut guard = pool.create().expect("there is room");
    guard.extend(0..1000);
    let written = guard.key();
    drop(guard);
    assert!(pool.clear(made) && pool.clear(written));
    // The same places come again before long.
    let keys: Vec<usize> = (0..1536).flat_map(|_| pool.create_with(|_| {})).collect();
    assert!(keys.iter().all(|key| pool.get(*key).is_some_and(|values| values.is_empty())));
    let is_used_again = |key: &&usize| pool.get(**key).is_some_and(|values| values.capacity() >= 1000);
    assert_eq!(keys.iter().filter(is_used_again).count(), 2);
}

#[test]
fn a_key_that_is_removed_while_its_value_is_written_finds_nothing() {
    let pool: Pool<String> = Pool::new();
    let mut guard = pool.create().expect("there is room");
    let key = guard.key();
    assert!(pool.clear(key) && !pool.clear(key));
    guard.push('a');
    let guard = guard.downgrade();
    assert!(pool.get(key).is_none());
    assert_eq!((*guard == "a", guard.key()), (true, key));
    drop(guard);
    assert!(pool.get(key).is_none() && !pool.clear(key));
}

#[test]
fn a_value_whose_making_panics_leaves_its_place() {
    struct Never;
    impl Default for Never {
        fn default() -> Never {
            panic!("it is never made")
        }
    }
    impl Clear for Never {
        fn clear(&mut self) {}
    }
    let pool: Pool<Never, Small> = Pool::<Never>::new_with_config();
    (0..SMALL_ROOM * 2).for_each(|_| assert!(catch_unwind(AssertUnwindSafe(|| pool.create().is_some())).is_err()));
    assert!(catch_unwind(AssertUnwindSafe(|| pool.create().is_some())).is_err(), "there is still room");
}

#[test]
fn a_value_whose_initialisation_panics_is_cleared() {
    let pool: Pool<String, Small> = Pool::<String>::new_with_config();
    for _ in 0..SMALL_ROOM * 2 {
        let init = |text: &mut String| {
            assert!(text.is_empty(), "a new value is clear");
            text.push('a');
            panic!("it gives up");
        };
        assert!(catch_unwind(AssertUnwindSafe(|| pool.create_with(init))).is_err());
    }
    assert!(pool.create_with(|text| assert!(text.is_empty())).is_some());
}

/// A call, a guard that reads and one that writes end the value. Its place has a new one afterwards.
#[test]
fn a_value_whose_clear_panics_is_dropped() {
    static DROPPED: AtomicUsize = AtomicUsize::new(0);
    #[derive(Default)]
    struct Stubborn(usize);
    impl Clear for Stubborn {
        fn clear(&mut self) {
            assert_eq!(self.0, 0, "it stays as it is");
        }
    }
    impl Drop for Stubborn {
        fn drop(&mut self) {
            DROPPED.fetch_add(self.0, SeqCst);
        }
    }
    let pool: Pool<Stubborn, Small> = Pool::<Stubborn>::new_with_config();
    let ends_by_panic = |end: &dyn Fn()| assert!(catch_unwind(AssertUnwindSafe(end)).is_err());
    let create = || {
        let mut guard = pool.create().expect("there is room");
        assert_eq!(guard.0, 0, "a new value is clear");
        guard.0 = 1;
        guard
    };
    let rounds = SMALL_ROOM / 2;
    for _ in 0..rounds {
        let key = create().key();
        ends_by_panic(&|| _ = pool.clear(key));
        let key = create().key();
        ends_by_panic(&|| {
            let _last = pool.get(key).filter(|_| pool.clear(key));
        });
        ends_by_panic(&|| {
            let guard = create();
            assert!(pool.clear(guard.key()), "the panic is that of the guard");
        });
    }
    assert_eq!(DROPPED.load(SeqCst), 3 * rounds);
    assert!(pool.create_with(|value| assert_eq!(value.0, 0)).is_some());
}

/// How many values a `Small` slab has room for.
const SMALL_ROOM: usize = 4 * 384;

#[test]
fn a_walk_meets_what_is_shared_and_not_removed() {
    let pool: Pool<String> = Pool::new();
    let keys: Vec<usize> = (0..200).flat_map(|n| pool.create_with(|text| text.push_str(&n.to_string()))).collect();
    let (written, held) = (pool.create(), pool.get(keys[7]));
    assert!(keys.iter().skip(7).step_by(10).all(|key| pool.clear(*key)));
    let met = || pool.iter().map(|text| text.key()).collect::<Vec<_>>();
    let there: Vec<usize> = keys.iter().copied().filter(|key| pool.get(*key).is_some()).collect();
    assert_eq!((met(), there.len()), (there, 180));
    pool.retain(|key, text| pool.get(key).is_some_and(|same| *same == *text) && text.ends_with('0'));
    assert_eq!(met(), keys.iter().copied().step_by(10).collect::<Vec<_>>());
    assert!(held.is_some_and(|text| *text == "7"));
    drop(written);
    assert_eq!(met().len(), 21);
}

#[test]
fn a_full_pool_returns_none() {
    let pool: Arc<Pool<String, Small>> = Arc::new(Pool::<String>::new_with_config());
    let keys: Vec<usize> = std::iter::from_fn(|| pool.create_with(|_| {})).collect();
    assert_eq!(keys.len(), SMALL_ROOM);
    assert!(pool.create().is_none() && pool.clone().create_owned().is_none());
    assert!(pool.clear(keys[7]));
    assert!(pool.create().is_some());
}

#[test]
fn a_forgotten_guard_keeps_its_value_until_the_pool_is_dropped() {
    let pool: Pool<String> = Pool::new();
    let key = pool.create_with(|text| text.push('a')).expect("there is room");
    std::mem::forget(pool.get(key));
    assert!(pool.clear(key) && pool.get(key).is_none());
    let written = pool.create().expect("there is room");
    let key = written.key();
    std::mem::forget(written);
    assert!(pool.get(key).is_none() && pool.clear(key) && !pool.clear(key));
}

#[test]
fn values_of_the_standard_library_are_cleared() {
    fn cleared<T: Clear>(mut value: T) -> T {
        value.clear();
        value
    }
    assert_eq!(cleared(Some(7)), None);
    assert_eq!(cleared(Box::new(String::from("a"))).as_str(), "");
    assert!(cleared(vec![7]).capacity() >= 1);
    assert!(cleared(HashMap::from([(7, 8)])).is_empty() && cleared(HashSet::from([7])).is_empty());
    assert_eq!(cleared(Mutex::new(vec![7])).into_inner().expect("no thread panics"), []);
    assert_eq!(cleared(RwLock::new(vec![7])).into_inner().expect("no thread panics"), []);
    // A poisoned lock is cleared too.
    let lock = Mutex::new(vec![7]);
    let poisons = || {
        let _guard = lock.lock();
        panic!("the lock is poisoned");
    };
    assert!(thread::scope(|scope| scope.spawn(poisons).join()).is_err());
    assert!(cleared(lock).into_inner().is_err_and(|poisoned| poisoned.into_inner().is_empty()));
}
