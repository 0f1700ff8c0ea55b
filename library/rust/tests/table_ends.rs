//! What a table calls as its keys end: each way to remove a key, the end of the table, hooks that call it or panic, and
//! threads.
use gearlongan::table::Key;
use gearlongan::{Record, Table};
use std::cell::RefCell;
use std::panic::{catch_unwind, AssertUnwindSafe, RefUnwindSafe, UnwindSafe};
use std::sync::atomic::{AtomicBool, AtomicU32, AtomicU64, Ordering::SeqCst};
use std::sync::{Arc, Barrier, OnceLock};
use std::thread;

const COUNT: usize = if cfg!(debug_assertions) { 2_000 } else { 50_000 };

/// How often each number ended.
type Counts = Arc<Vec<AtomicU32>>;

fn counts(count: usize) -> Counts {
    Arc::new((0..count).map(|_| AtomicU32::new(0)).collect())
}

fn all_are(counts: &Counts, wanted: u32) {
    let other = counts.iter().position(|count| count.load(SeqCst) != wanted);
    assert_eq!(other, None, "the end of this number was not told {wanted} times");
}

/// A table of numbers whose ends are counted, and its keys.
fn filled(count: usize) -> (Table<u64>, Vec<Key<u64>>, Counts) {
    let told = counts(count);
    let mut table = Table::builder().threads(1).open().expect("it opens");
    let ends = told.clone();
    table.on_end(move |_, n: u64| _ = ends[n as usize].fetch_add(1, SeqCst));
    let keys = (0..count as u64).map(|n| table.insert(&n).expect("there is room")).collect();
    (table, keys, told)
}

#[test]
fn each_way_to_remove_a_key_tells_its_end_once() {
    let (mut table, keys, told) = filled(1000);
    assert!(table.remove(keys[0]) && !table.remove(keys[0]) && table.take(keys[0]).is_none());
    assert_eq!((table.take(keys[1]), table.take(keys[1]), table.remove(keys[1])), (Some(1), None, false));
    table.retain(|_, n| n != 2);
    assert_eq!(table.remove_if(|_, n| n == 3), 1);
    assert!((0..6).map(|n| told[n].load(SeqCst)).eq([1, 1, 1, 1, 0, 0]));
    assert!((0..4).all(|n| table.get(keys[n]).is_none()) && table.get(keys[4]) == Some(4) && table.contains(keys[4]));
    assert_eq!((table.iter().count(), table.keys().count(), table.len()), (996, 996, 996));
    let mut drain = table.drain();
    assert!(drain.next().is_some() && drain.next().is_some());
    assert_eq!(told.iter().map(|count| count.load(SeqCst)).sum::<u32>(), 6);
    drop(drain);
    all_are(&told, 1);
    let key = table.insert(&7).expect("there is room");
    table.clear();
    assert!(!table.contains(key) && told[7].load(SeqCst) == 2);
    drop(table);
    assert_eq!((told[7].load(SeqCst), Arc::strong_count(&told)), (2, 1));
}

/// Of several chunks, by places of their own.
#[test]
fn the_end_of_a_table_tells_what_is_left() {
    let (table, keys, told) = filled(3000);
    keys[..1000].iter().for_each(|key| assert!(table.remove(*key)));
    thread::scope(|scope| scope.spawn(|| assert!(keys[1000..2000].iter().all(|key| table.remove(*key)))).join())
        .expect("it ends well");
    table.rest();
    assert!(told[2000..].iter().all(|count| count.load(SeqCst) == 0));
    drop(table);
    all_are(&told, 1);
}

#[test]
fn a_hook_replaces_the_one_before_and_gets_keys_and_records() {
    gearlongan::record! {
        #[derive(Clone, Copy, Debug, PartialEq)]
        struct Session { user: u32, until: f64, next: Option<Key<Session>> }
    }
    let (mut table, seen) = (Table::new(), Arc::new(OnceLock::new()));
    table.on_end(|_, _: Session| panic!("another replaces it"));
    let told = seen.clone();
    table.on_end(move |key, session| told.set((key, session)).expect("it is told once"));
    let session = Session { user: 7, until: 8.5, next: None };
    let key = table.insert(&session).expect("there is room");
    assert_eq!(table.get(key), Some(session));
    assert!(table.remove(key));
    assert_eq!(seen.get(), Some(&(key, session)));
}

/// Each record is the key of another one, whose end it is that removes it.
#[test]
fn a_hook_may_call_its_table() {
    static LIST: OnceLock<Table<u64>> = OnceLock::new();
    static ENDS: AtomicU32 = AtomicU32::new(0);
    let mut table = Table::new();
    table.on_end(|key, next| {
        let list = LIST.get().expect("it is set");
        assert!(!list.contains(key) && list.enter().is_ok());
        list.rest();
        ENDS.fetch_add(1, SeqCst);
        assert!(Key::from_bits(next).is_none_or(|next| list.remove(next)));
    });
    let list = LIST.get_or_init(|| table);
    let last = (0..100).fold(0, |next, _| list.insert(&next).expect("there is room").to_bits());
    assert!(Key::from_bits(last).is_some_and(|key| list.remove(key)));
    assert_eq!((ENDS.load(SeqCst), list.len()), (100, 0));
}

#[test]
fn a_hook_that_panics_leaves_its_table_whole() {
    let told = counts(100);
    let ends = told.clone();
    let mut table = Table::new();
    table.on_end(move |_, n: u64| {
        ends[n as usize].fetch_add(1, SeqCst);
        assert!(n % 10 != 9 && n != 92, "it is to");
    });
    let keys: Vec<Key<u64>> = (0..100).map(|n| table.insert(&n).expect("there is room")).collect();
    assert!(catch_unwind(AssertUnwindSafe(|| table.remove(keys[9]))).is_err());
    assert!(catch_unwind(AssertUnwindSafe(|| table.take(keys[19]))).is_err());
    assert!(!table.contains(keys[9]) && !table.contains(keys[19]) && table.len() == 98);
    assert!(catch_unwind(AssertUnwindSafe(|| table.retain(|_, n| n >= 35))).is_err());
    assert_eq!((table.len(), table.get(keys[30]), table.get(keys[28])), (70, Some(30), None), "it stops at 29");
    assert!(catch_unwind(AssertUnwindSafe(|| table.clear())).is_err());
    assert_eq!((table.len(), table.enter()), (60, Ok(())));
    assert!(told[..40].iter().all(|count| count.load(SeqCst) == 1));
    for n in (40..90).chain([99]) {
        let removed = catch_unwind(AssertUnwindSafe(|| table.remove(keys[n])));
        assert_eq!(removed.ok(), (n % 10 != 9).then_some(true));
    }
    // It is told of each of 90 to 98, though it panics at 92.
    let table = AssertUnwindSafe(table);
    assert!(catch_unwind(move || drop(table)).is_err());
    all_are(&told, 1);
    assert_eq!(Arc::strong_count(&told), 1, "the hook is dropped");
}

/// A drain that unwinds removes what is left, and calls the hook.
#[test]
fn a_drain_whose_hook_panics_removes_the_rest() {
    let (told, panics) = (counts(100), Arc::new(AtomicBool::new(true)));
    let (ends, once) = (told.clone(), panics.clone());
    let mut table = Table::new();
    table.on_end(move |_, n: u64| {
        ends[n as usize].fetch_add(1, SeqCst);
        assert!(n != 50 || !once.swap(false, SeqCst), "it is to");
    });
    (0..100u64).for_each(|n| _ = table.insert(&n));
    assert!(catch_unwind(AssertUnwindSafe(|| table.drain().count())).is_err());
    assert!(table.is_empty());
    all_are(&told, 1);
}

/// The hook is not called with a record that its type does not read.
#[test]
fn a_record_that_is_not_read_is_not_told() {
    struct Never;
    impl Record for Never {
        const WORDS: usize = 1;
        fn write(&self, words: &mut [u64]) {
            words[0] = 7;
        }
        fn read(_: &[u64]) -> Option<Never> {
            None
        }
    }
    let mut table = Table::new();
    table.on_end(|_, _: Never| unreachable!("it is not read"));
    let key = table.insert(&Never).expect("there is room");
    assert!(table.remove(key));
    table.insert(&Never).expect("there is room");
}

#[test]
fn a_table_with_a_hook_goes_from_thread_to_thread() {
    fn shared<T: Send + Sync + UnwindSafe + RefUnwindSafe + Unpin>(_: &T) {}
    let (table, keys, told) = filled(100);
    shared(&table);
    let moved = thread::spawn(move || {
        assert!(keys[..50].iter().all(|key| table.remove(*key)));
        drop(table);
    });
    moved.join().expect("it ends well");
    all_are(&told, 1);
}

thread_local! {
    static LAST: RefCell<Option<AtEnd>> = const { RefCell::new(None) };
}

/// Removes a key as its thread ends.
struct AtEnd(Arc<Table<u64>>, Key<u64>);

impl Drop for AtEnd {
    fn drop(&mut self) {
        assert!(self.0.remove(self.1));
    }
}

#[test]
fn the_end_of_a_thread_may_end_keys() {
    let (table, keys, told) = filled(100);
    let table = Arc::new(table);
    for key in keys {
        let table = table.clone();
        let ends = move || LAST.with(|last| *last.borrow_mut() = Some(AtEnd(table, key)));
        thread::spawn(ends).join().expect("it ends well");
    }
    assert!(table.is_empty());
    all_are(&told, 1);
}

// Of a generation that no place comes to in these tests.
fn later(key: u64) -> Key<u64> {
    Key::from_bits(key + (1 << 50)).expect("it is not 0")
}

/// Calls on numbers that are no keys yet find nothing, and may be the last to leave the key that is at their place.
#[test]
fn calls_that_find_nothing_are_told_of_ends() {
    type Call = fn(&Table<u64>, Key<u64>) -> bool;
    let calls: [Call; 4] = [
        |table, key| table.get(key).is_some(),
        |table, key| table.contains(key),
        |table, key| table.remove(key),
        |table, key| table.take(key).is_some(),
    ];
    for call in calls {
        let (mut table, now, told) = (Table::new(), AtomicU64::new(0), counts(COUNT));
        let ends = told.clone();
        table.on_end(move |_, n: u64| _ = ends[n as usize].fetch_add(1, SeqCst));
        thread::scope(|scope| {
            for _ in 0..2 {
                scope.spawn(|| loop {
                    match now.load(SeqCst) {
                        u64::MAX => break,
                        key => assert!(!call(&table, later(key))),
                    }
                });
            }
            for n in 0..COUNT as u64 {
                let key = table.insert(&n).expect("there is room");
                now.store(key.to_bits(), SeqCst);
                assert!(table.remove(key));
            }
            now.store(u64::MAX, SeqCst);
        });
        all_are(&told, 1);
    }
}

/// More threads than places remove, take and get what others insert.
#[test]
fn threads_are_told_of_each_end_once() {
    const THREADS: usize = 80;
    let told = counts(COUNT);
    let ends = told.clone();
    let mut table = Table::new();
    table.on_end(move |_, n: u64| _ = ends[n as usize].fetch_add(1, SeqCst));
    let (all, start): (Vec<AtomicU64>, _) = ((0..COUNT).map(|_| AtomicU64::new(0)).collect(), Barrier::new(THREADS));
    thread::scope(|scope| {
        for thread in 0..THREADS {
            let (table, all, start) = (&table, &all, &start);
            let work = move || {
                start.wait();
                for n in 0..COUNT {
                    if n % THREADS == thread {
                        let key = table.insert(&(n as u64)).expect("there is room");
                        all[n].store(key.to_bits(), SeqCst);
                    }
                    let at = n.saturating_sub(n * thread % 40);
                    let Some(key) = Key::from_bits(all[at].load(SeqCst)) else { continue };
                    match (n + thread) % 8 {
                        0 => _ = table.remove(key),
                        1 => assert!(table.take(key).is_none_or(|it| it == at as u64)),
                        _ => assert!(table.get(key).is_none_or(|it| it == at as u64)),
                    }
                }
            };
            let spawned = thread::Builder::new().stack_size(128 << 10).spawn_scoped(scope, work);
            drop(spawned.expect("the system has so many threads"));
        }
    });
    assert!(table.len() < COUNT);
    drop(table);
    all_are(&told, 1);
}
