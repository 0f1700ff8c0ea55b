//! The slab and the pool over heaps that issue a place while it is in use. The call that would fill it panics, and each
//! value is what was stored under its key. For `stub.py`.
//!
//! A place that two threads fill at the same moment is not found. That no place is issued twice is proved of the heaps.
#![cfg(test)]
use gearlongan::slab::{Clear, Pool, Slab};
use std::panic::{catch_unwind, AssertUnwindSafe};
use std::sync::atomic::{AtomicUsize, Ordering::SeqCst};
use std::sync::Arc;

extern "C" {
    fn stub_issue(key: u64);
}

/// The next insert of this thread issues this key.
fn issue(key: usize) {
    // SAFETY: the stub's own call, which only notes the number for this thread.
    unsafe { stub_issue(key as u64) }
}

/// The same place, for the next value.
fn next(key: usize) -> usize {
    key + (1 << 20)
}

fn panics<R>(act: impl FnOnce() -> R) -> bool {
    catch_unwind(AssertUnwindSafe(act)).is_err()
}

/// A text of its own memory, which counts how many of its kind were dropped.
struct Text(String, Arc<AtomicUsize>);

impl Drop for Text {
    fn drop(&mut self) {
        self.1.fetch_add(1, SeqCst);
    }
}

struct Texts {
    slab: Slab<Text>,
    dropped: Arc<AtomicUsize>,
}

impl Texts {
    fn new() -> Texts {
        Texts { slab: Slab::new(), dropped: Arc::default() }
    }

    fn text(&self, text: &str) -> Text {
        Text(text.to_string(), self.dropped.clone())
    }

    fn insert(&self, text: &str) -> usize {
        self.slab.insert(self.text(text)).expect("there is room")
    }

    fn is(&self, key: usize, text: &str) -> bool {
        self.slab.get(key).is_some_and(|value| value.0 == text)
    }

    fn dropped(&self) -> usize {
        self.dropped.load(SeqCst)
    }
}

#[test]
fn the_place_of_a_value_is_not_filled() {
    let texts = Texts::new();
    let key = texts.insert("one");
    for again in [key, next(key), key + (7 << 20)] {
        let before = texts.dropped();
        issue(again);
        assert!(panics(|| texts.insert("two")));
        assert!(texts.is(key, "one") && (again == key || !texts.slab.contains(again)));
        assert_eq!(texts.dropped(), before + 1, "the value that was not stored is dropped");
    }
    assert!(texts.slab.remove(key));
    assert_eq!(texts.dropped(), 4);
    let other = texts.insert("three");
    assert!(texts.is(other, "three") && !texts.slab.contains(key));
}

#[test]
fn the_place_of_a_value_that_has_a_guard_is_not_filled() {
    let texts = Texts::new();
    let key = texts.insert("one");
    let entry = texts.slab.get(key).expect("it is there");
    assert!(texts.slab.remove(key));
    issue(next(key));
    assert!(panics(|| texts.insert("two")));
    assert_eq!((entry.0.as_str(), texts.dropped()), ("one", 1));
    drop(entry);
    assert_eq!(texts.dropped(), 2);
    issue(next(key));
    assert_eq!(texts.insert("three"), next(key), "it is free now");
    assert!(texts.is(next(key), "three"));
}

#[test]
fn one_of_two_vacant_entries_of_a_place_is_filled() {
    let texts = Texts::new();
    for first_is_filled in [true, false] {
        let one = texts.slab.vacant_entry().expect("there is room");
        let key = one.key();
        issue(next(key));
        let other = texts.slab.vacant_entry().expect("there is room");
        let (filled, refused) = if first_is_filled { (one, other) } else { (other, one) };
        let (found, none) = (filled.key(), refused.key());
        filled.insert(texts.text("one"));
        assert!(panics(|| refused.insert(texts.text("two"))));
        assert!(texts.is(found, "one") && !texts.slab.contains(none));
        assert!(!texts.slab.remove(none) && texts.slab.remove(found));
    }
    assert_eq!(texts.dropped(), 4);
}

#[test]
fn a_vacant_entry_that_is_dropped_leaves_a_place_that_another_filled() {
    let texts = Texts::new();
    let one = texts.slab.vacant_entry().expect("there is room");
    issue(next(one.key()));
    let key = texts.insert("two");
    // The heap issues its place again.
    drop(one);
    assert!(panics(|| texts.insert("three")));
    assert!(texts.is(key, "two"));
}

#[test]
fn a_number_that_is_no_place_of_the_heap_stores_nothing() {
    let texts = Texts::new();
    let key = texts.insert("one");
    let slots = (48..64).map(|slot| key & !63 | slot);
    let pages = [8, 100, 255].map(|page| page << 6);
    let others = [63 << 14 | 200 << 6, 1 << 63, usize::MAX];
    for number in slots.chain(pages).chain(others) {
        let before = texts.dropped();
        issue(number);
        assert!(texts.slab.insert(texts.text("two")).is_none(), "{number:x}");
        assert_eq!(texts.dropped(), before + 1);
        assert!(texts.is(key, "one") && !texts.slab.contains(number));
    }
}

/// Its nodes would be found by the shape of a heap that is opened later.
#[test]
fn a_number_of_a_heap_that_is_not_open_stores_nothing() {
    let slab = Slab::new();
    for heap in 1..8 {
        issue(heap << 52 | 1 << 20 | 63 << 14 | 5);
        assert_eq!(slab.insert(7), None);
    }
    let keys: Vec<usize> = (0..20_000).flat_map(|n| slab.insert(n)).collect();
    assert!(keys.len() == 20_000 && keys.last().is_some_and(|key| key >> 52 > 2));
    assert!(keys.iter().enumerate().all(|(n, key)| slab.get(*key).is_some_and(|value| *value == n)));
}

/// A text that keeps its memory.
#[derive(Default)]
struct Line(String);

impl Clear for Line {
    fn clear(&mut self) {
        self.0.clear();
    }
}

#[test]
fn the_place_of_a_value_of_a_pool_is_not_written() {
    let pool: Pool<Line> = Pool::new();
    let mut guard = pool.create().expect("there is room");
    guard.0.push_str("one");
    let key = guard.key();
    let create = || pool.create_with(|line| line.0.push_str("two"));
    for again in [key, next(key)] {
        issue(again);
        assert!(panics(create), "while the value is written");
    }
    drop(guard);
    for again in [key, next(key)] {
        issue(again);
        assert!(panics(create), "while the key finds the value");
    }
    let guard = pool.get(key).expect("it is there");
    assert!(pool.clear(key));
    issue(next(key));
    assert!(panics(create), "while a guard has the value");
    assert_eq!(guard.0, "one");
    drop(guard);
    // The place is free, and its value is cleared and used again.
    issue(next(next(key)));
    let later = pool.create_with(|line| {
        line.0.push_str("three");
        issue(next(key));
        assert!(panics(create), "while the value is made");
    });
    let later = later.expect("there is room");
    assert!(pool.get(later).is_some_and(|line| line.0 == "three") && pool.get(key).is_none());
}
