//! Passes that come home, guards, and heaps that go before their passes.
use gearlongan::{Caller, Error, Growing, Heap, Key, Layout, Pass, Receipt, Shape, Shard, Value};
use std::collections::{HashMap, HashSet};
use std::mem;
use std::panic::{catch_unwind, resume_unwind, AssertUnwindSafe};
use std::thread;

const ONE: Shape = Shape { shards: 1, segments: 1, passes: 1 };
const TWO: Shape = Shape { passes: 2, ..ONE };

fn open(shape: Shape) -> Heap {
    Heap::open(Layout::Wide, shape).expect("it opens")
}

fn owner(heap: &Heap) -> Shard {
    heap.take().expect("a pass is at home").adopt(0).expect("it has no owner")
}

#[test]
fn what_may_be_sent_and_shared() {
    fn sent<T: Send>() {}
    fn shared<T: Send + Sync>() {}
    sent::<Pass>();
    sent::<Shard>();
    sent::<Caller>();
    sent::<Receipt>();
    shared::<Heap>();
    shared::<Growing>();
    shared::<Key>();
    shared::<Value>();
    shared::<Error>();
}

#[test]
fn a_pass_comes_home_when_it_is_dropped() {
    let heap = open(ONE);
    for _ in 0..1000 {
        let pass = heap.take().expect("it is at home");
        assert_eq!(heap.take().err(), Some(Error::NoPass));
        drop(pass);
    }
    assert_eq!(heap.passes(), 1);
}

#[test]
fn a_shard_that_is_dropped_is_left_and_its_pass_comes_home() {
    let heap = open(ONE);
    let mut keys = Vec::new();
    for n in 0..100 {
        keys.push(owner(&heap).insert(&[n]).expect("there is room"));
    }
    let shard = owner(&heap);
    for (n, key) in (0..).zip(keys) {
        assert_eq!(shard.load(key).expect("it stayed"), [n]);
    }
}

#[test]
fn a_pass_that_was_refused_a_shard_is_as_it_was() {
    let heap = open(TWO);
    let shard = owner(&heap);
    let key = shard.insert(&[7]).expect("there is room");
    let pass = heap.take().expect("it is at home").adopt(0).expect_err("it has an owner").pass;
    assert_eq!(pass.load(key).expect("it is there"), [7]);
    let refused: Result<Shard, Error> = pass.adopt(0).map_err(Error::from);
    assert_eq!(refused.err(), Some(Error::Taken));
    assert!(heap.take().is_ok(), "it went home with the error");
}

#[test]
fn a_panic_brings_the_pass_home() {
    let heap = open(ONE);
    let shard = owner(&heap);
    let panicked = thread::spawn(move || {
        let key = shard.insert(&[1]).expect("there is room");
        let _guard = shard.get(key).expect("it is there");
        std::panic::resume_unwind(Box::new(()));
    });
    assert!(panicked.join().is_err());
    drop(owner(&heap));
}

#[test]
fn a_closure_has_a_pass_that_comes_home() {
    let heap = open(ONE);
    let key = owner(&heap).insert(&[1]).expect("there is room");
    assert_eq!(heap.with_pass(|pass| pass.load(key)), Ok(Value::new(&[1])));
    let inner = heap.with_pass(|_pass| heap.with_pass(|_pass| ()));
    assert_eq!(inner, Ok(Err(Error::NoPass)));
    let early = || -> Result<(), Error> { heap.with_pass(|pass| pass.remove(Key::from(u64::MAX)))? };
    assert_eq!(early(), Err(Error::BadKey));
    let panics = AssertUnwindSafe(|| heap.with_pass(|_pass| resume_unwind(Box::new(()))));
    assert!(catch_unwind(panics).is_err());
    assert!(heap.with_pass(|_pass| ()).is_ok());
    drop(owner(&heap));
}

#[test]
fn the_heap_goes_before_its_passes() {
    let heap = open(TWO);
    let (shard, pass) = (owner(&heap), heap.take().expect("it is at home"));
    drop(heap);
    let key = shard.insert(&[7, 8]).expect("there is room");
    let guard = pass.get(key).expect("it is there");
    drop(shard);
    assert_eq!(*guard, [7, 8]);
    drop(guard);
    let shard = pass.adopt(0).expect("it was left");
    assert_eq!(shard.load(key).expect("it stayed"), [7, 8]);
}

#[test]
fn handles_serve_wherever_they_are_moved() {
    let heap = Box::new(open(TWO));
    let mut passes = HashMap::new();
    passes.insert("owner", Some(heap.take().expect("it is at home")));
    passes.insert("other", Some(heap.take().expect("it is at home")));
    let heap = *heap;
    let shard = passes.get_mut("owner").and_then(Option::take).expect("it is there").adopt(0);
    let (mut one, mut other) = (shard.expect("it has no owner"), Heap::open(Layout::Tiny, ONE).map(|h| owner(&h)));
    let key = one.insert(&[7]).expect("there is room");
    mem::swap(&mut one, other.as_mut().expect("it opens"));
    assert_eq!(other.expect("it is there").load(key).expect("it is there"), [7]);
    drop(heap);
}

#[test]
fn a_guard_keeps_its_value_though_it_is_removed() {
    let heap = open(TWO);
    let (shard, pass) = (owner(&heap), heap.take().expect("it is at home"));
    let key = shard.insert(&[7, 8, 9]).expect("there is room");
    let (read, unread) = (pass.get(key).expect("it is there"), shard.get(key).expect("it is there"));
    assert_eq!(read[2], 9);
    pass.remove(key).expect("it is there");
    for n in 0..1000 {
        let next = shard.insert(&[n, n, n]).expect("there is room");
        shard.remove(next).expect("it is there");
    }
    assert_eq!(*read, [7, 8, 9]);
    assert_eq!(*unread, [7, 8, 9]);
    assert_eq!(format!("{:?}", unread.value()), "[7, 8, 9]");
    assert!(format!("{unread:?}").starts_with("Guard { key: Key(0x"));
}

#[test]
fn a_pass_whose_guards_were_forgotten_is_closed_as_it_is_dropped() {
    let heap = open(Shape { passes: 3, ..ONE });
    let shard = owner(&heap);
    let key = shard.insert(&[7]).expect("there is room");
    let forget = |pass: &Pass| {
        (0..16).for_each(|_| mem::forget(pass.get(key).expect("it is there")));
        assert_eq!(pass.get(key).err(), Some(Error::HoldsFull));
    };
    forget(&shard);
    drop(shard);
    let pass = heap.take().expect("another one is at home");
    forget(&pass);
    drop(pass);
    // The shard was left, and the next user has a pass with all its holds: the last one.
    let shard = owner(&heap);
    let guards: Vec<_> = (0..16).map(|_| shard.get(key).expect("it is there")).collect();
    assert_eq!((guards.len(), heap.take().err()), (16, Some(Error::NoPass)));
    drop(guards);
    drop(shard);
    assert!(heap.take().is_ok(), "a pass whose guards were dropped comes home");
}

#[test]
fn a_prepared_page_takes_values_of_its_length() {
    let heap = open(ONE);
    let shard = owner(&heap);
    assert_eq!(shard.prepare(2), Ok(0));
    assert_eq!(shard.prepare(16), Ok(1));
    let keys: HashSet<Key> = (0..24).map(|n| shard.insert(&[n, n]).expect("there is room")).collect();
    assert_eq!(keys.len(), 24);
    assert_eq!(shard.prepare(1), Ok(2));
}
