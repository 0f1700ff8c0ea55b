//! Heaps that grow: values over several chunks, receipts, callers that come home, and threads.
//!
//! The first chunk has a shard of one segment, and so have chunks 1 and 2: each has 384 slots for values of one word.
use gearlongan::{Caller, Error, Growing, Heap, Key, Layout, Room, Shape};
use std::sync::mpsc;
use std::thread;

const CHUNK: u64 = 384;

fn opened(passes: u32, chunks: u32) -> Growing {
    Heap::growing(Room { owners: 1, values: CHUNK, words: 1, passes }, chunks).expect("it opens")
}

fn taken(heap: &Growing) -> Caller {
    heap.take().expect("a pass is at home")
}

fn stored(caller: &Caller, from: u64, count: u64) -> Vec<Key> {
    (from..from + count).map(|n| caller.insert(&[n]).expect("there is room")).collect()
}

#[test]
fn numbers_outside_the_limits_are_refused() {
    let room = Room { owners: 1, values: 1, words: 1, passes: 1 };
    let refused = |room, chunks| Heap::growing(room, chunks).err();
    assert_eq!(refused(Room { owners: 0, ..room }, 1), Some(Error::BadShape));
    assert_eq!(refused(Room { owners: 65, ..room }, 1), Some(Error::BadShape));
    assert_eq!(refused(Room { values: u64::MAX, ..room }, 1), Some(Error::BadShape));
    assert_eq!(refused(Room { words: 17, ..room }, 1), Some(Error::BadShape));
    assert_eq!(refused(Room { passes: 0, ..room }, 1), Some(Error::BadShape));
    assert_eq!(refused(Room { passes: 65, ..room }, 1), Some(Error::BadShape));
    assert_eq!(refused(room, 0), Some(Error::BadShape));
    assert_eq!(refused(room, 257), Some(Error::BadShape));
}

#[test]
fn inserts_open_chunks() {
    let heap = opened(2, 3);
    let (caller, other) = (taken(&heap), taken(&heap));
    for chunk in 0..3 {
        let keys = stored(&caller, chunk * CHUNK, CHUNK);
        assert_eq!(heap.chunks(), chunk + 1);
        for (n, key) in keys.iter().enumerate() {
            assert_eq!(u64::from(*key) >> 56, chunk);
            assert_eq!(other.load(*key).expect("it is there"), [chunk * CHUNK + n as u64]);
        }
    }
    assert_eq!(caller.insert(&[7]), Err(Error::Full));
    assert_eq!(caller.insert(&[7; 17]), Err(Error::TooLong));
}

#[test]
fn a_guard_keeps_a_value_of_each_chunk() {
    let heap = opened(2, 3);
    let (caller, other) = (taken(&heap), taken(&heap));
    for (n, key) in stored(&caller, 0, 3 * CHUNK).into_iter().enumerate().step_by(CHUNK as usize) {
        let guard = other.get(key).expect("it is there");
        caller.remove(key).expect("it is there");
        assert_eq!(*guard, [n as u64]);
        assert_eq!(caller.load(key), Err(Error::Gone));
        assert_eq!(other.take(key), Err(Error::Gone));
    }
    // The guards are gone, and their slots are used again.
    stored(&caller, 5000, 3);
    assert_eq!(heap.chunks(), 3);
}

#[test]
fn a_receipt_goes_with_keys_of_all_chunks() {
    let heap = opened(2, 3);
    let (caller, other) = (taken(&heap), taken(&heap));
    let (sender, receiver) = mpsc::sync_channel(4);
    let thread = thread::spawn(move || {
        for (n, (key, receipt)) in receiver.into_iter().enumerate() {
            other.heed(receipt).expect("it is of this heap");
            assert_eq!(other.load(key).expect("it was inserted"), [n as u64]);
        }
        other.receipt().expect("there is memory")
    });
    for n in 0..3 * CHUNK {
        let key = caller.insert(&[n]).expect("there is room");
        sender.send((key, caller.receipt().expect("there is memory"))).expect("the thread waits for it");
    }
    drop(sender);
    caller.heed(thread.join().expect("it ends well")).expect("it is of this heap");
    assert_eq!(heap.chunks(), 3);
}

#[test]
fn a_receipt_of_another_heap_is_refused() {
    let (heap, second) = (opened(1, 3), opened(1, 3));
    let (caller, other) = (taken(&heap), taken(&second));
    let fixed = Heap::open(Layout::Wide, Shape { shards: 1, segments: 1, passes: 1 }).expect("it opens");
    let pass = fixed.take().expect("a pass is at home");
    assert_eq!(caller.heed(pass.receipt().expect("there is memory")), Err(Error::OtherHeap));
    assert_eq!(caller.heed(other.receipt().expect("there is memory")), Err(Error::OtherHeap));
    assert_eq!(pass.heed(caller.receipt().expect("there is memory")), Err(Error::OtherHeap));
}

#[test]
fn a_receipt_outlives_its_caller_and_its_heap() {
    let heap = opened(2, 3);
    let (caller, other) = (taken(&heap), taken(&heap));
    let keys = stored(&caller, 0, CHUNK + 1);
    let receipt = caller.receipt().expect("there is memory");
    drop(caller);
    drop(heap);
    other.heed(receipt).expect("it is of this heap");
    assert_eq!(other.load(keys[CHUNK as usize]).expect("it was inserted"), [CHUNK]);
    let last = other.receipt().expect("there is memory");
    drop(other);
    drop(last);
}

#[test]
fn a_caller_leaves_its_shards_as_it_goes_home() {
    let heap = opened(1, 2);
    let keys = stored(&taken(&heap), 0, CHUNK + 1);
    let caller = taken(&heap);
    for key in &keys {
        caller.remove(*key).expect("it is there");
    }
    stored(&caller, 0, 2 * CHUNK);
    assert_eq!(heap.chunks(), 2);
}

#[test]
fn callers_keep_the_heap() {
    let heap = opened(2, 3);
    let (caller, other) = (taken(&heap), taken(&heap));
    drop(heap);
    let keys = stored(&caller, 0, CHUNK + 1);
    drop(caller);
    assert_eq!(other.load(keys[0]).expect("it is there"), [0]);
    assert_eq!(other.load(keys[CHUNK as usize]).expect("it is there"), [CHUNK]);
}

#[test]
fn threads_open_the_same_chunks() {
    const EACH: u64 = 2000;
    let heap = &opened(4, 256);
    let keys: Vec<Vec<Key>> = thread::scope(|scope| {
        let fills = |n| scope.spawn(move || stored(&taken(heap), n * EACH, EACH));
        let threads: Vec<_> = (0..4).map(fills).collect();
        threads.into_iter().map(|it| it.join().expect("it ends well")).collect()
    });
    thread::scope(|scope| {
        for n in 0..4 {
            let keys = &keys[(n + 1) % 4];
            scope.spawn(move || {
                let caller = taken(heap);
                for (i, key) in keys.iter().enumerate() {
                    let value = caller.take(*key).expect("it was inserted");
                    assert_eq!(value, [((n as u64 + 1) % 4) * EACH + i as u64]);
                    assert_eq!(caller.load(*key), Err(Error::Gone));
                }
            });
        }
    });
}

#[test]
fn a_key_whose_chunk_is_not_open_is_no_key() {
    let heap = opened(1, 3);
    let caller = taken(&heap);
    let key = stored(&caller, 0, 1)[0];
    let unopened = Key::from(u64::from(key) | 1 << 56);
    assert_eq!(caller.read(unopened), Err(Error::BadKey));
    assert_eq!(caller.read(key), Err(Error::NotHeld));
}

// One chunk with room for 1,000 values in the shard of each owner: how many of 64 callers store a value each.
fn stored_by_64(owners: u32, values: u64, leaves: bool) -> usize {
    let heap = Heap::growing(Room { owners, values, words: 1, passes: 64 }, 1).expect("it opens");
    let callers: Vec<Caller> = (0..64).map(|_| taken(&heap)).collect();
    let stores = |caller: &Caller| {
        let stored = caller.insert(&[7]).is_ok();
        if leaves {
            caller.leave_idle().expect("no other is in a free");
        }
        stored
    };
    callers.iter().filter(|caller| stores(caller)).count()
}

#[test]
fn each_thread_that_inserts_keeps_a_shard_unless_it_leaves_it() {
    assert_eq!(stored_by_64(64, 16, false), 64);
    assert_eq!(stored_by_64(1, 1000, true), 64);
    assert_eq!(stored_by_64(1, 1000, false), 1);
}

// Each chunk is one shard of 8 pages of 195 words, and two words of the shard.
#[test]
fn the_size_is_that_of_the_open_chunks() {
    let heap = opened(1, 3);
    let caller = taken(&heap);
    for chunks in 1..4 {
        stored(&caller, 0, CHUNK);
        assert_eq!((heap.chunks(), heap.capacity(1)), (chunks, chunks * CHUNK));
        assert_eq!((heap.capacity(16), heap.capacity(17)), (chunks * 24, 0));
        assert_eq!(heap.bytes(), chunks * (8 * 195 + 2) * 8);
    }
}

#[test]
fn a_caller_is_lent_and_comes_home() {
    let heap = opened(1, 3);
    let key = heap.with_caller(|caller| caller.insert(&[7])).expect("it is at home").expect("there is room");
    let outer = heap.with_caller(|caller| {
        assert_eq!(heap.with_caller(|_| ()), Err(Error::NoPass));
        caller.take(key)
    });
    assert_eq!(outer.expect("it is at home").expect("it is there"), [7]);
    let panics = thread::scope(|scope| scope.spawn(|| heap.with_caller(|_| panic!("it is caught"))).join().is_err());
    assert!(panics && heap.take().is_ok());
}
