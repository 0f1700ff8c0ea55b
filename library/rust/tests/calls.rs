//! Values that one thread alone takes, receipts, how full a shard is, and the keys of a heap.
#[path = "common/layouts.rs"]
mod layouts;

use gearlongan::{Error, Heap, Key, Layout, Room, Value};
use layouts::{two, LAYOUTS, SMALL};
use std::sync::mpsc;
use std::thread;

#[test]
fn a_value_is_taken_once() {
    for layout in LAYOUTS {
        let (shard, pass) = two(layout);
        for words in 0..=16 {
            let stored = &[5; 16][..words];
            let key = shard.insert(stored).expect("there is room");
            assert_eq!(pass.take(key).expect("it is there")[..], *stored);
            assert_eq!(pass.take(key), Err(Error::Gone));
            assert_eq!(shard.load(key), Err(Error::Gone));
            let key = shard.insert(stored).expect("there is room");
            assert_eq!(shard.take(key).expect("it is there")[..], *stored);
            assert_eq!(pass.remove(key), Err(Error::Gone));
        }
    }
}

#[test]
fn a_take_that_is_refused_changes_nothing() {
    for layout in LAYOUTS {
        let (shard, pass) = two(layout);
        let key = shard.insert(&[7, 8]).expect("there is room");
        let mut value = Value::new(&[1]).expect("it is short");
        assert_eq!(pass.take_into(Key::from(u64::MAX), &mut value), Err(Error::BadKey));
        let guards: Vec<_> = std::iter::from_fn(|| pass.get(key).ok()).collect();
        let beyond = if layout == Layout::Tiny { Error::Crowded } else { Error::HoldsFull };
        assert_eq!(pass.take_into(key, &mut value), Err(beyond));
        assert_eq!(value, [1]);
        drop(guards);
        let guard = pass.get(key).expect("it is there");
        pass.take_into(key, &mut value).expect("it is there");
        assert_eq!(value, [7, 8]);
        assert_eq!(*guard, [7, 8], "a hold keeps the value");
        assert_eq!(shard.take_into(key, &mut value), Err(Error::Gone));
    }
}

#[test]
fn one_thread_alone_gets_each_value() {
    const VALUES: u64 = 2000;
    const THREADS: usize = 4;
    let room = Room { owners: 1, values: VALUES, words: 1, passes: 1 + THREADS as u32 };
    let heap = Heap::open_for(Layout::Wide, room).expect("it opens");
    let shard = heap.take().expect("a pass is at home").adopt(0).expect("it has no owner");
    let keys: Vec<Key> = (0..VALUES).map(|n| shard.insert(&[n]).expect("there is room")).collect();
    let mut taken: Vec<u64> = thread::scope(|scope| {
        let takes = || heap.with_pass(|pass| keys.iter().filter_map(|key| pass.take(*key).ok()).collect::<Vec<_>>());
        let threads: Vec<_> = (0..THREADS).map(|_| scope.spawn(takes)).collect();
        let values = threads.into_iter().map(|it| it.join().expect("it ends well").expect("a pass is at home"));
        values.flatten().map(|value| value[0]).collect()
    });
    taken.sort_unstable();
    assert!(taken.into_iter().eq(0..VALUES));
}

#[test]
fn receipts_go_with_keys() {
    for layout in LAYOUTS {
        let (shard, pass) = two(layout);
        let (sender, receiver) = mpsc::sync_channel(4);
        let thread = thread::spawn(move || {
            for (n, (key, receipt)) in receiver.into_iter().enumerate() {
                pass.heed(receipt).expect("it is of this heap");
                assert_eq!(pass.take(key).expect("it was inserted"), [n as u64]);
            }
        });
        for n in 0..50 {
            let key = shard.insert(&[n]).expect("there is room");
            sender.send((key, shard.receipt().expect("there is memory"))).expect("the thread waits for it");
        }
        drop(sender);
        thread.join().expect("it ends well");
    }
}

#[test]
fn a_receipt_outlives_its_pass_and_its_heap() {
    let (shard, pass) = two(Layout::Wide);
    let receipt = shard.receipt().expect("there is memory");
    let last = pass.receipt().expect("there is memory");
    drop(shard);
    pass.heed(receipt).expect("it is of this heap");
    drop(pass);
    let (_shard, other) = two(Layout::Wide);
    assert_eq!(other.heed(last), Err(Error::OtherHeap));
}

#[test]
fn a_shard_knows_how_full_it_is() {
    for layout in LAYOUTS {
        let (shard, pass) = two(layout);
        assert_eq!((shard.pages_left(), shard.slots_out()), (Ok(8), Ok(0)));
        let keys = [(); 3].map(|()| shard.insert(&[1]).expect("there is room"));
        assert_eq!((shard.pages_left(), shard.slots_out()), (Ok(7), Ok(3)));
        pass.remove(keys[0]).expect("it is there");
        shard.remove(keys[1]).expect("it is there");
        assert_eq!(shard.slots_out(), Ok(2));
        shard.collect().expect("it is the owner");
        assert_eq!(shard.slots_out(), Ok(1));
    }
}

#[test]
fn the_keys_of_a_shard_come_once_each() {
    for layout in LAYOUTS {
        let heap = Heap::open(layout, SMALL).expect("it opens");
        let shard = heap.take().expect("a pass is at home").adopt(1).expect("it has no owner");
        let other = heap.take().expect("another is at home").adopt(0).expect("it has no owner");
        assert_eq!(shard.keys().next(), None);
        other.insert(&[1]).expect("there is room");
        let mut kept = Vec::new();
        for at in 0..60 {
            let key = shard.insert(&[at; 16][..1 + at as usize % 2 * 15]).expect("there is room");
            match at % 3 {
                0 => other.remove(key).expect("it is there"),
                1 => shard.remove(key).expect("it is there"),
                _ => kept.push(key),
            }
        }
        let mut found = shard.keys().collect::<Result<Vec<Key>, Error>>().expect("it is the owner");
        found.sort_unstable();
        kept.sort_unstable();
        assert_eq!(found, kept);
        // What is removed during the walk is not found any more.
        let mut keys = shard.keys();
        let first = keys.next().expect("there are some").expect("it is the owner");
        for key in kept.iter().filter(|key| **key != first) {
            other.remove(*key).expect("it is there");
        }
        assert_eq!((keys.next(), keys.next()), (None, None));
        shard.remove(first).expect("no hold was left on it");
        assert_eq!(shard.keys().next(), None);
    }
}

#[test]
fn a_walk_over_a_shard_needs_no_hold() {
    let (shard, pass) = two(Layout::Tiny);
    let crowded = shard.insert(&[1]).expect("there is room");
    let limit = [(); 4].map(|()| pass.get(crowded).expect("it is there"));
    assert_eq!(shard.get(crowded).map(|_| ()), Err(Error::Crowded));
    assert_eq!(shard.keys().collect::<Vec<_>>(), [Ok(crowded)]);
    drop(limit);
    let keys = [(); 4].map(|()| shard.insert(&[1]).expect("there is room"));
    let guards = [0, 1, 2, 3].map(|at| [(); 4].map(|()| shard.get(keys[at]).expect("it is there")));
    assert_eq!(shard.get(crowded).map(|_| ()), Err(Error::HoldsFull));
    assert_eq!(shard.keys().filter_map(Result::ok).count(), 5);
    drop(guards);
}

#[test]
fn the_keys_of_a_heap_come_once_each() {
    for layout in LAYOUTS {
        let heap = Heap::open(layout, SMALL).expect("it opens");
        assert_eq!(heap.keys().next(), Some(Err(Error::Away)));
        let mut kept = Vec::new();
        for number in 0..2 {
            let shard = heap.take().expect("a pass is at home").adopt(number).expect("it has no owner");
            for n in 0..100 {
                let key = shard.insert(&[n; 3][..n as usize % 4]).expect("there is room");
                if n % 3 == 0 {
                    shard.remove(key).expect("it is there");
                } else {
                    kept.push(key);
                }
            }
            let mut refused = heap.keys();
            assert_eq!((refused.next(), refused.next()), (Some(Err(Error::Away)), None));
        }
        heap.gather().expect("all passes are at home");
        let mut keys = heap.keys().collect::<Result<Vec<Key>, Error>>().expect("the pass is at home");
        keys.sort_unstable();
        kept.sort_unstable();
        assert_eq!(keys, kept);
        heap.with_pass(|pass| kept.iter().for_each(|key| pass.remove(*key).expect("it is there")))
            .expect("it is at home");
        assert_eq!(heap.keys().next(), None);
    }
}
