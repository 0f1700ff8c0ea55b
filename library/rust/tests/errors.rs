//! Each error of each call that one thread can have, in each layout, except memory, which `memory.rs` refuses.
#[path = "common/layouts.rs"]
mod layouts;

use gearlongan::{Error, Heap, Key, Layout, Room, Shape, Value};
use layouts::{two, LAYOUTS, SMALL};

fn refused(layout: Layout, shards: u32, segments: u32, passes: u32) {
    let opened = Heap::open(layout, Shape { shards, segments, passes });
    assert_eq!(opened.err(), Some(Error::BadShape), "{layout:?} {shards} {segments} {passes}");
}

#[test]
fn shapes_outside_the_limits_are_refused() {
    for layout in LAYOUTS {
        refused(layout, 0, 1, 1);
        refused(layout, 1, 0, 1);
        refused(layout, 1, 1, 0);
        refused(layout, 1, 1, 65);
        refused(layout, u32::MAX, u32::MAX, u32::MAX);
        let most = Heap::open(layout, Shape { passes: 64, ..SMALL }).expect("it opens");
        assert_eq!(most.passes(), 64);
    }
    refused(Layout::Wide, 257, 1, 1);
    refused(Layout::Tagged, 65, 1, 1);
    refused(Layout::Deep, 65, 1, 1);
    refused(Layout::Tiny, 5, 1, 1);
    refused(Layout::Tiny, 4, 3, 1);
}

#[test]
fn rooms_that_no_heap_has_are_refused() {
    let room = Room { owners: 1, values: 384, words: 1, passes: 3 };
    for layout in LAYOUTS {
        assert_eq!(Heap::open_for(layout, room).expect("it opens").passes(), 3);
        for none in [
            Room { owners: 0, ..room },
            Room { values: u64::MAX, ..room },
            Room { words: 17, ..room },
            Room { passes: 0, ..room },
            Room { passes: 65, ..room },
        ] {
            assert_eq!(Heap::open_for(layout, none).err(), Some(Error::BadShape), "{layout:?} {none:?}");
        }
    }
}

#[test]
fn a_heap_has_room_for_what_it_was_opened_for() {
    let heap = Heap::open_for(Layout::Wide, Room { owners: 2, values: 5000, words: 3, passes: 2 }).expect("it opens");
    for number in 0..2 {
        let shard = heap.take().expect("a pass is at home").adopt(number).expect("it has no owner");
        for n in 0..5000 {
            shard.insert(&[n, n, n]).expect("there is room");
        }
    }
}

#[test]
fn no_pass_is_at_home() {
    for layout in LAYOUTS {
        let heap = Heap::open(layout, SMALL).expect("it opens");
        let passes = [heap.take(), heap.take()];
        assert!(passes.iter().all(Result::is_ok));
        assert_eq!(heap.take().err(), Some(Error::NoPass));
        drop(passes);
        assert!(heap.take().is_ok());
    }
}

#[test]
fn shards_are_adopted_once_and_by_their_numbers() {
    for layout in LAYOUTS {
        let (_shard, pass) = two(layout);
        let taken = pass.adopt(0).expect_err("it has an owner");
        assert_eq!(taken.error, Error::Taken);
        assert_eq!(taken.to_string(), "the shard was not adopted: the shard has an owner");
        let none = taken.pass.adopt(2).expect_err("there is none");
        assert_eq!(none.error, Error::NoShard);
        let none = none.pass.adopt(u32::MAX).expect_err("there is none");
        assert_eq!(none.error, Error::NoShard);
        assert!(none.pass.adopt(1).is_ok());
    }
}

#[test]
fn values_that_are_too_long_are_refused() {
    for layout in LAYOUTS {
        let (shard, _pass) = two(layout);
        assert_eq!(shard.insert(&[0; 17]), Err(Error::TooLong));
        assert_eq!(shard.insert_once(&[0; 17]), Err(Error::TooLong));
        assert_eq!(shard.insert(&[0; 1000]), Err(Error::TooLong));
        assert_eq!(shard.prepare(17), Err(Error::TooLong));
        assert_eq!(shard.prepare(usize::MAX), Err(Error::TooLong));
        for words in 0..=16 {
            let key = shard.insert(&[5; 16][..words]).expect("there is room");
            assert_eq!(shard.load(key).expect("it is there")[..], [5; 16][..words]);
            shard.remove(key).expect("it is there");
        }
    }
}

#[test]
fn a_full_shard_serves_again_once_something_is_removed() {
    for layout in LAYOUTS {
        let (shard, pass) = two(layout);
        let keys: Vec<Key> = std::iter::from_fn(|| shard.insert(&[1; 16]).ok()).collect();
        assert_eq!(keys.len(), 24, "8 pages of 3 slots");
        assert_eq!(shard.insert(&[1; 16]), Err(Error::Full));
        assert_eq!(shard.insert(&[]), Err(Error::Full));
        assert_eq!(shard.prepare(1), Err(Error::Full));
        pass.remove(keys[7]).expect("it is there");
        assert!(shard.insert(&[2; 16]).is_ok());
    }
}

#[test]
fn an_insert_collects_and_an_insert_once_does_not() {
    for layout in LAYOUTS {
        let (shard, pass) = two(layout);
        let keys: Vec<Key> = std::iter::from_fn(|| shard.insert_once(&[1]).ok()).collect();
        assert_eq!(keys.len(), 384, "8 pages of 48 slots");
        keys.into_iter().for_each(|key| pass.remove(key).expect("it is there"));
        assert_eq!(shard.insert_once(&[1; 16]), Err(Error::Full));
        assert!(shard.insert(&[1; 16]).is_ok());
        assert_eq!(shard.collect(), Ok(()));
    }
}

#[test]
fn numbers_that_are_no_keys_are_refused() {
    for layout in LAYOUTS {
        let (shard, pass) = two(layout);
        let key = shard.insert(&[7]).expect("there is room");
        for none in [Key::from(0), Key::from(u64::MAX)] {
            assert_eq!(pass.get(none).err(), Some(Error::BadKey));
            assert_eq!(pass.load(none), Err(Error::BadKey));
            assert_eq!(pass.load_record::<u64>(none), Err(Error::BadKey));
            assert_eq!(pass.remove(none), Err(Error::BadKey));
            assert_eq!(pass.read(none), Err(Error::NotHeld));
        }
        let next = Key::from(u64::from(key) + 1);
        assert_eq!(pass.get(next).err(), Some(Error::Gone));
    }
}

#[test]
fn a_key_that_was_removed_is_gone_for_good() {
    for layout in LAYOUTS {
        let (shard, pass) = two(layout);
        let key = shard.insert(&[7]).expect("there is room");
        pass.remove(key).expect("it is there");
        for _ in 0..100 {
            let next = shard.insert(&[8]).expect("there is room");
            assert_ne!(next, key);
            assert_eq!(shard.get(key).err(), Some(Error::Gone));
            assert_eq!(pass.load(key), Err(Error::Gone));
            assert_eq!(pass.remove(key), Err(Error::Gone));
            shard.remove(next).expect("it is there");
        }
    }
}

#[test]
fn holds_are_as_many_as_they_may_be() {
    for layout in LAYOUTS {
        let (most, beyond) = if layout == Layout::Tiny { (4, Error::Crowded) } else { (16, Error::HoldsFull) };
        let (shard, pass) = two(layout);
        let key = shard.insert(&[7]).expect("there is room");
        let guards: Vec<_> = (0..most).map(|_| pass.get(key).expect("it may be held")).collect();
        assert_eq!(pass.get(key).err(), Some(beyond));
        assert_eq!(pass.load(key).expect("a load takes no hold"), [7]);
        // The key of the next slot, which nothing was put in yet: a load of it goes on to a get.
        let not_issued = Key::from(u64::from(key) + 1);
        let refused = if layout == Layout::Tiny { Error::Gone } else { Error::HoldsFull };
        assert_eq!(pass.load(not_issued), Err(refused));
        drop(guards);
        assert_eq!(pass.load(not_issued), Err(Error::Gone));
        assert_eq!(pass.load(key).expect("it is there"), [7]);
    }
}

#[test]
fn a_pass_reads_what_it_has_a_guard_of() {
    for layout in LAYOUTS {
        let (shard, pass) = two(layout);
        let key = shard.insert(&[7, 8]).expect("there is room");
        assert_eq!(pass.read(key), Err(Error::NotHeld));
        let guard = pass.get(key).expect("it is there");
        assert_eq!(pass.read(key).expect("it is held"), [7, 8]);
        assert_eq!(shard.read(key), Err(Error::NotHeld), "the hold is the other pass's");
        let mut value = Value::default();
        assert_eq!(pass.read_into(key, &mut value), Ok(()));
        assert_eq!((&value[..], &guard[..]), (&[7, 8][..], &[7, 8][..]));
        drop(guard);
        assert_eq!(pass.read_into(key, &mut value), Err(Error::NotHeld));
        assert_eq!(value, [7, 8], "it stays as it was");
        assert_eq!(pass.read(key), Err(Error::NotHeld));
    }
}

#[test]
fn one_value_takes_loads_of_all_lengths() {
    for layout in LAYOUTS {
        let (shard, pass) = two(layout);
        let mut value = Value::default();
        for length in [16, 0, 3] {
            let key = shard.insert(&[7; 16][..length]).expect("there is room");
            pass.load_into(key, &mut value).expect("it is there");
            assert_eq!(value[..], [7; 16][..length]);
            pass.get(key).expect("it is there").read_into(&mut value);
            assert_eq!(value[..], [7; 16][..length]);
            shard.remove(key).expect("it is there");
            assert_eq!(pass.load_into(key, &mut value), Err(Error::Gone));
            assert_eq!(value[..], [7; 16][..length], "it stays as it was");
        }
    }
}

#[test]
fn a_value_of_another_length_is_of_another_kind() {
    let (shard, pass) = two(Layout::Wide);
    let key = shard.insert_record(&(7, 8)).expect("there is room");
    assert_eq!(pass.load_record(key), Ok((7, 8)));
    assert_eq!(pass.load_record(key), Ok([7, 8]));
    assert_eq!(pass.load_record::<u64>(key), Err(Error::WrongKind));
    let guard = pass.get(key).expect("it is there");
    assert_eq!(guard.record::<[u64; 3]>(), Err(Error::WrongKind));
    assert_eq!(guard.record(), Ok((7, 8)));
}

#[test]
fn keys_of_another_heap_name_nothing_or_something_else() {
    let ((one, _), (other, _)) = (two(Layout::Wide), two(Layout::Wide));
    let key = one.insert(&[1]).expect("there is room");
    let theirs = other.insert(&[2]).expect("there is room");
    one.remove(key).expect("it is there");
    assert_eq!(one.load(theirs), Err(Error::Gone));
    assert_eq!(other.load(theirs).expect("it is there"), [2]);
}

#[test]
fn errors_are_told_by_name_and_with_their_source() {
    use std::error::Error as _;
    let (_shard, pass) = two(Layout::Wide);
    let taken = pass.adopt(0).expect_err("it has an owner");
    assert_eq!(taken.source().expect("it has one").to_string(), "the shard has an owner");
    assert_eq!(Error::from(taken), Error::Taken);
    let boxed: Box<dyn std::error::Error + Send + Sync> = Error::Gone.into();
    assert_eq!(boxed.to_string(), "the key was never issued, or it was removed");
}
