//! Walks of a pass over the live keys of a heap of each layout, and of one that grows, alone and beside threads.
#[path = "common/layouts.rs"]
mod layouts;

use gearlongan::{Caller, Error, Heap, Key, Layout, Pass, Room, Shape, Shard, Value};
use layouts::{two, LAYOUTS};
use std::collections::HashSet;
use std::ops::Deref;
use std::sync::atomic::{AtomicBool, AtomicUsize, Ordering::SeqCst};
use std::sync::{Barrier, Mutex};
use std::thread;

/// How many walks there are beside threads, and how many keys of each of these stay: few under memcheck.
const SWEEPS: usize = if cfg!(debug_assertions) { 9 } else { 600 };
const STAY: usize = if cfg!(debug_assertions) { 60 } else { 300 };

fn keys(pass: &Pass) -> Vec<Key> {
    pass.walk().map(|(key, _)| key).collect()
}

/// Values of five lengths, of which each seventh was removed, one of them while it is held.
#[test]
fn a_walk_meets_the_live_keys_with_their_values_in_the_order_of_places() {
    for layout in LAYOUTS {
        let (shard, pass) = two(layout);
        assert_eq!((pass.walk().count(), pass.walk_held().count()), (0, 0));
        let value = |n: usize| Value::new(&[n as u64; 16][..[0, 1, 2, 3, 16][n % 5]]).expect("it is short");
        let mut all: Vec<(Key, Value)> = Vec::new();
        all.extend((0..15).map(|n| (shard.insert(&value(n)).expect("there is room"), value(n))));
        let held = pass.get(all[7].0).expect("it is there");
        all.retain(|(key, value)| value.first().is_none_or(|n| n % 7 != 0) || shard.remove(*key).is_err());
        let in_order: Vec<Key> = shard.keys().collect::<Result<_, _>>().expect("it is the owner");
        all.sort_unstable_by_key(|(key, _)| in_order.iter().position(|it| it == key));
        assert_eq!((in_order.len(), held.len()), (all.len(), 2));
        assert!(all.len() < 15 && pass.walk().eq(all.iter().copied()) && shard.walk().eq(all.iter().copied()));
        let guards = pass.walk_held().map(|guard| guard.map(|guard| (guard.key(), *guard.value())));
        assert_eq!(guards.collect::<Result<Vec<_>, _>>().expect("each guard is dropped"), all);
    }
}

#[test]
fn a_walk_meets_the_keys_of_all_shards() {
    let heap = Heap::open(Layout::Wide, Shape { shards: 4, segments: 1, passes: 5 }).expect("it opens");
    let pass = heap.take().expect("a pass is at home");
    let mut all = Vec::new();
    for n in [2, 0, 3, 1] {
        let shard = heap.take().expect("a pass is at home").adopt(n).expect("it has no owner");
        all.extend((0..100).map(|m| (n, shard.insert(&[m]).expect("there is room"))));
    }
    all.sort_by_key(|(shard, _)| *shard);
    assert!(keys(&pass).into_iter().eq(all.into_iter().map(|(_, key)| key)));
}

#[test]
fn the_loop_of_a_walk_may_call_the_pass() {
    let (shard, _pass) = two(Layout::Wide);
    let all: Vec<Key> = (0..100).map(|n| shard.insert(&[n]).expect("there is room")).collect();
    let mut walk = shard.walk();
    for (n, (key, value)) in walk.by_ref().enumerate() {
        assert_eq!((key, value), (all[n], Value::of(&(n as u64))));
        assert_eq!(shard.take(key), Ok(value));
        // It is removed before the walk comes to it, or its value has a place that was passed.
        match n {
            0..50 => shard.remove(all[99 - n]).expect("it is there"),
            _ => unreachable!("the others were removed"),
        }
    }
    // A walk that has ended stays so.
    shard.insert(&[7]).expect("there is room");
    assert_eq!((walk.next(), walk.next(), keys(&shard).len()), (None, None, 1));
}

#[test]
fn a_walk_with_guards_goes_on_after_a_guard_was_dropped() {
    let (shard, pass) = two(Layout::Deep);
    let all: Vec<Key> = (0..20).map(|n| shard.insert(&[n]).expect("there is room")).collect();
    let mut walk = pass.walk_held();
    let mut guards: Vec<_> = walk.by_ref().take(16).map(|guard| guard.expect("there is room for it")).collect();
    for _ in 0..3 {
        assert_eq!(walk.next().map(|guard| guard.err()), Some(Some(Error::HoldsFull)));
        assert!(walk.next().is_none());
    }
    guards.drain(..2);
    let (next, last) = (walk.next(), walk.next());
    assert!(matches!((&next, &last), (Some(Ok(_)), Some(Ok(_)))));
    guards.extend(next.into_iter().chain(last).flatten());
    assert!(guards.iter().map(|guard| guard.key()).eq(all[2..18].iter().copied()));
    // A value is kept by the guard of a walk as by any other.
    shard.remove(all[17]).expect("it is there");
    assert_eq!((**guards.last().expect("it is there") == [17], pass.load(all[17])), (true, Err(Error::Gone)));
    drop(guards);
    assert_eq!(walk.flatten().count(), 2);
    assert_eq!(pass.walk_held().flatten().count(), 19);
}

/// In this layout a key has at most four holds.
#[test]
fn a_walk_with_guards_passes_over_a_key_that_has_as_many_as_it_may_have() {
    let (shard, pass) = two(Layout::Tiny);
    let all: Vec<Key> = (0..3).map(|n| shard.insert(&[n]).expect("there is room")).collect();
    let guards: Vec<_> = std::iter::from_fn(|| shard.get(all[1]).ok()).collect();
    let met: Vec<Result<Key, Error>> = pass.walk_held().map(|guard| guard.map(|guard| guard.key())).collect();
    assert_eq!(met, [Ok(all[0]), Err(Error::Crowded), Ok(all[2])]);
    assert_eq!((guards.len(), keys(&pass)), (4, all));
}

#[test]
fn keys_are_removed_if_the_predicate_says_so_and_no_other_call_was_first() {
    for layout in LAYOUTS {
        let (mut shard, mut pass) = two(layout);
        let all: Vec<Key> = (0..100).map(|n| shard.insert(&[n]).expect("there is room")).collect();
        let others = |key, words: &[u64]| {
            assert_eq!(all[words[0] as usize], key);
            words[0] % 20 == 0 && shard.remove(key).is_ok() || words[0] % 2 == 0
        };
        assert_eq!(pass.remove_if(others), 45);
        assert_eq!(shard.remove_if(|_, words| words[0] < 10), 5);
        assert!(keys(&pass).into_iter().eq(all[10..].iter().copied().skip(1).step_by(2)));
        assert_eq!((pass.remove_if(|_, _| true), pass.remove_if(|_, _| true)), (45, 0));
    }
}

/// Three chunks, the first of which has 768 values.
#[test]
fn a_heap_that_grows_is_drained() {
    let heap = Heap::growing(Room { owners: 2, values: 384, words: 1, passes: 3 }, 3).expect("it opens");
    let (mut caller, other) = (heap.take().expect("it is at home"), heap.take().expect("it is at home"));
    assert!(other.walk().next().is_none());
    let all: Vec<Key> = (0..1200).map(|n| caller.insert(&[n]).expect("there is room")).collect();
    assert_eq!(heap.chunks(), 3);
    let met: Vec<(Key, Value)> = other.walk().collect();
    assert!(met.windows(2).all(|two| u64::from(two[0].0) >> 56 <= u64::from(two[1].0) >> 56));
    assert!(met.iter().all(|(key, value)| all[value[0] as usize] == *key) && met.len() == 1200);
    assert_eq!(other.walk_held().map(|guard| guard.map_or(0, |guard| guard[0])).sum::<u64>(), 1199 * 600);
    assert_eq!(caller.remove_if(|_, words| words[0] % 3 == 0), 400);
    let taken = other.walk().map(|(key, _)| other.take(key).expect("it is there")[0]);
    assert_eq!(taken.sum::<u64>(), 1199 * 600 - 3 * 399 * 200);
    assert_eq!((caller.walk().count(), caller.remove_if(|_, _| true)), (0, 0));
}

/// What threads have together.
struct Game {
    stay: Mutex<HashSet<Key>>,
    begin: Barrier,
    over: AtomicBool,
    inserted: AtomicUsize,
    removed: AtomicUsize,
}

const STAYS: u64 = 7;
const GOES: u64 = 8;

type Predicate<'a> = dyn FnMut(Key, &[u64]) -> bool + 'a;

/// Every other value stays. The places of the others are used again and again.
fn come_and_go<O: Deref<Target = Pass>>(game: &Game, owner: &O, insert: fn(&O, &[u64]) -> Result<Key, Error>) {
    let insert = |word| insert(owner, &[word]).expect("there is room");
    let all: Vec<Key> = (0..2 * STAY as u64).map(|n| insert(STAYS + n % 2)).collect();
    game.stay.lock().expect("no thread panics").extend(all.iter().step_by(2));
    let mut going: Vec<Key> = all.into_iter().skip(1).step_by(2).collect();
    game.begin.wait();
    while !game.over.load(SeqCst) {
        game.inserted.fetch_add(going.len(), SeqCst);
        let removed = going.drain(..).filter(|key| owner.remove(*key).is_ok()).count();
        game.removed.fetch_add(removed, SeqCst);
        going.extend((0..STAY).map(|_| insert(GOES)));
    }
    game.inserted.fetch_add(going.len(), SeqCst);
}

/// The keys of this value that a walk meets. Other keys may be removed by it.
fn swept<O: Deref<Target = Pass>>(
    walker: &mut O,
    sweep: usize,
    remove_if: fn(&mut O, &mut Predicate<'_>) -> usize,
) -> (Vec<Key>, usize) {
    let (mut met, mut removed) = (Vec::new(), 0);
    match sweep % 3 {
        0 => met.extend(walker.walk().filter(|(_, value)| *value == [STAYS]).map(|(key, _)| key)),
        1 => {
            let guards = walker.walk_held().map(|guard| guard.expect("each guard is dropped"));
            met.extend(guards.filter(|guard| **guard == [STAYS]).map(|guard| guard.key()));
        }
        _ => {
            removed = remove_if(walker, &mut |key, words| {
                met.extend((*words == [STAYS]).then_some(key));
                *words == [GOES]
            });
        }
    }
    (met, removed)
}

/// Threads insert and remove beside a walker.
fn stays_are_met_once<O: Deref<Target = Pass> + Send>(
    owners: Vec<O>,
    mut walker: O,
    insert: fn(&O, &[u64]) -> Result<Key, Error>,
    remove_if: fn(&mut O, &mut Predicate<'_>) -> usize,
) {
    let (stay, over, inserted, removed) = Default::default();
    let game = Game { stay, begin: Barrier::new(owners.len() + 1), over, inserted, removed };
    let stays = STAY * owners.len();
    let right = thread::scope(|scope| {
        let game = &game;
        owners.into_iter().for_each(|owner| drop(scope.spawn(move || come_and_go(game, &owner, insert))));
        game.begin.wait();
        let stay = game.stay.lock().expect("no thread panics");
        let is_right = |sweep: &usize| {
            let (met, removed) = swept(&mut walker, *sweep, remove_if);
            game.removed.fetch_add(removed, SeqCst);
            met.len() == stays && met.iter().all(|key| stay.contains(key))
        };
        let right = (0..SWEEPS).filter(is_right).count();
        game.over.store(true, SeqCst);
        right
    });
    assert_eq!(right, SWEEPS);
    let left = remove_if(&mut walker, &mut |_, words| *words == [GOES]);
    assert_eq!(game.removed.load(SeqCst) + left, game.inserted.load(SeqCst), "each is removed once");
    assert_eq!(walker.walk().count(), stays);
}

#[test]
fn keys_that_stay_are_met_once_beside_owners() {
    let heap = Heap::open(Layout::Wide, Shape { shards: 4, segments: 4, passes: 4 }).expect("it opens");
    let owner = |n| heap.take().expect("a pass is at home").adopt(n).expect("it has no owner");
    let remove_if = |shard: &mut Shard, predicate: &mut Predicate<'_>| shard.remove_if(predicate);
    stays_are_met_once((0..3).map(owner).collect(), owner(3), Shard::insert, remove_if);
}

#[test]
fn keys_that_stay_are_met_once_beside_callers() {
    let heap = Heap::growing(Room { owners: 2, values: 384, words: 1, passes: 4 }, 64).expect("it opens");
    let caller = |_| heap.take().expect("a pass is at home");
    let remove_if = |caller: &mut Caller, predicate: &mut Predicate<'_>| caller.remove_if(predicate);
    stays_are_met_once((0..3).map(caller).collect(), caller(3), Caller::insert, remove_if);
}
