//! A slab that threads share: removals of the same keys, more threads than passes, and what threads leave as they end.
#[path = "common/counted.rs"]
mod counted;
#[path = "common/small.rs"]
mod small;

use counted::Counted;
use gearlongan::slab::Slab;
use small::Small;
use std::collections::HashSet;
use std::sync::atomic::{AtomicBool, AtomicUsize, Ordering::SeqCst};
use std::sync::mpsc::channel;
use std::sync::{Arc, Barrier, Mutex};
use std::thread;
use std::time::Duration;

const COUNT: usize = if cfg!(debug_assertions) { 1_000 } else { 10_000 };
/// How many walks there are beside threads, and how many values of each of these stay: few under memcheck.
const SWEEPS: usize = if cfg!(debug_assertions) { 10 } else { 1_000 };
const STAY: usize = if cfg!(debug_assertions) { 60 } else { 400 };

fn pairs(threads: usize) {
    let dropped = Arc::new(AtomicUsize::new(0));
    let slab = Slab::new();
    thread::scope(|scope| {
        for _ in 0..threads / 2 {
            let (sender, receiver) = channel();
            let (slab, dropped) = (&slab, &dropped);
            scope.spawn(move || {
                for n in 0..COUNT {
                    let key = loop {
                        match slab.insert(Counted(n, dropped.clone())) {
                            Some(key) => break key,
                            None => thread::yield_now(),
                        }
                    };
                    sender.send((key, n)).expect("somebody listens");
                    let _late = slab.get(key).map(|entry| assert_eq!(entry.0, n));
                }
            });
            scope.spawn(move || {
                for (key, n) in receiver {
                    match n % 2 {
                        0 => assert!(slab.remove(key)),
                        _ => assert_eq!(slab.take(key).map(|value| value.0), Some(n)),
                    }
                }
            });
        }
    });
    // (Of a refused insert the value was dropped as well.)
    let all = dropped.load(SeqCst);
    assert!(all >= COUNT * (threads / 2));
    drop(slab);
    assert_eq!(dropped.load(SeqCst), all, "none was left");
}

#[test]
fn example_two_threads() {
    pairs(2);
}

#[test]
fn four_threads() {
    pairs(4);
}

/// More threads than a heap has passes: all of them have a guard of one value at the same time.
#[test]
fn two_hundred_threads() {
    let slab = Slab::new();
    let (of_all, start) = (slab.insert(1000).expect("there is room"), Barrier::new(200));
    thread::scope(|scope| {
        for n in 0..200 {
            let (slab, start) = (&slab, &start);
            scope.spawn(move || {
                start.wait();
                let keys: Vec<usize> = (0..200).flat_map(|_| slab.insert(n)).collect();
                let entry = keys.first().and_then(|key| slab.get(*key));
                let of_all = slab.get(of_all);
                start.wait();
                assert!(of_all.is_some_and(|value| value == 1000) && entry.is_some_and(|value| value == n));
                assert!(keys.iter().all(|key| slab.get(*key).is_some_and(|value| value == n)));
                assert!(keys.iter().all(|key| slab.remove(*key)));
                assert_eq!(keys.len(), 200);
            });
        }
    });
}

/// Others insert and remove meanwhile, on the same pages.
#[test]
fn a_walk_meets_each_value_that_stays_once() {
    const STAYS: usize = 7;
    const GOES: usize = 8;
    let (slab, stay) = (Slab::new(), Mutex::<HashSet<usize>>::default());
    let (begin, over) = (Barrier::new(4), AtomicBool::new(false));
    let work = || {
        let keys: Vec<usize> = (0..2 * STAY).flat_map(|n| slab.insert(if n % 2 == 0 { STAYS } else { GOES })).collect();
        stay.lock().expect("no thread panics").extend(keys.iter().step_by(2));
        let mut going: Vec<usize> = keys.into_iter().skip(1).step_by(2).collect();
        begin.wait();
        while !over.load(SeqCst) {
            // (A walk may have removed it.)
            going.drain(..).for_each(|key| _ = slab.remove(key));
            going.extend((0..STAY).flat_map(|_| slab.insert(GOES)));
        }
    };
    thread::scope(|scope| {
        (0..3).for_each(|_| drop(scope.spawn(work)));
        begin.wait();
        let stay = stay.lock().expect("no thread panics");
        let is_right = |sweep| {
            let mut met: Vec<usize> = Vec::new();
            match sweep % 2 {
                0 => met.extend(slab.iter().filter(|entry| **entry == STAYS).map(|entry| entry.key())),
                _ => slab.retain(|key, value| {
                    met.extend((*value == STAYS).then_some(key));
                    *value == STAYS
                }),
            }
            met.len() == stay.len() && met.iter().all(|key| stay.contains(key))
        };
        let right = (0..SWEEPS).filter(|sweep| is_right(*sweep)).count();
        over.store(true, SeqCst);
        assert_eq!((right, stay.len()), (SWEEPS, 3 * STAY));
    });
}

/// Each shard is given back as its thread ends: the slab does not grow.
#[test]
fn threads_that_end_leave_their_shards_to_others() {
    let slab = Slab::new();
    for n in 0..200 {
        let insert = || slab.insert(n).expect("there is room");
        let key = thread::scope(|scope| scope.spawn(insert).join().expect("it ends well"));
        assert!(key >> 52 == 0 && key >> 14 & 63 != 0, "it is of a shard of its own, in the first heap");
        assert_eq!(slab.take(key), Some(n));
    }
}

/// All passes of the only heap are with other threads. Once these have ended a thread gets one, and a shard with it.
#[test]
fn a_thread_without_a_pass_asks_for_one_again() {
    let slab = Slab::new_with_config::<Small>();
    let insert = || slab.insert(7).expect("there is room");
    let is_shared = |key: usize| key >> 14 & 63 == 0;
    // This thread has a pass, the shared shard has one, and each of the others has one after its removal.
    let keys: Vec<usize> = (0..62).map(|_| insert()).collect();
    let (removed, end) = (Barrier::new(63), Barrier::new(63));
    let other = |key: usize| {
        assert!(slab.remove(key));
        removed.wait();
        end.wait();
    };
    let work = || {
        thread::scope(|scope| {
            let others: Vec<_> = keys.iter().map(|key| scope.spawn(|| other(*key))).collect();
            removed.wait();
            assert!(is_shared(insert()), "no pass is at home");
            end.wait();
            others.into_iter().for_each(|other| other.join().expect("it ends well"));
        });
        (0..1000).any(|_| {
            let key = insert();
            slab.remove(key) && !is_shared(key)
        })
    };
    assert!(thread::scope(|scope| scope.spawn(work).join().expect("it ends well")));
}

#[test]
fn a_take_waits_for_the_guards_of_others() {
    let dropped = Arc::new(AtomicUsize::new(0));
    let slab = Arc::new(Slab::new());
    for guards in 1..=3 {
        let key = slab.insert(Counted(7, dropped.clone())).expect("there is room");
        let entries: Vec<_> = (0..guards).flat_map(|_| slab.clone().get_owned(key)).collect();
        let theirs = slab.clone();
        let taking = thread::spawn(move || theirs.take(key).map(|value| value.0));
        while slab.contains(key) {
            thread::yield_now();
        }
        for entry in entries {
            thread::sleep(Duration::from_millis(20));
            assert!(!slab.remove(key) && !taking.is_finished());
            assert_eq!((entry.0, dropped.load(SeqCst)), (7, guards - 1));
        }
        assert_eq!(taking.join().expect("it ends well"), Some(7));
        assert_eq!(dropped.load(SeqCst), guards);
    }
}

/// All remove the same keys: each is removed once.
#[test]
fn four_threads_remove_the_same_keys() {
    let dropped = Arc::new(AtomicUsize::new(0));
    let slab = Slab::new();
    let keys: Vec<usize> = (0..1000).flat_map(|n| slab.insert(Counted(n, dropped.clone()))).collect();
    let removed: usize = thread::scope(|scope| {
        let remove = || keys.iter().filter(|key| slab.get(**key).is_some() & slab.remove(**key)).count();
        let workers: Vec<_> = (0..4).map(|_| scope.spawn(remove)).collect();
        workers.into_iter().map(|worker| worker.join().expect("it ends well")).sum()
    });
    assert_eq!((removed, dropped.load(SeqCst)), (1000, 1000));
}
