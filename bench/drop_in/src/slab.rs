//! The calls of a slab of `u64`.
use crate::clock::Times;
use crate::{in_threads, Row};
use sharded_slab::Slab;
use std::hint::black_box;
use std::sync::mpsc::channel;
use std::sync::Barrier;
use std::thread;

const VALUES: usize = 1000;

/// Each thread inserts, gets, removes and takes 1,000 values a round.
pub fn calls(threads: usize, rounds: usize) -> Vec<Row> {
    let slab = Slab::new();
    let shared: Vec<usize> = (0..64).map(|n| slab.insert(n).expect("there is room")).collect();
    in_threads(threads, |start, _| {
        let mut times = Times::none();
        let mut keys = Vec::with_capacity(VALUES);
        start.wait();
        for _ in 0..rounds {
            let insert = || slab.insert(black_box(7)).expect("there is room");
            times.add(0, || keys.extend((0..VALUES).map(|_| insert())));
            times.add(1, || keys.iter().for_each(|key| _ = black_box(*slab.get(*key).expect("it is there"))));
            times.add(2, || keys.drain(..).for_each(|key| assert!(slab.remove(key))));
            keys.extend((0..VALUES).map(|_| insert()));
            times.add(3, || keys.drain(..).for_each(|key| _ = black_box(slab.take(key).expect("it is there"))));
            let get = |n: usize| black_box(*slab.get(shared[n % 64]).expect("it is there"));
            times.add(4, || (0..VALUES).for_each(|n| _ = get(n)));
        }
        let names = ["insert", "get", "remove", "take", "get, 64 keys of all"];
        times.each(names, rounds * VALUES)
    })
}

/// One thread gets, and inserts and removes, beside this many threads that used the slab once and are idle.
pub fn beside_idle(threads: usize, rounds: usize) -> Vec<Row> {
    let slab = Slab::new();
    let key = slab.insert(7u64).expect("there is room");
    let (ready, mut times) = (Barrier::new(threads + 1), Times::none());
    thread::scope(|scope| {
        // An idle thread ends as its sender is dropped.
        let mut senders = Vec::new();
        for _ in 0..threads {
            let (sender, receiver) = channel::<()>();
            senders.push(sender);
            let (slab, ready) = (&slab, &ready);
            scope.spawn(move || {
                let key = slab.insert(7).expect("there is room");
                assert!(slab.remove(key));
                ready.wait();
                assert!(receiver.recv().is_err());
            });
        }
        ready.wait();
        for _ in 0..rounds {
            times.add(0, || (0..VALUES).for_each(|_| _ = black_box(*slab.get(black_box(key)).expect("it is there"))));
            let turn = || slab.remove(slab.insert(black_box(7)).expect("there is room"));
            times.add(1, || (0..VALUES).for_each(|_| assert!(turn())));
        }
        drop(senders);
    });
    times.each(["get beside idle threads", "insert + remove beside idle threads"], rounds * VALUES)
}
