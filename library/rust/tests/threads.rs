//! Two and four threads that hand keys over channels.
use gearlongan::{Error, Heap, Key, Layout, Shape, Shard};
use std::sync::mpsc::{channel, Receiver, Sender};
use std::sync::{Arc, Barrier};
use std::thread;

const COUNT: u64 = if cfg!(debug_assertions) { 5_000 } else { 50_000 };

fn value(maker: u64, n: u64) -> ([u64; 16], usize) {
    ([maker << 32 | n; 16], 1 + (n % 16) as usize)
}

/// A thread that is freeing in this shard ends soon.
fn leave(mut shard: Shard) {
    while let Err(refused) = shard.leave() {
        assert_eq!(refused.error, Error::Waiting);
        shard = refused.shard;
        thread::yield_now();
    }
}

/// Makes values, which others remove: if the shard is full, it waits for them. Every 1000 values another pass of
/// this thread adopts the shard.
fn produce(heap: &Heap, number: u32, keys: &Sender<(Key, u64)>) {
    let mut n = 0;
    while n < COUNT {
        let shard = heap.take().expect("a pass is at home").adopt(number).expect("it was left");
        let end = n + 1000;
        while n < end {
            let (words, length) = value(number.into(), n);
            match shard.insert(&words[..length]) {
                Ok(key) => {
                    keys.send((key, n)).expect("somebody listens");
                    n += 1;
                }
                Err(error) => {
                    assert_eq!(error, Error::Full);
                    thread::yield_now();
                }
            }
        }
        leave(shard);
    }
}

/// Reads and removes what was made.
fn consume(heap: &Heap, maker: u32, keys: Receiver<(Key, u64)>) -> u64 {
    let mut count = 0;
    for (key, n) in keys {
        let pass = heap.take().expect("a pass is at home");
        let (words, length) = value(maker.into(), n);
        let guard = pass.get(key).expect("nobody else removes it");
        pass.remove(key).expect("nobody else removes it");
        assert_eq!(*guard, words[..length]);
        drop(guard);
        assert_eq!(pass.load(key), Err(Error::Gone));
        count += 1;
    }
    count
}

fn pairs(pairs: u32) {
    let heap = Heap::open(Layout::Wide, Shape { shards: pairs, segments: 4, passes: 2 * pairs }).expect("it opens");
    thread::scope(|scope| {
        for number in 0..pairs {
            let (sender, receiver) = channel();
            let heap = &heap;
            scope.spawn(move || produce(heap, number, &sender));
            let consumer = scope.spawn(move || consume(heap, number, receiver));
            scope.spawn(move || assert_eq!(consumer.join().expect("it ends well"), COUNT));
        }
    });
    let home: Vec<_> = std::iter::from_fn(|| heap.take().ok()).collect();
    assert_eq!(home.len() as u64, heap.passes());
}

#[test]
fn example_two_threads() {
    pairs(1);
}

#[test]
fn four_threads() {
    pairs(2);
}

/// All remove the same keys: each is removed once.
fn race(threads: u64) {
    let shape = Shape { shards: 1, segments: 4, passes: 1 + threads as u32 };
    let heap = Heap::open(Layout::Wide, shape).expect("it opens");
    let shard = heap.take().expect("a pass is at home").adopt(0).expect("it has no owner");
    let keys: Arc<[Key]> = (0..1000).map(|n| shard.insert(&[n]).expect("there is room")).collect();
    let start = Arc::new(Barrier::new(threads as usize));
    let workers = (0..threads).map(|_| {
        let (pass, keys, start) = (heap.take().expect("a pass is at home"), keys.clone(), start.clone());
        thread::spawn(move || {
            start.wait();
            let removes = |key: &&Key| match (pass.get(**key), pass.remove(**key)) {
                (guard, Ok(())) => guard.is_ok_and(|guard| guard.len() == 1),
                (_, Err(error)) => {
                    assert_eq!(error, Error::Gone);
                    false
                }
            };
            keys.iter().filter(removes).count()
        })
    });
    let workers: Vec<_> = workers.collect();
    let removed: usize = workers.into_iter().map(|worker| worker.join().expect("it ends well")).sum();
    assert_eq!(removed, keys.len());
    assert!(keys.iter().all(|key| shard.load(*key) == Err(Error::Gone)));
}

#[test]
fn two_threads_remove_the_same_keys() {
    race(2);
}

#[test]
fn four_threads_remove_the_same_keys() {
    race(4);
}

/// Threads that take a pass of one heap at the same time get one each, or the error that there is none.
#[test]
fn threads_take_passes_of_one_heap() {
    let heap = Heap::open(Layout::Wide, Shape { shards: 1, segments: 1, passes: 2 }).expect("it opens");
    thread::scope(|scope| {
        for _ in 0..4 {
            scope.spawn(|| {
                for _ in 0..COUNT / 10 {
                    match heap.take() {
                        Ok(pass) => assert_eq!(pass.load(Key::from(0)), Err(Error::BadKey)),
                        Err(error) => assert_eq!(error, Error::NoPass),
                    }
                }
            });
        }
    });
    assert!(heap.take().and_then(|_one| heap.take()).is_ok());
}
