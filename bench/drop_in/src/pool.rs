//! The calls of a pool of strings.
use crate::clock::Times;
use crate::{in_threads, Row};
use sharded_slab::Pool;
use std::hint::black_box;

const CALLS: usize = 1000;

/// Each thread gets one value of its own, and creates, gets and clears others.
pub fn calls(threads: usize, rounds: usize) -> Vec<Row> {
    let pool: Pool<String> = Pool::new();
    in_threads(threads, |start, _| {
        let mut times = Times::none();
        let own = pool.create_with(|text| text.push('x')).expect("there is room");
        start.wait();
        for _ in 0..rounds {
            let get = |key| black_box(pool.get(black_box(key)).expect("it is there").len());
            times.add(0, || (0..CALLS).for_each(|_| _ = get(own)));
            let turn = || {
                let key = pool.create_with(|text| text.push('y')).expect("there is room");
                get(key);
                pool.clear(key)
            };
            times.add(1, || (0..CALLS).for_each(|_| assert!(turn())));
        }
        times.each(["pool: get", "pool: create + get + clear"], rounds * CALLS)
    })
}
