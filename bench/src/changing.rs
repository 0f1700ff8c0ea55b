//! Adopt and leave, over the model, which alone has them.
use crate::model::{pages_for, Owner, Words};
use crate::rival::Rival;
use crate::row::Row;
use crate::samples::Samples;
use crate::workload::Workload;
use std::time::{Duration, Instant};

fn hand_over(words: &Words, samples: &Samples, row: &Row, keys: &mut [u64]) -> Duration {
    let start = Instant::now();
    let mut owner = Owner::adopt(words, 0);
    let adopted = Instant::now();
    for (place, key) in keys.iter_mut().enumerate() {
        *key = Rival::insert(words, &mut owner, samples.at(place));
    }
    for key in keys.iter() {
        owner.remove(*key);
    }
    let leaving = Instant::now();
    owner.leave();
    let end = Instant::now();
    if row.workload == Workload::Adopt {
        adopted - start
    } else {
        end - leaving
    }
}

/// The nanoseconds of one operation.
pub fn measure(row: &Row) -> f64 {
    let words = Words::new(1, pages_for(1..=1, row.live + row.freed));
    let samples = Samples::new(row.lengths);
    let mut owner = Owner::adopt(&words, 0);
    for place in 0..row.live {
        Rival::insert(&words, &mut owner, samples.at(place));
    }
    owner.leave();
    let mut keys = vec![0; row.freed];
    hand_over(&words, &samples, row, &mut keys);
    let spent: Duration = (0..row.operations).map(|_| hand_over(&words, &samples, row, &mut keys)).sum();
    spent.as_nanos() as f64 / row.operations as f64
}
