//! The workloads over a rival: the same loops as in `tool_bench`.
use crate::gate::Gate;
use crate::ring::Ring;
use crate::rival::Rival;
use crate::row::Row;
use crate::samples::{mixed_order, Samples};
use crate::workload::Workload;
use std::hint::black_box;
use std::thread;
use std::time::{Duration, Instant};

// So many values are inserted, and then removed.
const BATCH: usize = 1000;

/// The nanoseconds of one operation, by the thread that took longest.
pub fn measure<H: Rival>(rival: &H, row: &Row) -> f64 {
    let longest = match row.workload {
        Workload::Get | Workload::GetGuard => getting(rival, row),
        Workload::Read | Workload::ReadInto | Workload::ReadGuard => getting(rival, row),
        Workload::Look | Workload::LoadFromC | Workload::LoadFromRust => getting(rival, row),
        Workload::Hand => handing(rival, row),
        Workload::Insert | Workload::Fill | Workload::Remove | Workload::Churn => inserting(rival, row),
        Workload::Adopt | Workload::Leave => unreachable!("the model alone has owners that change"),
        Workload::Heed => unreachable!("no rival has receipts"),
    };
    longest.as_nanos() as f64 / row.operations as f64
}

// Runs the jobs at the same time, and answers the longest time.
fn together<J: FnOnce(&Gate) -> Duration + Send>(jobs: Vec<J>) -> Duration {
    let gate = &Gate::new(jobs.len());
    thread::scope(|scope| {
        let threads: Vec<_> = jobs.into_iter().map(|job| scope.spawn(move || job(gate))).collect();
        let times = threads.into_iter().map(|thread| thread.join().expect("the thread ends well"));
        times.max().unwrap_or_default()
    })
}

fn insert_each<H: Rival>(rival: &H, owner: &mut H::Owner<'_>, samples: &Samples, keys: &mut [u64]) {
    for (place, key) in keys.iter_mut().enumerate() {
        *key = rival.insert(owner, samples.at(place));
    }
}

// Gets or reads each key. What differs between a call, a place of the caller's and a guard differs in ours alone.
fn use_each<H: Rival>(rival: &H, keys: &[u64], workload: Workload) -> u64 {
    let held = |key: &&u64| rival.hold(**key);
    match workload {
        Workload::Get | Workload::GetGuard => keys.iter().filter(held).count() as u64,
        workload if workload.looks() => keys.iter().fold(0, |sum, key| sum.wrapping_add(rival.look(*key))),
        _ => keys.iter().fold(0, |sum, key| sum.wrapping_add(rival.read(*key))),
    }
}

// Goes through the keys, over and over.
fn rounds<H: Rival>(rival: &H, walk: &[u64], row: &Row) {
    for _round in 0..row.operations / walk.len() {
        black_box(use_each(rival, walk, row.workload));
    }
    black_box(use_each(rival, &walk[..row.operations % walk.len()], row.workload));
}

// A round through few keys goes through them again and again, until it is as long as this.
const SHORTEST_WALK: usize = 1000;

fn lengthen(walk: &mut Vec<u64>) {
    for place in 0..SHORTEST_WALK.saturating_sub(walk.len()) {
        walk.push(walk[place]);
    }
}

fn getting<H: Rival>(rival: &H, row: &Row) -> Duration {
    let mut owner = rival.owner(0);
    let mut keys = vec![0; row.live];
    insert_each(rival, &mut owner, &Samples::new(row.lengths), &mut keys);
    let mut walk: Vec<u64> = mixed_order(row.live).iter().map(|place| keys[*place]).collect();
    lengthen(&mut walk);
    let walk = walk.as_slice();
    let job = |gate: &Gate| {
        use_each(rival, walk, row.workload);
        gate.pass();
        let start = Instant::now();
        rounds(rival, walk, row);
        start.elapsed()
    };
    together(vec![job; row.threads])
}

// Inserts a batch and removes it; one of the two is measured.
fn one_batch<H: Rival>(
    rival: &H,
    owner: &mut H::Owner<'_>,
    samples: &Samples,
    keys: &mut [u64],
    row: &Row,
) -> Duration {
    let start = Instant::now();
    insert_each(rival, owner, samples, keys);
    let middle = Instant::now();
    for key in keys.iter() {
        rival.remove_own(owner, *key);
    }
    let end = Instant::now();
    if row.workload == Workload::Remove {
        end - middle
    } else {
        middle - start
    }
}

fn batches<H: Rival>(rival: &H, owner: &mut H::Owner<'_>, samples: &Samples, row: &Row) -> Duration {
    let mut keys = [0; BATCH];
    one_batch(rival, owner, samples, &mut keys, row);
    let mut batch = |_| one_batch(rival, owner, samples, &mut keys, row);
    let whole: Duration = (0..row.operations / BATCH).map(&mut batch).sum();
    whole + one_batch(rival, owner, samples, &mut keys[..row.operations % BATCH], row)
}

// Inserts all values, and removes none.
fn fill<H: Rival>(rival: &H, owner: &mut H::Owner<'_>, samples: &Samples, row: &Row) -> Duration {
    let mut keys = vec![0; row.operations];
    let start = Instant::now();
    insert_each(rival, owner, samples, &mut keys);
    start.elapsed()
}

// Goes through the places, in each of which a value is removed and another of its length inserted.
fn churn_each<H: Rival>(rival: &H, owner: &mut H::Owner<'_>, samples: &Samples, keys: &mut [u64], order: &[usize]) {
    for place in order {
        rival.remove_own(owner, keys[*place]);
        keys[*place] = rival.insert(owner, samples.at(*place));
    }
}

fn churn<H: Rival>(rival: &H, owner: &mut H::Owner<'_>, samples: &Samples, keys: &mut [u64], row: &Row) -> Duration {
    let order = mixed_order(keys.len());
    churn_each(rival, owner, samples, keys, &order[..BATCH.min(keys.len())]);
    let start = Instant::now();
    for _round in 0..row.operations / order.len() {
        churn_each(rival, owner, samples, keys, &order);
    }
    churn_each(rival, owner, samples, keys, &order[..row.operations % order.len()]);
    start.elapsed()
}

fn inserting<H: Rival>(rival: &H, row: &Row) -> Duration {
    let job = |shard: usize| {
        move |gate: &Gate| {
            let samples = Samples::new(row.lengths);
            let mut owner = rival.owner(shard);
            let mut keys = vec![0; row.live];
            insert_each(rival, &mut owner, &samples, &mut keys);
            gate.pass();
            match row.workload {
                Workload::Churn => churn(rival, &mut owner, &samples, &mut keys, row),
                Workload::Fill => fill(rival, &mut owner, &samples, row),
                _ => batches(rival, &mut owner, &samples, row),
            }
        }
    };
    together((0..row.threads).map(job).collect())
}

fn produce<H: Rival>(rival: &H, ring: &Ring, shard: usize, row: &Row, gate: &Gate) -> Duration {
    let samples = Samples::new(row.lengths);
    let mut owner = rival.owner(shard);
    gate.pass();
    let start = Instant::now();
    for number in 0..row.operations {
        ring.put(number, rival.insert(&mut owner, samples.at(number)));
    }
    start.elapsed()
}

fn consume<H: Rival>(rival: &H, ring: &Ring, row: &Row, gate: &Gate) -> Duration {
    gate.pass();
    let start = Instant::now();
    for number in 0..row.operations {
        rival.remove(ring.take(number));
    }
    start.elapsed()
}

fn handing<H: Rival>(rival: &H, row: &Row) -> Duration {
    let rings: Vec<Ring> = (0..row.threads).map(|_| Ring::new()).collect();
    let rings = rings.as_slice();
    let job = |side: usize| {
        move |gate: &Gate| match (side / 2, side % 2) {
            (pair, 0) => produce(rival, &rings[pair], pair, row, gate),
            (pair, _) => consume(rival, &rings[pair], row, gate),
        }
    };
    together((0..2 * row.threads).map(job).collect())
}
