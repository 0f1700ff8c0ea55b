//! What calls take, of each side by itself.
use super::maps::{of_chunks, of_one_chunk, plain, table, Map};
use sharded_slab::Slab;
use std::hint::black_box;
use std::time::{Duration, Instant};

/// How many values there are.
pub const VALUES: usize = 10_000;
const OPERATIONS: usize = 1_000_000;
// So many values are inserted beside them, and then removed.
const BATCH: usize = 1000;
// A step of the mixed order, prime to the number of values.
const STRIDE: usize = 7919;

/// What is timed.
#[derive(Clone, Copy, Debug, PartialEq, Eq)]
pub enum Call {
    Get,
    ReadInto,
    Insert,
    Remove,
}

pub const CALLS: [Call; 4] = [Call::Get, Call::ReadInto, Call::Insert, Call::Remove];

impl Call {
    pub fn name(self) -> &'static str {
        match self {
            Call::Get => "get",
            Call::ReadInto => "read-into",
            Call::Insert => "insert",
            Call::Remove => "remove",
        }
    }

    /// The row, in words.
    pub fn title(self) -> &'static str {
        match self {
            Call::Get => "get + release, 10,000 keys",
            Call::ReadInto => "get + read into + release, 1 word, 10,000 keys",
            Call::Insert => "insert, 1 word, beside 10,000 values",
            Call::Remove => "remove by the owner, 1 word, beside 10,000 values",
        }
    }
}

/// The maps that are compared.
#[derive(Clone, Copy, Debug, PartialEq, Eq)]
pub enum Side {
    Plain,
    OneChunk,
    FortyChunks,
    Table,
    Sharded,
}

pub const SIDES: [Side; 5] = [Side::Plain, Side::OneChunk, Side::FortyChunks, Side::Table, Side::Sharded];
const CHUNKS: u32 = 40;

impl Side {
    pub fn name(self) -> &'static str {
        match self {
            Side::Plain => "plain heap",
            Side::OneChunk => "1 chunk",
            Side::FortyChunks => "40 chunks",
            Side::Table => "`Table`",
            Side::Sharded => "`sharded_slab`",
        }
    }

    /// The side of this name.
    pub fn of_name(name: &str) -> Option<Side> {
        SIDES.into_iter().find(|side| side.name() == name)
    }
}

// The nanoseconds of one call on keys, which are gone through until there were so many calls.
fn on_each(walk: &[u64], operations: usize, mut call: impl FnMut(u64) -> u64) -> f64 {
    let mut round = || walk.iter().fold(0u64, |sum, key| sum.wrapping_add(call(*key)));
    black_box(round());
    let start = Instant::now();
    for _round in 0..operations / walk.len() {
        black_box(round());
    }
    start.elapsed().as_nanos() as f64 / (operations / walk.len() * walk.len()) as f64
}

// The nanoseconds of an insert and of a removal, in batches. The first batch is not counted.
fn in_batches(map: &mut impl Map, operations: usize) -> [f64; 2] {
    let (mut keys, mut spent) = ([0; BATCH], [Duration::ZERO; 2]);
    for batch in 0..=operations / BATCH {
        let start = Instant::now();
        for (value, key) in keys.iter_mut().enumerate() {
            *key = map.insert(value as u64);
        }
        let middle = Instant::now();
        for key in &keys {
            map.remove(*key);
        }
        let end = Instant::now();
        if batch > 0 {
            spent = [spent[0] + (middle - start), spent[1] + (end - middle)];
        }
    }
    spent.map(|time| time.as_nanos() as f64 / (operations / BATCH * BATCH) as f64)
}

// Of a map with these keys, in the order of `CALLS`.
fn times(map: &mut impl Map, keys: &[u64], operations: usize) -> [f64; 4] {
    let walk: Vec<u64> = (0..keys.len()).map(|n| keys[n * STRIDE % keys.len()]).collect();
    let get = on_each(&walk, operations, |key| map.get(key));
    let read = on_each(&walk, operations, |key| map.read(key));
    let [insert, remove] = in_batches(map, operations);
    [get, read, insert, remove]
}

fn filled(mut map: impl Map, operations: usize) -> [f64; 4] {
    let keys: Vec<u64> = (0..VALUES as u64).map(|value| map.insert(value)).collect();
    times(&mut map, &keys, operations)
}

/// The nanoseconds of each call, in the order of `CALLS`.
pub fn nanoseconds(side: Side) -> [f64; 4] {
    let room = (VALUES + BATCH) as u64;
    match side {
        Side::Plain => filled(plain(room), OPERATIONS),
        Side::OneChunk => filled(of_one_chunk(room), OPERATIONS),
        Side::FortyChunks => {
            let (mut map, keys) = of_chunks(CHUNKS, VALUES as u64 / u64::from(CHUNKS));
            times(&mut map, &keys, OPERATIONS)
        }
        Side::Table => filled(table(room), OPERATIONS),
        Side::Sharded => filled(Slab::new(), OPERATIONS),
    }
}

#[cfg(test)]
mod tests {
    use super::*;

    #[test]
    fn each_call_takes_time() {
        let room = (VALUES + BATCH) as u64;
        assert!(filled(of_one_chunk(room), 20_000).iter().all(|time| *time > 0.0));
        assert!(filled(table(room), 20_000).iter().all(|time| *time > 0.0));
        assert!(filled(Slab::new(), 20_000).iter().all(|time| *time > 0.0));
    }

    #[test]
    fn names_are_those_of_sides() {
        assert!(SIDES.into_iter().all(|side| Side::of_name(side.name()) == Some(side)));
        assert_eq!(Side::of_name("nothing"), None);
    }

    #[test]
    fn forty_chunks_have_all_the_values() {
        assert_eq!(VALUES % CHUNKS as usize, 0);
    }
}
