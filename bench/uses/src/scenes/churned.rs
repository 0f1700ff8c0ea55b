//! One thread replaces values without an end, while the others read them.
use super::WORDS;
use crate::dice::Dice;
use crate::map::{Caller, Map};
use crate::together::{together, Spent};
use std::hint::black_box;
use std::sync::atomic::{AtomicU64, AtomicUsize, Ordering::Acquire, Ordering::Relaxed, Ordering::Release};

/// How many values there are.
pub const VALUES: usize = 10_000;
/// How many reads each reader has.
pub const READS: usize = 200_000;

struct Table {
    keys: Vec<AtomicU64>,
    // How many readers read.
    reading: AtomicUsize,
}

// Replaces values until no reader reads. Returns how many.
fn churn(table: &Table, caller: &mut impl Caller) -> usize {
    let (mut dice, mut replaced) = (Dice::new(0), 0);
    while table.reading.load(Relaxed) > 0 {
        let place = &table.keys[dice.below(VALUES)];
        assert!(caller.remove(place.load(Relaxed)));
        place.store(caller.insert(&[replaced as u64; WORDS]), Release);
        replaced += 1;
    }
    replaced
}

// Returns how many reads found a value.
fn read(table: &Table, caller: &mut impl Caller, number: usize, reads: usize) -> usize {
    let mut dice = Dice::new(number);
    let mut one = || caller.read(table.keys[dice.below(VALUES)].load(Acquire));
    let found = (0..reads).filter(|_| black_box(one()).is_some()).count();
    table.reading.fetch_sub(1, Release);
    found
}

// What each thread did: the first one replaced so many, and the others found so many.
fn all<M: Map>(map: &M, threads: usize, reads: usize) -> (Spent, Vec<usize>) {
    let keys = (0..VALUES).map(|_| AtomicU64::new(0)).collect();
    let table = Table { keys, reading: AtomicUsize::new(threads - 1) };
    together(threads, |number, start| {
        let mut caller = map.caller(number);
        if number == 0 {
            table.keys.iter().for_each(|place| place.store(caller.insert(&[0; WORDS]), Release));
        }
        let timer = start.pass(number);
        let done = match number {
            0 => churn(&table, &mut caller),
            _ => read(&table, &mut caller, number, reads),
        };
        (timer.stop(), done)
    })
}

/// What a turn took, and how many reads each reader had.
pub fn run<M: Map>(map: &M, threads: usize, reads: usize) -> (Spent, usize) {
    (all(map, threads, reads).0, reads)
}

#[cfg(test)]
mod tests {
    use super::*;
    use crate::map::Room;
    use crate::maps::{Task, SIDES};

    struct Tried;

    impl Task for Tried {
        type Answer = Vec<usize>;

        fn with<M: Map>(self, room: Room) -> Vec<usize> {
            all(&M::open(room), 2, 20_000).1
        }
    }

    #[test]
    fn readers_find_most_values() {
        for side in SIDES {
            let room = Room { owners: 2, values: VALUES + 64, words: WORDS };
            let done = side.with::<super::super::Words, _>(room, Tried);
            assert!(done[1] > 18_000, "{side:?}: {done:?}");
        }
    }
}
