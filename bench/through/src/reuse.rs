//! Whether the key of a removed value finds another one, and whether two callers both remove one value: two attempts on
//! the heap, by the crate for Rust. `bench reuse` makes the same two on `sharded_slab`.
use gearlongan::{Error, Heap, Key, Layout, Pass, Shape, Shard};
use std::collections::HashSet;
use std::fmt::{self, Display};
use std::thread;
use std::time::{Duration, Instant};

/// The first attempt has this many inserts. A page has 48 slots for values of one word, so each is used again more than
/// 200,000 times.
const INSERTS: u64 = 10_000_000;

/// The keys of one slot of layout `Wide` have these many low bits in common: 8 of the shard, 10 of the page and 6 of
/// the slot.
const PLACE_BITS: u32 = 24;

/// An old key that was looked up after each of many inserts.
#[derive(Debug)]
struct Stale {
    inserts: u64,
    /// How many of the inserts were into the slot of the old key.
    into_its_slot: u64,
    /// Whether the old key found a value.
    is_found: bool,
    time: Duration,
}

/// A heap of layout `Tiny`, of one segment, in which values of one word are inserted and removed until it is full.
#[derive(Debug)]
struct WornOut {
    inserts: u64,
    /// How many different keys these had.
    keys: usize,
    /// Why the next insert was refused.
    refused: Error,
}

/// What the attempts showed.
#[derive(Debug)]
pub struct Reuse {
    stale: Stale,
    worn_out: WornOut,
    /// What `remove` returned to the first caller and to the second.
    removed: [Result<(), Error>; 2],
}

fn owner_of(heap: &Heap) -> Result<Shard, String> {
    let pass = heap.take().map_err(|error| error.to_string())?;
    pass.adopt(0).map_err(|refused| refused.to_string())
}

// A number with a comma before each three digits.
fn grouped(number: u64) -> String {
    match number {
        0..=999 => number.to_string(),
        _ => format!("{},{:03}", grouped(number / 1000), number % 1000),
    }
}

fn place(key: Key) -> u64 {
    u64::from(key) & ((1 << PLACE_BITS) - 1)
}

impl Stale {
    fn tried(inserts: u64) -> Result<Stale, String> {
        let heap = Heap::open(Layout::Wide, Shape { shards: 1, segments: 1, passes: 1 }).map_err(|e| e.to_string())?;
        let owner = owner_of(&heap)?;
        Self::by(&owner, inserts).map_err(|error| error.to_string())
    }

    // Removes a key, and looks it up after each further insert.
    fn by(owner: &Shard, inserts: u64) -> Result<Stale, Error> {
        let old = owner.insert(&[0])?;
        owner.remove(old)?;
        let (start, mut into_its_slot, mut is_found) = (Instant::now(), 0, false);
        for value in 1..=inserts {
            let key = owner.insert(&[value])?;
            into_its_slot += u64::from(place(key) == place(old));
            is_found |= owner.get(old).map(drop) != Err(Error::Gone);
            owner.remove(key)?;
        }
        Ok(Stale { inserts, into_its_slot, is_found, time: start.elapsed() })
    }
}

impl WornOut {
    fn tried() -> Result<WornOut, String> {
        let heap = Heap::open(Layout::Tiny, Shape { shards: 1, segments: 1, passes: 1 }).map_err(|e| e.to_string())?;
        let owner = owner_of(&heap)?;
        let (mut inserts, mut keys) = (0, HashSet::new());
        loop {
            let key = match owner.insert(&[inserts]) {
                Ok(key) => key,
                Err(refused) => return Ok(WornOut { inserts, keys: keys.len(), refused }),
            };
            owner.remove(key).map_err(|error| error.to_string())?;
            inserts += 1;
            keys.insert(key);
        }
    }
}

// What `remove` returns in a thread of its own.
fn removed_in_a_thread(pass: Pass, key: Key) -> Result<(), Error> {
    thread::spawn(move || pass.remove(key)).join().expect("the thread ends well")
}

// What two callers get that remove one value, first one and then the other, while this thread has a guard of it.
fn removed_twice() -> Result<[Result<(), Error>; 2], String> {
    let heap = Heap::open(Layout::Wide, Shape { shards: 1, segments: 1, passes: 3 }).map_err(|e| e.to_string())?;
    let owner = owner_of(&heap)?;
    let attempt = || {
        let key = owner.insert(&[7])?;
        let guard = owner.get(key)?;
        let removed = [removed_in_a_thread(heap.take()?, key), removed_in_a_thread(heap.take()?, key)];
        assert_eq!(*guard, [7]);
        Ok(removed)
    };
    attempt().map_err(|error: Error| error.to_string())
}

impl Reuse {
    /// Makes the attempts, which take some seconds.
    pub fn tried() -> Result<Reuse, String> {
        Ok(Reuse { stale: Stale::tried(INSERTS)?, worn_out: WornOut::tried()?, removed: removed_twice()? })
    }
}

fn returned(removed: &Result<(), Error>) -> String {
    match removed {
        Ok(()) => "Ok".to_string(),
        Err(error) => format!("Err({error:?})"),
    }
}

impl Display for Reuse {
    fn fmt(&self, out: &mut fmt::Formatter<'_>) -> fmt::Result {
        let Stale { inserts, into_its_slot, is_found, time } = &self.stale;
        let found = if *is_found { "another value" } else { "nothing" };
        writeln!(out, "the heap here, through its crate for Rust")?;
        writeln!(
            out,
            "  the key of a removed value: found {found} after {} inserts, each with a removal, of which {} were into \
             its slot ({:.2} s)",
            grouped(*inserts),
            grouped(*into_its_slot),
            time.as_secs_f64()
        )?;
        let WornOut { inserts, keys, refused } = &self.worn_out;
        writeln!(
            out,
            "  layout Tiny, whose slots have 3 keys each: {} inserts had {} different keys, and the next returned \
             Err({refused:?})",
            grouped(*inserts),
            grouped(*keys as u64)
        )?;
        let [first, second] = self.removed.each_ref().map(returned);
        write!(out, "  two callers remove one value while a guard is held: remove returned {first} and {second}")
    }
}

#[cfg(test)]
mod tests {
    use super::*;

    #[test]
    fn an_old_key_finds_nothing_though_its_slot_is_used_again() {
        let stale = Stale::tried(48 * 8192).expect("nothing is refused");
        assert!(!stale.is_found);
        assert!(stale.into_its_slot >= 8191, "{stale:?}");
    }

    // One segment is 8 pages of 48 slots, of which each serves for 3 values.
    #[test]
    fn a_heap_whose_keys_are_all_used_is_full() {
        let worn_out = WornOut::tried().expect("nothing else is refused");
        assert_eq!((worn_out.inserts, worn_out.keys, worn_out.refused), (8 * 48 * 3, 8 * 48 * 3, Error::Full));
    }

    #[test]
    fn one_of_two_callers_removes() {
        assert_eq!(removed_twice(), Ok([Ok(()), Err(Error::Gone)]));
    }
}
