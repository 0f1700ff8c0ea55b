//! The time of callers that come and go: a first insert of a fresh caller, a take and drop, and requests that each have a
//! caller of their own. A pass of a plain heap adopts a shard before it inserts.
use super::maps::{caller, stored, HasPass, Inserts, MOST_CHUNKS, PASSES};
use crate::dice::Dice;
use crate::times::Times;
use crate::together::{together, Spent, Start};
use gearlongan::{Caller, Growing, Heap, Key, Layout, Pass, Room, Shard};
use std::hint::black_box;
use std::time::Instant;

/// How many values there are, beside one caller at a time, and beside those of several threads.
pub const VALUES: [u64; 3] = [10_000, 100_000, 1_000_000];
pub const SHARED_VALUES: u64 = 300_000;
/// The threads that make requests, and how many each makes.
pub const THREADS: usize = 4;
const REQUESTS: usize = 1000;
// How many fresh callers insert, and how often a caller is taken that does nothing.
const FRESH: usize = 21;
const TAKES: usize = 1000;

/// A heap that grows, or a plain one with room for the values.
#[derive(Clone, Copy, Debug, PartialEq, Eq)]
pub enum Side {
    Growing,
    Plain,
}

pub const SIDES: [Side; 2] = [Side::Growing, Side::Plain];

impl Side {
    pub fn name(self) -> &'static str {
        match self {
            Side::Growing => "growing heap",
            Side::Plain => "plain heap",
        }
    }

    /// The side of this name.
    pub fn of_name(name: &str) -> Option<Side> {
        SIDES.into_iter().find(|side| side.name() == name)
    }
}

trait Opened: Sync + Sized {
    type Taken: HasPass;
    type Owner: Inserts;

    /// A heap for this many owners, of which each inserts as many values.
    fn open(owners: u32, each: u64) -> Self;

    fn take(&self) -> Self::Taken;

    /// What inserts: the owner of this shard, if the heap has owners.
    fn owner(taken: Self::Taken, shard: u32) -> Self::Owner;
}

fn of_one_word(owners: u32, values: u64) -> Room {
    Room { owners, values, words: 1, passes: PASSES }
}

impl Opened for Growing {
    type Taken = Caller;
    type Owner = Caller;

    // The first chunk has one segment for each owner.
    fn open(owners: u32, _each: u64) -> Self {
        Heap::growing(of_one_word(owners, 1), MOST_CHUNKS).expect("there is memory")
    }

    fn take(&self) -> Caller {
        caller(self)
    }

    fn owner(taken: Caller, _shard: u32) -> Caller {
        taken
    }
}

impl Opened for Heap {
    type Taken = Pass;
    type Owner = Shard;

    fn open(owners: u32, each: u64) -> Self {
        Heap::open_for(Layout::Deep, of_one_word(owners, each + 1)).expect("there is memory")
    }

    fn take(&self) -> Pass {
        Heap::take(self).expect("a pass is at home")
    }

    fn owner(taken: Pass, shard: u32) -> Shard {
        taken.adopt(shard).expect("nobody has the shard")
    }
}

// A heap with this many values, whose owners have gone, and the keys.
fn filled<H: Opened>(owners: u32, values: u64) -> (H, Vec<u64>) {
    let each = values / u64::from(owners);
    let (heap, mut keys) = (H::open(owners, each), Vec::new());
    for shard in 0..owners {
        let owner = H::owner(heap.take(), shard);
        keys.extend((0..each).map(|value| stored(&owner, &[value])));
    }
    (heap, keys)
}

fn remove(owner: &impl HasPass, key: u64) {
    owner.pass().remove(Key::from(key)).expect("the key is there");
}

// The nanoseconds of the first insert of one that was taken just now.
fn first_insert<H: Opened>(heap: &H) -> f64 {
    let taken = heap.take();
    let start = Instant::now();
    let owner = H::owner(taken, 0);
    let key = stored(&owner, &[7]);
    let time = start.elapsed();
    remove(&owner, key);
    time.as_nanos() as f64
}

// The nanoseconds of a take and a drop.
fn take_and_drop<H: Opened>(heap: &H) -> f64 {
    drop(heap.take());
    let start = Instant::now();
    (0..TAKES).for_each(|_| drop(black_box(heap.take())));
    start.elapsed().as_nanos() as f64 / TAKES as f64
}

/// The nanoseconds of a first insert, of fresh callers the median, and of a take and drop.
#[derive(Clone, Copy, Debug)]
pub struct Begun {
    pub insert: f64,
    pub take: f64,
}

fn begun<H: Opened>(values: u64) -> Begun {
    let (heap, _keys) = filled::<H>(1, values);
    let inserts = Times::of((0..FRESH).map(|_| first_insert(&heap)).collect());
    Begun { insert: inserts.map_or(0.0, |times| times.median), take: take_and_drop(&heap) }
}

/// What it takes to begin beside this many values.
pub fn beside(side: Side, values: u64) -> Begun {
    match side {
        Side::Growing => begun::<Growing>(values),
        Side::Plain => begun::<Heap>(values),
    }
}

// A request loads a value, inserts one and removes it.
fn request<H: Opened>(heap: &H, shard: u32, key: u64) {
    let taken = heap.take();
    black_box(taken.pass().load(Key::from(key)).expect("the key is there"));
    let owner = H::owner(taken, shard);
    let key = stored(&owner, &[7]);
    remove(&owner, key);
}

fn spent<H: Opened>(values: u64, requests: usize) -> Spent {
    let (heap, keys) = &filled::<H>(THREADS as u32, values);
    let job = |number, start: &Start| {
        let mut dice = Dice::new(number);
        let timer = start.pass(number);
        (0..requests).for_each(|_| request(heap, number as u32, keys[dice.below(keys.len())]));
        (timer.stop(), ())
    };
    together(THREADS, job).0
}

/// The nanoseconds of a request, if each takes a caller of its own.
pub fn requests(side: Side) -> f64 {
    let spent = match side {
        Side::Growing => spent::<Growing>(SHARED_VALUES, REQUESTS),
        Side::Plain => spent::<Heap>(SHARED_VALUES, REQUESTS),
    };
    spent.nanoseconds(REQUESTS)
}

#[cfg(test)]
mod tests {
    use super::*;

    #[test]
    fn each_side_begins() {
        for side in SIDES {
            let Begun { insert, take } = beside(side, 1000);
            assert!(insert > 0.0 && take > 0.0);
            assert_eq!(Side::of_name(side.name()), Some(side));
        }
    }

    fn requests_leave_the_values<H: Opened>() {
        let (heap, keys) = filled::<H>(2, 1000);
        (0..10).for_each(|n| request(&heap, n % 2, keys[n as usize]));
        let taken = heap.take();
        let word = |key: &u64| taken.pass().load(Key::from(*key)).map(|value| value[0]);
        assert!(keys.iter().zip((0..500).cycle()).all(|(key, wanted)| word(key) == Ok(wanted)));
        assert_eq!(taken.pass().walk().count(), keys.len());
    }

    #[test]
    fn a_request_leaves_the_values() {
        requests_leave_the_values::<Growing>();
        requests_leave_the_values::<Heap>();
    }

    #[test]
    fn threads_make_requests_at_once() {
        assert!(spent::<Growing>(4000, 5).nanoseconds(5) > 0.0);
        assert!(spent::<Heap>(4000, 5).nanoseconds(5) > 0.0);
    }
}
