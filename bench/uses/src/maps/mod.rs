//! The maps, and how each is opened.
mod epoch;
mod heap;
mod slabs;
mod table;
mod tables;

use crate::map::{Map, Room};
use crate::payload::Payload;
use std::marker::PhantomData;
use table::Stored;

/// The maps by their names in the tables. The first is the heap itself.
#[derive(Clone, Copy, Debug, PartialEq, Eq)]
pub enum Side {
    Heap,
    Table,
    Slab,
    Pool,
    Sharded,
    ShardedPool,
    Dash,
    StdHash,
    ParkingHash,
    Epoch,
}

pub const SIDES: [Side; 10] = [
    Side::Heap,
    Side::Table,
    Side::Slab,
    Side::Pool,
    Side::Sharded,
    Side::ShardedPool,
    Side::Dash,
    Side::StdHash,
    Side::ParkingHash,
    Side::Epoch,
];

/// What is done with a map, whichever it is.
pub trait Task {
    type Answer;

    fn with<M: Map>(self, room: Room) -> Self::Answer;
}

impl Side {
    pub fn name(self) -> &'static str {
        match self {
            Side::Heap => "the heap from Rust",
            Side::Table => "`gearlongan::Table`",
            Side::Slab => "`gearlongan::slab::Slab`",
            Side::Pool => "`gearlongan::slab::Pool`",
            Side::Sharded => "`sharded_slab::Slab`",
            Side::ShardedPool => "`sharded_slab::Pool`",
            Side::Dash => "`DashMap`",
            Side::StdHash => "`RwLock<HashMap>`",
            Side::ParkingHash => "`parking_lot`",
            Side::Epoch => "`crossbeam-epoch`",
        }
    }

    /// Whether its threads may sleep until another one wakes them. The kernel counts the moments of waking as waiting,
    /// so it does not show whether they ran at once.
    pub fn sleeps(self) -> bool {
        matches!(self, Side::Dash | Side::StdHash | Side::ParkingHash)
    }

    /// The side of this name.
    pub fn of_name(name: &str) -> Option<Side> {
        SIDES.into_iter().find(|side| side.name() == name)
    }

    /// Does the task with the map of this side, for values of type `V`.
    pub fn with<V: Stored, T: Task>(self, room: Room, task: T) -> T::Answer {
        match self {
            Side::Heap => task.with::<heap::OfHeap>(room),
            Side::Table => task.with::<table::Table<V>>(room),
            Side::Slab => task.with::<slabs::own::Slab<V>>(room),
            Side::Pool => task.with::<slabs::own::Pool<V>>(room),
            Side::Sharded => task.with::<slabs::peer::Slab<V>>(room),
            Side::ShardedPool => task.with::<slabs::peer::Pool<V>>(room),
            Side::Dash => task.with::<tables::Dash<V>>(room),
            Side::StdHash => task.with::<tables::StdHash<V>>(room),
            Side::ParkingHash => task.with::<tables::ParkingHash<V>>(room),
            Side::Epoch => task.with::<epoch::Slots<V>>(room),
        }
    }
}

/// A value of a pool, which is nothing once it is cleared.
pub struct Pooled<V>(Option<V>);

impl<V> Default for Pooled<V> {
    fn default() -> Self {
        Pooled(None)
    }
}

impl<V: Payload> Pooled<V> {
    fn set(&mut self, words: &[u64]) {
        self.0 = Some(V::of(words));
    }

    fn sum(&self) -> u64 {
        self.0.as_ref().map_or(0, Payload::sum)
    }
}

/// A map without owners as a map with them: threads share a reference to it.
pub struct Shared<'a, M>(&'a M, PhantomData<M>);

impl<'a, M> Shared<'a, M> {
    fn of(map: &'a M) -> Self {
        Shared(map, PhantomData)
    }
}

/// The methods of a map without owners: a caller is what the threads share.
macro_rules! without_owners {
    () => {
        type Caller<'a>
            = crate::maps::Shared<'a, Self>
        where
            Self: 'a;
        type Idle<'a>
            = ()
        where
            Self: 'a;

        fn idle(&self) {}

        fn begin<'a>(&'a self, _idle: (), _shard: usize) -> Self::Caller<'a> {
            crate::maps::Shared::of(self)
        }

        fn end<'a>(&'a self, _caller: Self::Caller<'a>) {}
    };
}
use without_owners;

#[cfg(test)]
mod tests {
    use super::*;
    use crate::map::Caller;
    use crate::payload::UpTo16;

    // Stores, reads and removes values, also by another caller.
    struct StoresAndRemoves;

    impl Task for StoresAndRemoves {
        type Answer = ();

        fn with<M: Map>(self, room: Room) {
            let map = M::open(room);
            let (mut one, mut other) = (map.caller(0), map.caller(1));
            let keys: Vec<u64> = (1..=100u64).map(|n| one.insert(&[n, 1, 2, 3][..1 + n as usize % 4])).collect();
            let sums = [1, 2, 4, 7].map(|more| more - 1);
            for (n, key) in (1..=100u64).zip(&keys) {
                assert_eq!(one.read(*key), Some(n + sums[n as usize % 4]));
            }
            assert!(keys[..50].iter().all(|key| other.remove(*key)));
            assert!(keys[50..].iter().all(|key| one.remove(*key)));
            assert!(keys.iter().all(|key| one.read(*key).is_none() && other.read(*key).is_none()));
            let again = other.insert(&[5]);
            assert_eq!(one.read(again), Some(5));
        }
    }

    #[test]
    fn each_map_has_what_was_stored_until_it_is_removed() {
        for side in SIDES {
            side.with::<UpTo16, _>(Room { owners: 2, values: 200, words: 4 }, StoresAndRemoves);
        }
    }

    // A thread has the map, and then the next one, which finds what the first one stored.
    struct TakesTurns;

    impl Task for TakesTurns {
        type Answer = ();

        fn with<M: Map>(self, room: Room) {
            let map = M::open(room);
            let mut first = map.begin(map.idle(), 0);
            let key = first.insert(&[7, 8]);
            map.end(first);
            let mut second = map.begin(map.idle(), 0);
            assert_eq!(second.read(key), Some(15));
            assert!(second.remove(key) && second.read(key).is_none());
        }
    }

    #[test]
    fn a_shard_is_handed_over() {
        for side in SIDES {
            side.with::<[u64; 2], _>(Room { owners: 1, values: 20, words: 2 }, TakesTurns);
        }
    }

    #[test]
    fn names_are_those_of_sides() {
        assert!(SIDES.into_iter().all(|side| Side::of_name(side.name()) == Some(side)));
        assert_eq!(Side::of_name("nothing"), None);
    }
}
