//! Which rivals there are in this program, and how each is opened.
use crate::dash::Dash;
use crate::model::{pages_for, Words};
use crate::mutex_slab::MutexSlab;
use crate::mutex_slot_map::MutexSlotMap;
use crate::payload::{Payload, UpTo16};
use crate::rival::Rival;
use crate::rw_slot_map::RwSlotMap;
use crate::samples::Lengths;
use crate::sharded::Sharded;
use crate::sides::Side;

/// What a rival is opened for. Only the model has its room from the start.
#[derive(Clone, Copy)]
pub struct Room {
    pub shards: usize,
    /// How many values each shard has room for.
    pub values: usize,
    pub lengths: Lengths,
}

/// What is done with a rival, whichever it is.
pub trait Task {
    type Answer;

    fn with<H: Rival>(self, open: impl FnOnce() -> H) -> Self::Answer;
}

fn words_for<const PLAIN: bool>(room: &Room) -> Words<PLAIN> {
    let pages = match room.lengths {
        Lengths::Each(len) => pages_for(len..=len, room.values),
        Lengths::Mixed => pages_for(1..=16, room.values),
    };
    Words::new(room.shards, pages)
}

fn with_values<V: Payload, T: Task>(side: Side, room: &Room, task: T) -> Option<T::Answer> {
    match side {
        Side::Ours => None,
        Side::Sharded => Some(task.with(Sharded::<V>::new)),
        Side::MutexSlab => Some(task.with(MutexSlab::<V>::new)),
        Side::Dash => Some(task.with(Dash::<V>::new)),
        Side::MutexSlotMap => Some(task.with(MutexSlotMap::<V>::new)),
        Side::RwSlotMap => Some(task.with(RwSlotMap::<V>::new)),
        Side::Model => Some(task.with(|| words_for::<false>(room))),
        Side::PlainStores => Some(task.with(|| words_for::<true>(room))),
    }
}

/// Does the task with the rival of a side; nothing if the side is the library, which runs as another program.
pub fn with_rival<T: Task>(side: Side, room: &Room, task: T) -> Option<T::Answer> {
    match room.lengths {
        Lengths::Each(1) => with_values::<[u64; 1], T>(side, room, task),
        Lengths::Each(16) => with_values::<[u64; 16], T>(side, room, task),
        _ => with_values::<UpTo16, T>(side, room, task),
    }
}

#[cfg(test)]
mod tests {
    use super::*;
    use crate::samples::Samples;
    use crate::sides::RIVALS;

    // Stores as many values as there are samples, reads each, and removes every second one.
    struct StoresAndRemoves(Lengths);

    impl Task for StoresAndRemoves {
        type Answer = ();

        fn with<H: Rival>(self, open: impl FnOnce() -> H) {
            let (rival, samples) = (open(), Samples::new(self.0));
            let mut owner = rival.owner(0);
            let keys: Vec<u64> = (0..16).map(|place| rival.insert(&mut owner, samples.at(place))).collect();
            for (place, key) in keys.iter().enumerate() {
                assert_eq!(rival.read(*key), samples.at(place).iter().sum());
                assert_eq!(rival.look(*key), samples.at(place).iter().sum());
                match place % 4 {
                    0 => rival.remove_own(&mut owner, *key),
                    1 => rival.remove(*key),
                    _ => (),
                }
                assert_eq!(rival.hold(*key), place % 4 > 1);
            }
        }
    }

    #[test]
    fn each_rival_has_what_was_stored_until_it_is_removed() {
        for lengths in [Lengths::Each(1), Lengths::Each(16), Lengths::Mixed] {
            for side in RIVALS {
                let room = Room { shards: 1, values: 16, lengths };
                assert!(with_rival(side, &room, StoresAndRemoves(lengths)).is_some());
            }
        }
    }
}
