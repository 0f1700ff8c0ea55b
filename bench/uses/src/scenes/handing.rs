//! Threads take turns as the owner of one shard. In a map without owners the thread whose turn it is uses the map.
use super::WORDS;
use crate::map::{Caller, Map};
use crate::together::{together, Spent};
use std::hint::spin_loop;
use std::sync::atomic::{AtomicU64, AtomicUsize, Ordering::Acquire, Ordering::Relaxed, Ordering::Release};

/// How many values there are.
pub const VALUES: usize = 1000;
// How many values a thread replaces in its turn.
const REPLACED: usize = 16;
/// How many turns the threads have in all.
pub const TURNS: usize = 20_000;

struct Table {
    keys: Vec<AtomicU64>,
    // The number of the turn, after which the next thread has it.
    turn: AtomicUsize,
}

impl Table {
    fn fill(&self, caller: &mut impl Caller) {
        self.keys.iter().for_each(|place| place.store(caller.insert(&[0; WORDS]), Relaxed));
    }

    fn replace(&self, caller: &mut impl Caller, turn: usize) {
        for number in turn * REPLACED..(turn + 1) * REPLACED {
            let place = &self.keys[number % VALUES];
            assert!(caller.remove(place.load(Relaxed)));
            place.store(caller.insert(&[number as u64; WORDS]), Relaxed);
        }
    }

    fn wait(&self, turn: usize) {
        while self.turn.load(Acquire) != turn {
            spin_loop();
        }
    }
}

/// What the turns took in all, and how many there were.
pub fn run<M: Map>(map: &M, threads: usize, turns: usize) -> (Spent, usize) {
    let keys = (0..VALUES).map(|_| AtomicU64::new(0)).collect();
    let table = Table { keys, turn: AtomicUsize::new(0) };
    let mut first = map.begin(map.idle(), 0);
    table.fill(&mut first);
    map.end(first);
    let job = |number: usize, start: &crate::together::Start| {
        let mut idle = map.idle();
        let timer = start.pass(number);
        for turn in (number..turns).step_by(threads) {
            table.wait(turn);
            let mut caller = map.begin(idle, 0);
            table.replace(&mut caller, turn);
            idle = map.end(caller);
            table.turn.store(turn + 1, Release);
        }
        (timer.stop(), ())
    };
    (together(threads, job).0, turns)
}

#[cfg(test)]
mod tests {
    use super::*;
    use crate::map::Room;
    use crate::maps::{Task, SIDES};

    struct Tried;

    impl Task for Tried {
        type Answer = usize;

        fn with<M: Map>(self, room: Room) -> usize {
            run(&M::open(room), 2, 500).1
        }
    }

    #[test]
    fn all_turns_are_had() {
        for side in SIDES {
            let room = Room { owners: 1, values: VALUES + 64, words: WORDS };
            assert_eq!(side.with::<super::super::Words, _>(room, Tried), 500, "{side:?}");
        }
    }
}
