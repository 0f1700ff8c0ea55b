//! How the memory of a process grows while one thread replaces values by others of another length, over and over.
use crate::dice::Dice;
use crate::map::{Caller, Map, Room};
use crate::maps::{Side, Task};
use crate::payload::UpTo16;
use std::fs;

/// How many values there are.
pub const VALUES: usize = 20_000;
/// After how many rounds the memory is looked at. A round replaces as many values as there are.
pub const ROUNDS: [usize; 4] = [0, 1, 10, 200];
const WORDS: usize = 16;

/// The bytes of this process that are in memory.
pub fn resident() -> usize {
    let pages = fs::read_to_string("/proc/self/statm").unwrap_or_default();
    pages.split_whitespace().nth(1).and_then(|pages| pages.parse::<usize>().ok()).unwrap_or(0) * 4096
}

struct Churn;

fn insert(caller: &mut impl Caller, dice: &mut Dice) -> u64 {
    let words = [dice.next(); WORDS];
    caller.insert(&words[..1 + dice.below(WORDS)])
}

impl Task for Churn {
    type Answer = [usize; ROUNDS.len()];

    fn with<M: Map>(self, room: Room) -> Self::Answer {
        let (before, mut dice) = (resident(), Dice::new(0));
        let map = M::open(room);
        let mut caller = map.caller(0);
        let mut keys: Vec<u64> = (0..VALUES).map(|_| insert(&mut caller, &mut dice)).collect();
        let mut done = 0;
        ROUNDS.map(|rounds| {
            for _ in 0..(rounds - done) * VALUES {
                let place = dice.below(VALUES);
                assert!(caller.remove(keys[place]));
                keys[place] = insert(&mut caller, &mut dice);
            }
            done = rounds;
            resident().saturating_sub(before)
        })
    }
}

/// The bytes of the process for each value, beyond those at its start, after each of the `ROUNDS`.
pub fn memory(side: Side) -> [f64; ROUNDS.len()] {
    // The heap takes its room as it opens: for as many values of 16 words.
    let room = Room { owners: 1, values: VALUES, words: WORDS };
    side.with::<UpTo16, _>(room, Churn).map(|bytes| bytes as f64 / VALUES as f64)
}
