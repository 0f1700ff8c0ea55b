//! Threads that put keys on a common board, and load and remove by keys that they find there. Each also remembers keys
//! of its own, as a client does that comes back late.
use crate::caller::Caller;
use crate::dice::Dice;
use std::sync::atomic::{AtomicU64, Ordering::SeqCst};
use std::thread;

/// Few, so that slots are used again soon.
const PLACES: u64 = 2;
/// One of this number of inserts is remembered, up to `MOST_REMEMBERED`.
const REMEMBERED: u64 = 64;
const MOST_REMEMBERED: usize = 4096;

/// Keys that all threads see. A place has 0, or a key and 1.
#[derive(Debug, Default)]
struct Board {
    places: [AtomicU64; PLACES as usize],
}

fn key_at(place: u64) -> Option<u64> {
    place.checked_sub(1)
}

/// A key, and the value that was inserted under it.
#[derive(Clone, Copy, Debug)]
struct Remembered {
    key: u64,
    value: u64,
}

/// What a thread counted.
#[derive(Debug, Default)]
struct Counts {
    /// Loads by a remembered key.
    by_remembered: u64,
    /// Those of them that returned another value than was inserted.
    of_another: u64,
}

struct Worker<'a, C> {
    caller: C,
    number: usize,
    board: &'a Board,
    dice: Dice,
    inserts: u64,
    remembered: Vec<Remembered>,
    counts: Counts,
}

impl<C: Caller> Worker<'_, C> {
    fn place(&mut self) -> &AtomicU64 {
        &self.board.places[self.dice.below(PLACES) as usize]
    }

    // Inserts a value, puts its key onto the board, and removes the value whose key was there.
    fn replace(&mut self) {
        self.inserts += 1;
        let value = (self.number as u64) << 48 | self.inserts;
        let key = self.caller.insert(value);
        if self.inserts % REMEMBERED == 0 && self.remembered.len() < MOST_REMEMBERED {
            self.remembered.push(Remembered { key, value });
        }
        let old = self.place().swap(key + 1, SeqCst);
        if let Some(old) = key_at(old) {
            self.caller.remove(old);
        }
    }

    fn remove(&mut self) {
        let found = self.place().load(SeqCst);
        if let Some(key) = key_at(found) {
            self.caller.remove(key);
        }
    }

    fn load(&mut self) {
        let found = self.place().load(SeqCst);
        if let Some(key) = key_at(found) {
            self.caller.load(key);
        }
    }

    fn load_remembered(&mut self) {
        if self.remembered.is_empty() {
            return;
        }
        let Remembered { key, value } = self.remembered[self.dice.below(self.remembered.len() as u64) as usize];
        self.counts.by_remembered += 1;
        self.counts.of_another += u64::from(self.caller.load(key).is_some_and(|found| found != value));
    }

    fn work(mut self, operations: u64) -> Counts {
        for _ in 0..operations {
            match self.dice.below(100) {
                0..=49 => self.replace(),
                50..=54 => self.remove(),
                55..=69 => self.load(),
                _ => self.load_remembered(),
            }
        }
        self.counts
    }
}

pub fn play<C: Caller>(callers: Vec<C>, operations: u64) -> String {
    let board = Board::default();
    let counts = thread::scope(|scope| {
        let works = |(number, caller)| {
            let dice = Dice::of(number);
            let worker = Worker {
                caller,
                number,
                board: &board,
                dice,
                inserts: 0,
                remembered: Vec::new(),
                counts: Counts::default(),
            };
            scope.spawn(move || worker.work(operations))
        };
        let threads: Vec<_> = callers.into_iter().enumerate().map(works).collect();
        threads.into_iter().map(|it| it.join().expect("the thread ends well")).collect::<Vec<Counts>>()
    });
    let all = |count: fn(&Counts) -> u64| counts.iter().map(count).sum::<u64>();
    format!(
        "; {} of {} loads by a remembered key returned another value\n",
        all(|counts| counts.of_another),
        all(|counts| counts.by_remembered)
    )
}
