//! The uses.
mod batches;
mod churned;
mod handing;
mod memory;
mod session;

pub use memory::{memory, resident, ROUNDS};

use crate::map::{Map, Room};
use crate::maps::{Side, Task};
use crate::probe::Clock;
use crate::together::Spent;

/// How many words a value has, except where lengths are mixed.
const WORDS: usize = 4;
type Words = [u64; WORDS];

/// A use, with the numbers that it has.
#[derive(Clone, Copy, Debug, PartialEq, Eq)]
pub enum Scene {
    /// Threads share a table of sessions. Each reads any session by Zipf's law, or replaces one of its own; this many
    /// percent are reads.
    Session(usize),
    /// Producers insert values in batches, and consumers read and remove them.
    Batches,
    /// One thread replaces values, and the others read them.
    Churned,
    /// Threads take turns as the owner of one shard, and each replaces 16 values in its turn.
    Handing,
}

/// A scene in this many threads.
#[derive(Clone, Copy, Debug, PartialEq, Eq)]
pub struct Row {
    pub scene: Scene,
    pub threads: usize,
}

/// The rows of the table.
pub fn rows() -> Vec<Row> {
    let of = |scene, threads: &[usize]| threads.iter().map(|n| Row { scene, threads: *n }).collect::<Vec<_>>();
    let sessions = [99, 90, 50].map(|reads| of(Scene::Session(reads), &[1, 2, 4])).concat();
    [sessions, of(Scene::Batches, &[2, 4]), of(Scene::Churned, &[2, 4]), of(Scene::Handing, &[2])].concat()
}

impl Scene {
    /// What the row is, in words.
    pub fn title(self) -> String {
        match self {
            Scene::Session(reads) => format!("table of 100,000 sessions, {reads} % reads"),
            Scene::Batches => "producers and consumers, batches of 64 values".to_string(),
            Scene::Churned => "reads while one owner replaces 10,000 values".to_string(),
            Scene::Handing => "a shard is handed over, 16 values replaced".to_string(),
        }
    }
}

/// One turn of a row: the nanoseconds of one operation, and whether threads waited.
struct Turn(Row);

impl Task for Turn {
    type Answer = (f64, Spent);

    fn with<M: Map>(self, room: Room) -> (f64, Spent) {
        let (map, threads) = (&M::open(room), self.0.threads);
        let (spent, operations) = match self.0.scene {
            Scene::Session(reads) => session::run(map, threads, reads, session::OPERATIONS),
            Scene::Batches => batches::run(map, threads, batches::COUNT),
            Scene::Churned => churned::run(map, threads, churned::READS),
            Scene::Handing => handing::run(map, threads, handing::TURNS),
        };
        (spent.nanoseconds(operations), spent)
    }
}

fn room(row: Row) -> Room {
    let (owners, values) = match row.scene {
        Scene::Session(_) => (row.threads, session::VALUES / row.threads + 64),
        Scene::Batches => (row.threads, batches::MOST),
        Scene::Churned => (row.threads, churned::VALUES + 64),
        Scene::Handing => (1, handing::VALUES + 64),
    };
    Room { owners, values, words: WORDS }
}

/// The nanoseconds of one operation in a turn of this side, and what the turn took.
pub fn turn(side: Side, row: Row) -> (f64, Spent) {
    side.with::<Words, _>(room(row), Turn(row))
}

/// The times of each call of a session table with 90 % reads.
struct Latency(usize);

impl Task for Latency {
    type Answer = (Clock, Spent);

    fn with<M: Map>(self, room: Room) -> (Clock, Spent) {
        session::latency(&M::open(room), self.0, session::OPERATIONS)
    }
}

/// The times of each call of this side in this many threads.
pub fn latency(side: Side, threads: usize) -> (Clock, Spent) {
    side.with::<Words, _>(room(Row { scene: Scene::Session(90), threads }), Latency(threads))
}

#[cfg(test)]
mod tests {
    use super::*;
    use std::collections::HashSet;

    #[test]
    fn no_row_is_there_twice() {
        let titles: HashSet<(String, usize)> = rows().iter().map(|row| (row.scene.title(), row.threads)).collect();
        assert_eq!((titles.len(), rows().len()), (14, 14));
    }
}
