//! The sides that are measured, and one turn of each.
use crate::changing;
use crate::ours::{self, Programs};
use crate::rival::Rival;
use crate::rivals::{with_rival, Room, Task};
use crate::row::Row;
use crate::turning;
use crate::waiting::{Watch, MOST};
use crate::workload::Workload;
use crate::workloads;

/// The sides, of which the first is the library.
#[derive(Clone, Copy, Debug, PartialEq, Eq)]
pub enum Side {
    Ours,
    Sharded,
    MutexSlab,
    Dash,
    MutexSlotMap,
    RwSlotMap,
    Model,
    /// The model, with plain stores of a value's words. Of what it changes it is the floor.
    PlainStores,
}

pub const SIDES: [Side; 8] = [
    Side::Ours,
    Side::Sharded,
    Side::MutexSlab,
    Side::Dash,
    Side::MutexSlotMap,
    Side::RwSlotMap,
    Side::Model,
    Side::PlainStores,
];

/// The sides beside which the library is measured.
pub const RIVALS: [Side; 7] =
    [Side::Sharded, Side::MutexSlab, Side::Dash, Side::MutexSlotMap, Side::RwSlotMap, Side::Model, Side::PlainStores];

// How often a turn is tried in which threads waited for a processor.
const TRIES: usize = 4;

// In a batch, or on their way in a ring, there are fewer values than this.
const BESIDES: usize = 5000;

struct Measures<'a>(&'a Row);

impl Task for Measures<'_> {
    type Answer = f64;

    fn with<H: Rival>(self, open: impl FnOnce() -> H) -> f64 {
        workloads::measure(&open(), self.0)
    }
}

impl Side {
    /// Its name in the head of a table.
    pub fn name(self) -> &'static str {
        match self {
            Side::Ours => "ours",
            Side::Sharded => "`sharded_slab`",
            Side::MutexSlab => "`Mutex` and `slab`",
            Side::Dash => "`DashMap` of `Arc`",
            Side::MutexSlotMap => "`Mutex` and `SlotMap`",
            Side::RwSlotMap => "`RwLock` and `SlotMap`",
            Side::Model => "bare atomics",
            Side::PlainStores => "plain stores",
        }
    }

    /// The rival of this name.
    pub fn of_name(name: &str) -> Option<Self> {
        RIVALS.into_iter().find(|side| side.name() == name)
    }

    // Whether it is a map behind a lock. Large rows leave these out.
    fn is_locked(self) -> bool {
        matches!(self, Side::MutexSlab | Side::MutexSlotMap | Side::RwSlotMap)
    }

    // Whether its threads may sleep until another one wakes them. The kernel counts the moments of waking as waiting,
    // so it does not show whether they ran at once.
    fn sleeps(self) -> bool {
        self.is_locked() || self == Side::Dash
    }

    /// Whether it has the workload of the row.
    pub fn has(self, row: &Row) -> bool {
        match (self, row.workload.changes_hands()) {
            (Side::Ours, _) => true,
            (Side::Model, true) => true,
            (_, true) => false,
            (Side::PlainStores, false) if !row.workload.inserts() => false,
            (_, false) if row.is_large() && self.is_locked() => row.workload.looks(),
            (_, false) => row.passes == 1 && row.workload != Workload::Heed,
        }
    }

    /// The nanoseconds of one operation of a rival, in this process; nothing if it has no such workload.
    pub fn turn_here(self, row: &Row) -> Option<f64> {
        let room = Room { shards: row.threads, values: row.most() + BESIDES, lengths: row.lengths };
        match (self.has(row), row.workload.changes_hands()) {
            (false, _) => None,
            (true, true) => Some(changing::measure(row)),
            (true, false) => with_rival(self, &room, Measures(row)),
        }
    }

    // The nanoseconds of one operation, in one turn, which is a process of its own.
    fn once(self, programs: &Programs<'_>, row: &Row) -> Result<f64, String> {
        match self {
            Side::Ours => ours::measure(programs, row),
            _ => turning::measure(self, row),
        }
    }

    /// The nanoseconds of one operation in a turn. Nothing if the side has no such workload, or if the row has several
    /// threads and in no turn of some tries all of them ran at once. Of a side that sleeps each turn counts.
    pub fn turn(self, programs: &Programs<'_>, row: &Row) -> Result<Option<f64>, String> {
        if !self.has(row) {
            return Ok(None);
        }
        for _try in 0..TRIES {
            let watch = Watch::start();
            let time = self.once(programs, row)?;
            if row.running() == 1 || self.sleeps() || watch.share().is_none_or(|share| share <= MOST) {
                return Ok(Some(time));
            }
        }
        Ok(None)
    }
}

#[cfg(test)]
mod tests {
    use super::*;

    #[test]
    fn passes_receipts_and_owners_that_change_are_asked_of_those_alone_that_have_them() {
        let with = |row: Row| RIVALS.map(|side| side.turn_here(&row).is_some());
        assert_eq!(with(Row::new(Workload::Insert, 1, 10)), [true; 7]);
        assert_eq!(with(Row::new(Workload::Get, 1, 10)), [true, true, true, true, true, true, false]);
        assert_eq!(with(Row::new(Workload::Get, 1, 10).passes(2)), [false; 7]);
        assert_eq!(with(Row::new(Workload::Heed, 1, 10)), [false; 7]);
        assert_eq!(with(Row::new(Workload::Adopt, 1, 10)), [false, false, false, false, false, true, false]);
        assert_eq!(with(Row::new(Workload::Get, 1, 10).deep()), [true, false, true, false, false, true, false]);
        assert_eq!(with(Row::new(Workload::Look, 1, 10).deep()), [true, true, true, true, true, true, false]);
    }

    #[test]
    fn the_library_is_the_first_side_and_the_others_are_its_rivals() {
        assert_eq!(SIDES[0], Side::Ours);
        assert_eq!(SIDES[1..], RIVALS);
    }
}
