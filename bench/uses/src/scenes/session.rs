//! A table of sessions: threads read any of them, and replace their own.
use super::{Words, WORDS};
use crate::dice::{zipf, Dice};
use crate::map::{Caller, Map};
use crate::probe::{Blind, Call, Clock, Probe};
use crate::together::{together, Spent};
use std::hint::black_box;
use std::sync::atomic::{AtomicU64, Ordering::Acquire, Ordering::Relaxed, Ordering::Release};

/// How many sessions there are.
pub const VALUES: usize = 100_000;
/// How many operations a turn has, over all threads.
pub const OPERATIONS: usize = 400_000;
// The sessions that a thread goes through are drawn before.
const DRAWN: usize = 1 << 16;

/// The keys of the sessions, by the number of the session.
struct Table(Vec<AtomicU64>);

/// What a thread did: how many reads found a session, and how many found that another thread had just replaced it.
#[derive(Clone, Copy, Debug, Default, PartialEq, Eq)]
struct Reads {
    found: usize,
    missed: usize,
}

fn value(session: usize, number: usize) -> Words {
    let mut words = [number as u64; WORDS];
    words[0] = session as u64;
    words
}

impl Table {
    fn new() -> Self {
        Table((0..VALUES).map(|_| AtomicU64::new(0)).collect())
    }

    // Inserts the sessions of a thread.
    fn fill(&self, caller: &mut impl Caller, number: usize, threads: usize) {
        for session in (number..VALUES).step_by(threads) {
            self.0[session].store(caller.insert(&value(session, 0)), Release);
        }
    }

    fn read(&self, caller: &mut impl Caller, probe: &mut impl Probe, session: usize, reads: &mut Reads) {
        let key = self.0[session].load(Acquire);
        match black_box(probe.during(Call::Read, || caller.read(key))) {
            Some(_) => reads.found += 1,
            None => reads.missed += 1,
        }
    }

    fn replace(&self, caller: &mut impl Caller, probe: &mut impl Probe, session: usize, number: usize) {
        let key = self.0[session].load(Relaxed);
        assert!(probe.during(Call::Remove, || caller.remove(key)));
        let words = value(session, number);
        self.0[session].store(probe.during(Call::Insert, || caller.insert(&words)), Release);
    }
}

// What one thread needs: its number among how many, the percent of reads, and its operations.
#[derive(Clone, Copy)]
struct Plan {
    number: usize,
    threads: usize,
    reads: usize,
    operations: usize,
}

impl Plan {
    // The session of this thread in the same group: each group has one of each thread.
    fn own(&self, session: usize) -> usize {
        let own = session - session % self.threads + self.number;
        match own < VALUES {
            true => own,
            false => own - self.threads,
        }
    }
}

fn use_sessions(table: &Table, caller: &mut impl Caller, probe: &mut impl Probe, plan: Plan, drawn: &[u32]) -> Reads {
    let (mut dice, mut reads) = (Dice::new(plan.number + 100), Reads::default());
    for number in 0..plan.operations {
        let session = drawn[number % DRAWN] as usize;
        match dice.below(100) < plan.reads {
            true => table.read(caller, probe, session, &mut reads),
            false => table.replace(caller, probe, plan.own(session), number),
        }
    }
    reads
}

// Each thread has a probe, which is made before the time begins.
fn all<M: Map, P: Probe>(
    map: &M,
    threads: usize,
    reads: usize,
    operations: usize,
    probe: impl Fn() -> P + Sync,
) -> (Spent, Vec<(P, Reads)>) {
    let table = Table::new();
    together(threads, |number, start| {
        let plan = Plan { number, threads, reads, operations: operations / threads };
        let drawn = zipf(VALUES, DRAWN, &mut Dice::new(number));
        let (mut caller, mut probe) = (map.caller(number), probe());
        table.fill(&mut caller, number, threads);
        let timer = start.pass(number);
        let reads = use_sessions(&table, &mut caller, &mut probe, plan, &drawn);
        (timer.stop(), (probe, reads))
    })
}

/// What a turn took, and how many operations each thread had.
pub fn run<M: Map>(map: &M, threads: usize, reads: usize, operations: usize) -> (Spent, usize) {
    (all(map, threads, reads, operations, || Blind).0, operations / threads)
}

/// The times of each call, with 90 % reads.
pub fn latency<M: Map>(map: &M, threads: usize, operations: usize) -> (Clock, Spent) {
    let (spent, clocks) = all(map, threads, 90, operations, || Clock::with_room(operations / threads));
    let mut sum = Clock::default();
    clocks.into_iter().for_each(|(clock, _)| sum.add(clock));
    (sum, spent)
}

#[cfg(test)]
mod tests {
    use super::*;
    use crate::map::Room;
    use crate::maps::{Task, SIDES};
    use crate::probe::CALLS;

    struct Tried(usize);

    impl Task for Tried {
        type Answer = Vec<(Blind, Reads)>;

        fn with<M: Map>(self, room: Room) -> Self::Answer {
            all(&M::open(room), self.0, 90, 20_000, || Blind).1
        }
    }

    // Of 20,000 operations 90 % are reads. One thread always finds its session, and of two threads few reads miss.
    #[test]
    fn sessions_are_found_unless_another_thread_replaced_them() {
        for side in SIDES {
            for threads in [1, 2] {
                let room = Room { owners: threads, values: VALUES / threads + 64, words: WORDS };
                let done = side.with::<Words, _>(room, Tried(threads));
                let reads: usize = done.iter().map(|(_, reads)| reads.found + reads.missed).sum();
                let missed: usize = done.iter().map(|(_, reads)| reads.missed).sum();
                assert!((17_800..18_200).contains(&reads), "{side:?}: {reads}");
                assert!(missed <= if threads == 1 { 0 } else { 2000 }, "{side:?}: {missed}");
            }
        }
    }

    #[test]
    fn a_thread_replaces_its_own_sessions() {
        for threads in [1, 2, 4] {
            for number in 0..threads {
                let plan = Plan { number, threads, reads: 90, operations: 1 };
                for session in [0, 1, 2, 3, 50_001, VALUES - 1] {
                    let own = plan.own(session);
                    assert!(own < VALUES && own % threads == number, "{session}: {own}");
                }
            }
        }
    }

    struct Timed;

    impl Task for Timed {
        type Answer = Clock;

        fn with<M: Map>(self, room: Room) -> Clock {
            latency(&M::open(room), 1, 5000).0
        }
    }

    #[test]
    fn each_call_is_timed() {
        let mut clock = SIDES[0].with::<Words, _>(Room { owners: 1, values: VALUES + 64, words: WORDS }, Timed);
        for call in CALLS {
            let [half, most, nearly, greatest] = clock.quantiles(call).expect("there was such a call");
            assert!(half <= most && most <= nearly && nearly <= greatest);
        }
    }
}
