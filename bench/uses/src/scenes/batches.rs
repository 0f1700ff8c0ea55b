//! Producers and consumers: half of the threads insert values and hand their keys over in batches, by a channel of the
//! standard library for each pair. The other half read and remove them.
use super::WORDS;
use crate::map::{Caller, Map};
use crate::together::{together, Spent};
use std::hint::black_box;
use std::sync::mpsc::{sync_channel, Receiver, SyncSender};
use std::sync::Mutex;

const BATCH: usize = 64;
// How many batches may be on their way between two threads.
const WAY: usize = 8;
/// How many values each pair hands over.
pub const COUNT: usize = 100_000;
/// How many values of one producer there are at most: on their way, and in the hands of both threads.
pub const MOST: usize = (WAY + 4) * BATCH;

type Batch = Vec<u64>;

fn produce(caller: &mut impl Caller, way: &SyncSender<Batch>, count: usize) {
    for first in (0..count).step_by(BATCH) {
        let numbers = first..(first + BATCH).min(count);
        let keys = numbers.map(|number| caller.insert(&[number as u64; WORDS])).collect();
        way.send(keys).expect("the consumer takes all");
    }
}

// Returns the sum of what was read.
fn consume(caller: &mut impl Caller, way: &Receiver<Batch>, count: usize) -> u64 {
    let (mut sum, mut taken) = (0u64, 0);
    while taken < count {
        let keys = way.recv().expect("the producer sends all");
        for key in &keys {
            sum = sum.wrapping_add(caller.read(*key).expect("the key is there"));
            assert!(caller.remove(*key));
        }
        taken += keys.len();
    }
    black_box(sum)
}

fn taken<T>(end: &Mutex<Option<T>>) -> T {
    end.lock().expect("no thread failed").take().expect("each end has one thread")
}

// What was read by each thread: nothing by a producer.
fn all<M: Map>(map: &M, threads: usize, count: usize) -> (Spent, Vec<u64>) {
    let ways: Vec<_> = (0..threads / 2).map(|_| sync_channel(WAY)).collect();
    let (senders, receivers): (Vec<_>, Vec<_>) = ways.into_iter().unzip();
    // Each thread takes its end of the way, so that the other one does not wait for it if it fails.
    let senders: Vec<_> = senders.into_iter().map(|end| Mutex::new(Some(end))).collect();
    let receivers: Vec<_> = receivers.into_iter().map(|end| Mutex::new(Some(end))).collect();
    together(threads, |number, start| {
        let (mut caller, pair) = (map.caller(number), number / 2);
        if number % 2 == 0 {
            let way = taken(&senders[pair]);
            let timer = start.pass(number);
            produce(&mut caller, &way, count);
            return (timer.stop(), 0);
        }
        let way = taken(&receivers[pair]);
        let timer = start.pass(number);
        let sum = consume(&mut caller, &way, count);
        (timer.stop(), sum)
    })
}

/// What a turn took, and how many values each pair handed over.
pub fn run<M: Map>(map: &M, threads: usize, count: usize) -> (Spent, usize) {
    (all(map, threads, count).0, count)
}

#[cfg(test)]
mod tests {
    use super::*;
    use crate::map::Room;
    use crate::maps::{Task, SIDES};

    struct Tried;

    impl Task for Tried {
        type Answer = Vec<u64>;

        fn with<M: Map>(self, room: Room) -> Vec<u64> {
            all(&M::open(room), 4, 10_001).1
        }
    }

    #[test]
    fn consumers_read_all_that_was_inserted() {
        let sum = WORDS as u64 * 10_001 * 10_000 / 2;
        for side in SIDES {
            let room = Room { owners: 4, values: MOST, words: WORDS };
            assert_eq!(side.with::<super::super::Words, _>(room, Tried), [0, sum, 0, sum], "{side:?}");
        }
    }
}
