//! Threads that begin at once, and how long they take.
use crate::gate::Gate;
use crate::waiting::Watch;
use std::thread;
use std::time::{Duration, Instant};

/// What a turn took.
#[derive(Clone, Copy, Debug, PartialEq)]
pub struct Spent {
    /// Of the thread that took longest.
    pub longest: Duration,
    /// In which share of the time a thread of the machine waited for a processor; none if that is not known.
    pub waited: Option<f64>,
}

impl Spent {
    /// The nanoseconds of one of these operations of a thread.
    pub fn nanoseconds(&self, operations: usize) -> f64 {
        self.longest.as_nanos() as f64 / operations as f64
    }
}

/// The start of all threads, which each passes once it is ready.
pub struct Start {
    ready: Gate,
    seen: Gate,
}

/// The time of one thread from its start.
pub struct Timer {
    start: Instant,
    // The first thread looks at the machine.
    watch: Option<Watch>,
}

impl Start {
    fn new(threads: usize) -> Self {
        Start { ready: Gate::new(threads), seen: Gate::new(threads) }
    }

    /// Waits until all threads are ready, and begins the time.
    pub fn pass(&self, number: usize) -> Timer {
        self.ready.pass();
        let watch = (number == 0).then(Watch::start);
        self.seen.pass();
        Timer { start: Instant::now(), watch }
    }
}

impl Timer {
    pub fn stop(self) -> Spent {
        let longest = self.start.elapsed();
        Spent { longest, waited: self.watch.and_then(|watch| watch.share()) }
    }
}

/// Runs the job in this many threads, each with its number, and returns what they took together and what each returned.
pub fn together<T: Send>(threads: usize, job: impl Fn(usize, &Start) -> (Spent, T) + Sync) -> (Spent, Vec<T>) {
    let (start, job) = (&Start::new(threads), &job);
    let all: Vec<(Spent, T)> = thread::scope(|scope| {
        let running: Vec<_> = (0..threads).map(|number| scope.spawn(move || job(number, start))).collect();
        running.into_iter().map(|thread| thread.join().expect("the thread ends well")).collect()
    });
    let longest = all.iter().map(|(spent, _)| spent.longest).max().unwrap_or_default();
    let waited = all.iter().find_map(|(spent, _)| spent.waited);
    (Spent { longest, waited }, all.into_iter().map(|(_, answer)| answer).collect())
}

#[cfg(test)]
mod tests {
    use super::*;

    #[test]
    fn the_time_is_that_of_the_slowest_thread() {
        let (spent, numbers) = together(2, |number, start| {
            let timer = start.pass(number);
            thread::sleep(Duration::from_millis(20 * number as u64));
            (timer.stop(), number)
        });
        assert_eq!(numbers, [0, 1]);
        assert!(spent.longest >= Duration::from_millis(20));
        assert!(spent.nanoseconds(2) >= 1e7);
    }
}
