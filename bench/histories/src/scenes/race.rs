//! Two threads that remove one value at the same time, again and again.
use crate::caller::Caller;
use std::hint;
use std::sync::atomic::{AtomicU64, Ordering::SeqCst};
use std::thread;

/// What the threads of a race share.
#[derive(Debug, Default)]
struct Course {
    /// The round that has begun, from 1, and its key.
    round: AtomicU64,
    key: AtomicU64,
    /// How many have made their call in this round, and how many of these removed the key.
    done: AtomicU64,
    removed: AtomicU64,
}

/// Spins, so that both removers begin at once, and lets others run if that takes long.
fn wait_until(is_so: impl Fn() -> bool) {
    for turn in 1u32.. {
        if is_so() {
            return;
        }
        match turn % 256 {
            0 => thread::yield_now(),
            _ => hint::spin_loop(),
        }
    }
}

impl Course {
    fn remove_in_each(&self, caller: &mut impl Caller, rounds: u64) {
        for round in 1..=rounds {
            wait_until(|| self.round.load(SeqCst) >= round);
            self.removed.fetch_add(u64::from(caller.remove(self.key.load(SeqCst))), SeqCst);
            self.done.fetch_add(1, SeqCst);
        }
    }

    /// Makes a round, and returns how many removed its key.
    fn round(&self, caller: &mut impl Caller, round: u64) -> u64 {
        self.key.store(caller.insert(round), SeqCst);
        self.removed.store(0, SeqCst);
        self.done.store(0, SeqCst);
        self.round.store(round, SeqCst);
        wait_until(|| self.done.load(SeqCst) == 2);
        self.removed.load(SeqCst)
    }
}

pub fn play<C: Caller>(callers: Vec<C>, rounds: u64) -> String {
    let [mut owner, first, second]: [C; 3] = callers.try_into().ok().expect("there are three callers");
    let course = Course::default();
    let both = thread::scope(|scope| {
        for mut remover in [first, second] {
            let course = &course;
            scope.spawn(move || course.remove_in_each(&mut remover, rounds));
        }
        (1..=rounds).filter(|&round| course.round(&mut owner, round) == 2).count()
    });
    format!("; {both} of {rounds} values were removed by both callers\n")
}
