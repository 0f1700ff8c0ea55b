//! Threads that take turns, for tests: one of them runs, and at each mark a seed says which goes on. So a seed names
//! one order of what they do, up to the end of the last of their destructors.
use std::cell::RefCell;
use std::sync::{Arc, Condvar, Mutex, PoisonError};
use std::thread;

/// Whose turn it is.
struct State {
    dice: u64,
    // The threads that have not ended.
    going: Vec<usize>,
    turn: usize,
}

impl State {
    // Says whose turn is next.
    fn roll(&mut self) {
        // Marsaglia's xorshift.
        self.dice ^= self.dice << 13;
        self.dice ^= self.dice >> 7;
        self.dice ^= self.dice << 17;
        if !self.going.is_empty() {
            self.turn = self.going[(self.dice >> 32) as usize % self.going.len()];
        }
    }
}

struct Turns {
    state: Mutex<State>,
    changed: Condvar,
}

impl Turns {
    // Changes the state, and says so to all.
    fn change(&self, change: impl FnOnce(&mut State)) {
        change(&mut self.state.lock().unwrap_or_else(PoisonError::into_inner));
        self.changed.notify_all();
    }

    fn wait_for(&self, player: usize) {
        let state = self.state.lock().unwrap_or_else(PoisonError::into_inner);
        drop(self.changed.wait_while(state, |state| state.turn != player).unwrap_or_else(PoisonError::into_inner));
    }
}

/// One of the threads that take turns.
struct Player {
    turns: Arc<Turns>,
    number: usize,
}

thread_local! {
    // A thread registers it first, so that it is dropped after what else the thread has.
    static PLAYER: RefCell<Option<Player>> = const { RefCell::new(None) };
}

impl Drop for Player {
    fn drop(&mut self) {
        self.turns.change(|state| {
            state.going.retain(|number| *number != self.number);
            state.roll();
        });
    }
}

/// Another thread may go on here, if this one takes turns.
pub(crate) fn mark() {
    let player = |player: &RefCell<Option<Player>>| {
        let player = player.try_borrow().ok()?;
        player.as_ref().map(|player| (player.turns.clone(), player.number))
    };
    if let Some((turns, number)) = PLAYER.try_with(player).ok().flatten() {
        turns.change(State::roll);
        turns.wait_for(number);
    }
}

/// Whether this thread takes turns, so that it must not wait except at marks.
pub(crate) fn takes_turns() -> bool {
    PLAYER.try_with(|player| player.try_borrow().is_ok_and(|player| player.is_some())).unwrap_or(false)
}

/// Runs each in a thread of its own, in the order that the seed says: whether none panicked.
pub(crate) fn play(seed: u64, works: Vec<Box<dyn FnOnce() + Send>>) -> bool {
    let going: Vec<usize> = (0..works.len()).collect();
    let mut state = State { dice: seed.wrapping_mul(0x9e37_79b9_7f4a_7c15) | 1, going, turn: 0 };
    state.roll();
    let turns = Arc::new(Turns { state: Mutex::new(state), changed: Condvar::new() });
    let spawn = |(number, work): (usize, Box<dyn FnOnce() + Send>)| {
        let turns = turns.clone();
        thread::spawn(move || {
            PLAYER.set(Some(Player { turns: turns.clone(), number }));
            turns.wait_for(number);
            work();
        })
    };
    let threads: Vec<_> = works.into_iter().enumerate().map(spawn).collect();
    threads.into_iter().fold(true, |good, thread| thread.join().is_ok() & good)
}
