//! Boxes of any type under keys that are never used again: a heap whose values are their addresses.
//!
//! A box is followed only under a guard. The call that ends its key frees it, in whatever thread: the removal, or the
//! drop of the last guard. An end does not wait for a copy of the address, as `load` or a table's `get` returns it.
use gearlongan::{Caller, Error, Growing, Heap, Key, Room};
use std::marker::PhantomData;
use std::sync::atomic::{AtomicUsize, Ordering::SeqCst};
use std::thread;

/// Boxes that threads share. Each thread uses them by a [`User`] of its own.
struct Boxes<T> {
    heap: Growing,
    values: PhantomData<Box<T>>,
}

/// What one thread makes of boxes: it stores, uses and removes them.
struct User<'a, T> {
    caller: Caller,
    boxes: PhantomData<&'a Boxes<T>>,
}

impl<T: Send + Sync + 'static> Boxes<T> {
    fn open(threads: u32) -> Result<Boxes<T>, Error> {
        let room = Room { owners: threads, values: 1000, words: 1, passes: threads };
        Ok(Boxes { heap: Heap::growing(room, 256)?, values: PhantomData })
    }

    fn user(&self) -> Result<User<'_, T>, Error> {
        let mut caller = self.heap.take()?;
        caller.on_end(|_, words| {
            // SAFETY: `User::insert` made it of a box, and alone stores values here. A key ends once, when no guard on
            // it is left and no later one finds it.
            drop(unsafe { Box::from_raw(words[0] as *mut T) });
        });
        Ok(User { caller, boxes: PhantomData })
    }
}

impl<T: Send + Sync + 'static> User<'_, T> {
    fn insert(&self, value: Box<T>) -> Result<Key, Error> {
        let value = Box::into_raw(value);
        self.caller.insert(&[value as u64]).inspect_err(|_| {
            // SAFETY: it is the box from above, of which nobody else knows.
            drop(unsafe { Box::from_raw(value) });
        })
    }

    /// Runs it with the value of a key, which nobody frees meanwhile.
    fn with<U>(&self, key: Key, act: impl FnOnce(&T) -> U) -> Result<U, Error> {
        let guard = self.caller.get(key)?;
        // SAFETY: it is a box's that `insert` stored. The key does not end before the guard goes.
        Ok(act(unsafe { &*(guard[0] as *const T) }))
    }

    /// Removes a key: true for one of all that remove it. The value is dropped here, or where it is used at the moment.
    fn remove(&self, key: Key) -> bool {
        self.caller.remove(key).is_ok()
    }
}

impl<T> Drop for Boxes<T> {
    /// The keys that are left end here: no user is left.
    fn drop(&mut self) {
        let Ok(caller) = self.heap.take() else { return };
        for (_, words) in caller.walk() {
            // SAFETY: as in `user`. The heap goes with this, and nobody meets the key again.
            drop(unsafe { Box::from_raw(words[0] as *mut T) });
        }
    }
}

static DROPPED: AtomicUsize = AtomicUsize::new(0);

/// A session, whose text is on the heap of the process.
struct Session {
    user: usize,
    name: String,
}

impl Drop for Session {
    fn drop(&mut self) {
        assert_eq!(self.name, format!("user {}", self.user), "it is dropped once");
        DROPPED.fetch_add(1, SeqCst);
    }
}

const THREADS: usize = 4;
const EACH: usize = 5_000;

/// Stores sessions, and uses and removes those that this and the other threads store.
fn work(boxes: &Boxes<Session>, number: usize, sent: &[AtomicUsize]) -> Result<usize, Error> {
    let (user, mut removed) = (boxes.user()?, 0);
    for n in (number..THREADS * EACH).step_by(THREADS) {
        let key = user.insert(Box::new(Session { user: n, name: format!("user {n}") }))?;
        sent[n].store(u64::from(key) as usize, SeqCst);
        for (other, key) in sent.iter().enumerate().take(n).skip(n.saturating_sub(8)) {
            let key = Key::from(key.load(SeqCst) as u64);
            let found = user.with(key, |session| session.name == format!("user {other}") && session.user == other);
            assert!(found.unwrap_or(true), "it is the session of the key, whole");
            removed += usize::from(other % 5 != 0 && user.remove(key));
        }
    }
    Ok(removed)
}

fn main() -> Result<(), Error> {
    let boxes = Boxes::open(THREADS as u32)?;
    let sent: Vec<AtomicUsize> = (0..THREADS * EACH).map(|_| AtomicUsize::new(0)).collect();
    let removed: usize = thread::scope(|scope| {
        let (boxes, sent) = (&boxes, &sent);
        let works: Vec<_> = (0..THREADS).map(|n| scope.spawn(move || work(boxes, n, sent))).collect();
        works.into_iter().map(|work| work.join().expect("it ends well")).sum::<Result<usize, Error>>()
    })?;
    assert_eq!(DROPPED.load(SeqCst), removed, "each one that was removed is dropped");
    drop(boxes);
    assert_eq!(DROPPED.load(SeqCst), THREADS * EACH, "and the others with the heap");
    println!("{removed} sessions were removed, and each of {} was dropped once", THREADS * EACH);
    Ok(())
}
