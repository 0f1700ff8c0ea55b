//! The places of a table: callers of its heap, 60 for threads of their own and 4 that all others share.
//!
//! A place rests if no thread has it. It keeps its caller, and that its shards, so that nothing is left or adopted as a
//! thread ends, and nothing waits. The next thread that asks has it as it is.
use crate::ended::Ended;
use crate::ffi::LiveKey;
use crate::threads::{mark, Alone, Taken};
use crate::{Caller, Error, Growing, Heap, Key, Room, Value};
use std::cell::{Cell, OnceCell};
use std::panic::{RefUnwindSafe, UnwindSafe};
use std::ptr::NonNull;
use std::sync::atomic::AtomicI64;
use std::sync::atomic::Ordering::Relaxed;
use std::sync::{Mutex, MutexGuard, PoisonError, TryLockError};

/// The places that threads have of their own.
const OWN: usize = 60;

/// The places that all other threads share.
const SHARED: usize = 4;

/// A heap has as many passes as it can have: one for each place.
const PASSES: u32 = 64;

/// A caller that one thread at a time has. The next place begins on other cache lines.
#[derive(Default)]
#[repr(align(128))]
struct Place {
    // None before the first thread had the place.
    caller: OnceCell<Caller>,
    // The values that were inserted by this place less those that were removed by it.
    count: AtomicI64,
    alone: Alone,
}

// SAFETY: the caller is used only through `open`, by the thread that has the place: one that took its number, or that
// has the lock of a shared place. A caller may go from thread to thread. The count is atomic.
unsafe impl Sync for Place {}

// No code of the user runs while a caller is used, so that no panic leaves it half changed.
impl RefUnwindSafe for Place {}

impl Place {
    /// The place as the thread uses it that has it. None before its first thread.
    ///
    /// # Safety
    ///
    /// No other thread has the place while the result is used.
    #[inline]
    unsafe fn open(&self) -> Option<Open<'_>> {
        Some(Open { caller: self.caller.get()?, count: &self.count, alone: &self.alone })
    }

    /// The same, with a caller that it takes of the heap if there is none yet.
    ///
    /// # Safety
    ///
    /// As of [`open`](Place::open).
    unsafe fn open_new(&self, heap: &Growing) -> Result<Open<'_>, Error> {
        if self.caller.get().is_none() {
            // It is set by nobody else meanwhile.
            _ = self.caller.set(heap.take()?);
        }
        // SAFETY: as the caller says.
        unsafe { self.open() }.ok_or(Error::NoPlace)
    }
}

/// A place, as the thread uses it that has it.
pub(super) struct Open<'a> {
    caller: &'a Caller,
    count: &'a AtomicI64,
    alone: &'a Alone,
}

impl Open<'_> {
    // Only the thread that has the place writes its count.
    #[inline]
    fn add(&self, change: i64) {
        self.count.store(self.count.load(Relaxed).wrapping_add(change), Relaxed);
    }

    #[inline]
    pub(super) fn load(&self, key: Key, value: &mut Value) -> Result<(), Error> {
        self.alone.run(|| self.caller.load_into(key, value))
    }

    #[inline]
    pub(super) fn next_live(&self, met: &mut LiveKey) -> bool {
        self.alone.run(|| self.caller.handle.next_live(met))
    }

    /// [`Error::Full`] as well if other places have all shards, since a table has none in its interface.
    #[inline]
    pub(super) fn insert(&self, words: &[u64]) -> Result<Key, Error> {
        let inserted = self.alone.run(|| self.caller.insert(words));
        let key = inserted.map_err(|why| if why == Error::NoShard { Error::Full } else { why })?;
        self.add(1);
        Ok(key)
    }

    #[inline]
    pub(super) fn remove(&self, key: Key) -> Result<(), Error> {
        self.alone.run(|| self.caller.remove(key))?;
        self.add(-1);
        Ok(())
    }

    #[inline]
    pub(super) fn take(&self, key: Key, value: &mut Value) -> Result<(), Error> {
        self.alone.run(|| self.caller.take_into(key, value))?;
        self.add(-1);
        Ok(())
    }

    /// The same three, which write what they ended, whether they are refused or not.
    pub(super) fn load_ended(&self, key: Key, value: &mut Value, ended: &mut Ended) -> Result<(), Error> {
        self.alone.run(|| self.caller.handle.load_ended(key, value, ended))
    }

    pub(super) fn remove_ended(&self, key: Key, ended: &mut Ended) -> Result<(), Error> {
        self.alone.run(|| self.caller.handle.remove_ended(key, ended))?;
        self.add(-1);
        Ok(())
    }

    pub(super) fn take_ended(&self, key: Key, value: &mut Value, ended: &mut Ended) -> Result<(), Error> {
        self.alone.run(|| self.caller.handle.take_ended(key, value, ended))?;
        self.add(-1);
        Ok(())
    }
}

/// A place of a thread's own, until it rests.
pub(super) struct Owned {
    place: NonNull<Place>,
    // That of the place.
    caller: NonNull<Caller>,
    pub(super) number: usize,
}

// SAFETY: it names a place of `Places`, which goes from thread to thread.
unsafe impl Send for Owned {}

// As for `Place`.
impl UnwindSafe for Owned {}

impl RefUnwindSafe for Owned {}

impl Owned {
    /// The place, as its thread uses it.
    ///
    /// # Safety
    ///
    /// The places stay where they are, and this one does not rest, while the result is used.
    #[inline]
    pub(super) unsafe fn open<'a>(&self) -> Open<'a> {
        // SAFETY: as the caller says. A caller stays in its place once it is there.
        let (caller, Place { count, alone, .. }) = unsafe { (self.caller.as_ref(), self.place.as_ref()) };
        Open { caller, count, alone }
    }
}

thread_local! {
    // Whether this thread is within a call that has a lock, or that allocates. It has no destructor, so that it can be
    // read at any time.
    static WITHIN: Cell<bool> = const { Cell::new(false) };
}

/// Whether the call comes from an allocator within another call: it must wait for no lock.
pub(super) fn is_within() -> bool {
    WITHIN.get()
}

/// Runs it as a call within which others wait for no lock.
#[inline(always)]
pub(super) fn within<T>(act: impl FnOnce() -> T) -> T {
    let before = WITHIN.replace(true);
    let result = act();
    // (Not `set`, which the compiler calls in each insert.)
    _ = WITHIN.replace(before);
    result
}

/// A place behind a lock.
#[derive(Default)]
struct Shared {
    lock: Mutex<()>,
    place: Place,
}

impl Shared {
    // Nothing panics while the lock is held.
    fn try_lock(&self) -> Option<MutexGuard<'_, ()>> {
        mark();
        match self.lock.try_lock() {
            Ok(lock) => Some(lock),
            Err(TryLockError::Poisoned(lock)) => Some(lock.into_inner()),
            Err(TryLockError::WouldBlock) => None,
        }
    }

    fn lock(&self) -> MutexGuard<'_, ()> {
        #[cfg(test)]
        while crate::threads::turns::takes_turns() {
            if let Some(lock) = self.try_lock() {
                return lock;
            }
        }
        self.lock.lock().unwrap_or_else(PoisonError::into_inner)
    }
}

/// The heap of a table, with its places.
pub(super) struct Places {
    own: [Place; OWN],
    // The places of `own` that threads have. The others rest.
    taken: Taken,
    shared: [Shared; SHARED],
    heap: Growing,
    // The heap again: no call that takes memory has its lock, so that an allocator may wait for it.
    told: Growing,
}

// A place of `own` that rests again as this is dropped.
struct ForACall<'a> {
    places: &'a Places,
    number: usize,
}

impl Drop for ForACall<'_> {
    fn drop(&mut self) {
        self.places.taken.give_back(self.number);
    }
}

impl Places {
    /// Opens the heap, and one of the shared places: what it can do needs no memory later.
    pub(super) fn open(first: Room, chunks: u32) -> Result<Places, Error> {
        let heap = Heap::growing(Room { passes: PASSES, ..first }, chunks)?;
        let told = heap.share()?;
        let (own, shared) = (std::array::from_fn(|_| Place::default()), <[Shared; SHARED]>::default());
        // SAFETY: no other thread has the place.
        unsafe { shared[0].place.open_new(&heap) }?;
        Ok(Places { own, taken: Taken::free(OWN as u32), shared, heap, told })
    }

    /// Takes a place that rests. `self` stays where it is until the place rests again.
    pub(super) fn take(&self) -> Result<Owned, Error> {
        let number = self.taken.take_lowest().ok_or(Error::NoPlace)?;
        let taken = ForACall { places: self, number };
        let place = &self.own[number];
        // SAFETY: this thread took the place.
        let caller = NonNull::from(unsafe { place.open_new(&self.heap) }?.caller);
        std::mem::forget(taken);
        Ok(Owned { place: NonNull::from(place), caller, number })
    }

    /// Lets a place rest that the thread took.
    pub(super) fn rest(&self, owned: &Owned) {
        self.taken.give_back(owned.number);
    }

    // Runs it with each place that rests and had a thread before, until it returns something.
    fn resting<T>(&self, mut act: impl FnMut(Open<'_>) -> Option<T>) -> Option<T> {
        (0..OWN).filter(|number| self.taken.take(*number)).find_map(|number| {
            let _taken = ForACall { places: self, number };
            // SAFETY: this thread took the place.
            unsafe { self.own[number].open() }.and_then(&mut act)
        })
    }

    /// Runs it with a place that is free at once. None if there is none.
    pub(super) fn at_once<T>(&self, act: impl FnOnce(Open<'_>) -> T) -> Option<T> {
        let mut act = Some(act);
        let found = self.resting(|open| Some(act.take()?(open)));
        found.or_else(|| {
            self.shared.iter().find_map(|shared| {
                let _lock = shared.try_lock()?;
                // SAFETY: this thread has the lock.
                let open = unsafe { shared.place.open() }?;
                Some(act.take()?(open))
            })
        })
    }

    /// Runs it with a shared place: one that is free, or the first once it is.
    pub(super) fn shared<T>(&self, act: impl FnOnce(Open<'_>) -> T) -> Option<T> {
        let act = |shared: &Shared, _lock: MutexGuard<'_, ()>| {
            // SAFETY: this thread has the lock.
            Some(act(unsafe { shared.place.open() }?))
        };
        within(|| {
            let free = self.shared.iter().find_map(|shared| {
                let lock = shared.try_lock()?;
                // SAFETY: this thread has the lock.
                unsafe { shared.place.open_new(&self.heap) }.ok()?;
                Some((shared, lock))
            });
            let (shared, lock) = free.unwrap_or_else(|| (&self.shared[0], self.shared[0].lock()));
            act(shared, lock)
        })
    }

    /// Inserts by a place that rests or is shared. It is refused as before if none of them has room.
    #[cold]
    pub(super) fn insert_by_any(&self, words: &[u64], refused: Error) -> Result<Key, Error> {
        let waits = !is_within();
        let of_shared = |shared: &Shared| {
            let _lock = if waits { shared.lock() } else { shared.try_lock()? };
            // SAFETY: this thread has the lock.
            unsafe { shared.place.open() }?.insert(words).ok()
        };
        within(|| {
            let inserted = self.resting(|open| open.insert(words).ok());
            inserted.or_else(|| self.shared.iter().find_map(of_shared)).ok_or(refused)
        })
    }

    /// How many values there are, if no call runs.
    pub(super) fn len(&self) -> usize {
        let places = self.own.iter().chain(self.shared.iter().map(|shared| &shared.place));
        let count = places.fold(0i64, |sum, place| sum.wrapping_add(place.count.load(Relaxed)));
        usize::try_from(count).unwrap_or(0)
    }
    pub(super) fn capacity(&self, words: u32) -> usize {
        self.told.capacity(words) as usize
    }

    pub(super) fn bytes(&self) -> usize {
        self.told.bytes() as usize
    }
}
