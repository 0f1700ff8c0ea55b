//! The handles of passes and receipts.
use super::*;
use crate::ended::{Hook, OfPass};
use crate::history::Log;
use std::cell::{Cell, UnsafeCell};
use std::thread;

/// How many keys of a batch the library loads in one call: as many as it warms at a time.
const BATCH: usize = 8;

/// The handle of a pass, which may own a shard. It is not `Sync`: the thread that has it makes one call at a time.
#[derive(Debug)]
pub(crate) struct PassHandle {
    raw: UnsafeCell<Raw>,
    // How many holds it has: those of its guards.
    holds: Cell<usize>,
    // The number of its heap.
    heap: u64,
    log: Log,
    on_end: Hook<OfPass>,
}

/// The handle of a receipt, with the number of the heap that it is of.
#[derive(Debug)]
pub(crate) struct ReceiptHandle {
    raw: Raw,
    heap: u64,
}

impl Drop for ReceiptHandle {
    fn drop(&mut self) {
        // SAFETY: `&mut` gives the handle to this call alone. It is empty afterwards.
        unsafe { shardheap_raw_receipt_close(&mut self.raw) }
    }
}

/// How often the end of a pass tries to leave its shard, while others are in the middle of a free there.
const LEAVE_TRIES: u32 = 1000;

impl PassHandle {
    /// The handle of a pass that was taken just now, from the heap with this number.
    pub(super) fn of(raw: Raw, heap: u64, log: Log) -> PassHandle {
        PassHandle { raw: UnsafeCell::new(raw), holds: Cell::new(0), heap, log, on_end: Hook::none() }
    }

    #[inline]
    fn at(&self) -> *mut Raw {
        self.raw.get()
    }

    /// From now on the calls below call the hook with each key that they end.
    pub(crate) fn set_on_end(&mut self, hook: Box<OfPass>) {
        self.on_end.set(hook);
    }

    // Makes a call that writes which key it ended, and calls the hook with it.
    #[cold]
    #[inline(never)]
    fn hooked<T>(&self, call: impl FnOnce(&mut Ended) -> T) -> T {
        let (answer, ended) = Ended::told(call);
        if let (Some(hook), Some(ended)) = (self.on_end.get(), ended) {
            hook(ended.key, &ended.value);
        }
        answer
    }

    #[inline]
    pub(crate) fn get(&self, key: Key) -> Result<(), Error> {
        if self.on_end.is_set() {
            return self.hooked(|ended| self.get_ended(key, ended));
        }
        // SAFETY: the handle is this thread's, and no other call uses it.
        self.log.get(key, || told(unsafe { shardheap_raw_get(self.at(), key.into()) }))?;
        self.holds.set(self.holds.get() + 1);
        Ok(())
    }

    #[inline]
    pub(crate) fn release(&self, key: Key) -> Result<(), Error> {
        if self.on_end.is_set() {
            return self.hooked(|ended| self.release_ended(key, ended));
        }
        // SAFETY: as in `get`.
        self.log.release(key, || told(unsafe { shardheap_raw_release(self.at(), key.into()) }))?;
        self.holds.set(self.holds.get() - 1);
        Ok(())
    }

    #[inline]
    pub(crate) fn remove(&self, key: Key) -> Result<(), Error> {
        if self.on_end.is_set() {
            return self.hooked(|ended| self.remove_ended(key, ended));
        }
        // SAFETY: as in `get`.
        self.log.remove(key, || told(unsafe { shardheap_raw_remove(self.at(), key.into()) }))
    }

    /// The same calls, which write what they ended, or [`Ended::none`], whether they are refused or not. They call no
    /// hook.
    pub(crate) fn get_ended(&self, key: Key, ended: &mut Ended) -> Result<(), Error> {
        // SAFETY: as in `get`. The library writes a key, and as many words as the length says.
        self.log.get(key, || told(unsafe { shardheap_raw_get_ended(self.at(), key.into(), ended) }))?;
        self.holds.set(self.holds.get() + 1);
        Ok(())
    }

    pub(crate) fn release_ended(&self, key: Key, ended: &mut Ended) -> Result<(), Error> {
        // SAFETY: as in `get_ended`.
        self.log.release(key, || told(unsafe { shardheap_raw_release_ended(self.at(), key.into(), ended) }))?;
        self.holds.set(self.holds.get() - 1);
        Ok(())
    }

    pub(crate) fn remove_ended(&self, key: Key, ended: &mut Ended) -> Result<(), Error> {
        // SAFETY: as in `get_ended`.
        self.log.remove(key, || told(unsafe { shardheap_raw_remove_ended(self.at(), key.into(), ended) }))
    }

    /// The value stays as it was if another pass removes the key first. (The removal ends nothing, since the pass has a
    /// hold on the key until the release.)
    pub(crate) fn take_ended(&self, key: Key, value: &mut Value, ended: &mut Ended) -> Result<(), Error> {
        let mut taken = Value::default();
        self.get_ended(key, ended)?;
        let removed = self.read(key, &mut taken).and_then(|()| self.remove_ended(key, ended));
        self.release_ended(key, ended)?;
        removed?;
        *value = taken;
        Ok(())
    }

    /// Reads into the value's own room.
    #[inline]
    pub(crate) fn read(&self, key: Key, value: &mut Value) -> Result<(), Error> {
        // SAFETY: as in `get`. Each value fits a room of `MAX_WORDS`: the library writes its words and their number, or
        // refuses the call and writes nothing.
        self.log.read(key, value, |value| unsafe {
            value.words.fill(|words, length| told(shardheap_raw_read(self.at(), key.into(), words, MAX_WORDS, length)))
        })
    }

    /// Loads into the value's own room.
    #[inline]
    pub(crate) fn load(&self, key: Key, value: &mut Value) -> Result<(), Error> {
        if self.on_end.is_set() {
            return self.hooked(|ended| self.load_ended(key, value, ended));
        }
        self.load_or_get(key, value)
    }

    // A load as the library makes it: if it comes before the value was there, it goes on as a get, which may end a key.
    #[inline(always)]
    fn load_or_get(&self, key: Key, value: &mut Value) -> Result<(), Error> {
        // SAFETY: as in `read`.
        self.log.load(key, value, |value| unsafe {
            value.words.fill(|words, length| told(shardheap_raw_load(self.at(), key.into(), words, MAX_WORDS, length)))
        })
    }

    /// The same by a get, a read and a release, which write what they ended, or [`Ended::none`].
    pub(crate) fn load_ended(&self, key: Key, value: &mut Value, ended: &mut Ended) -> Result<(), Error> {
        match self.get_ended(key, ended) {
            Ok(()) => {
                let read = self.read(key, value);
                self.release_ended(key, ended)?;
                read
            }
            // This ends no key: its get would be refused before it is at the slot, or the value was there.
            Err(Error::HoldsFull | Error::Crowded) => self.load_or_get(key, value),
            Err(error) => Err(error),
        }
    }

    /// Loads each key, as far as there are places for the results.
    pub(crate) fn load_each(&self, keys: &[Key], results: &mut [Result<Value, Error>]) {
        if self.log.is_on() || self.on_end.is_set() {
            return self.load_one_by_one(keys, results);
        }
        let mut batch = [Loaded::NONE; BATCH];
        for (keys, results) in keys.chunks(BATCH).zip(results.chunks_mut(BATCH)) {
            let loads = &mut batch[..keys.len().min(results.len())];
            for (load, key) in loads.iter_mut().zip(keys) {
                load.key = (*key).into();
            }
            // SAFETY: as in `get`, and a slice has as many places as its length says.
            let done = told(unsafe { shardheap_raw_load_each(self.at(), loads.as_mut_ptr(), loads.len()) });
            for (result, load) in results.iter_mut().zip(loads) {
                *result = done.and_then(|()| load.result());
            }
        }
    }

    /// Takes the value of a key into the value's own room, which each value fits.
    #[inline]
    pub(crate) fn take(&self, key: Key, value: &mut Value) -> Result<(), Error> {
        // (If it is recorded: as the calls that it consists of, one by one.)
        if self.log.is_on() || self.on_end.is_set() {
            return self.hooked(|ended| self.take_ended(key, value, ended));
        }
        // SAFETY: as in `read`.
        unsafe {
            value
                .words
                .fill(|words, length| told(shardheap_raw_take_value(self.at(), key.into(), words, MAX_WORDS, length)))
        }
    }

    /// Meets the first live key behind the one that was met last: whether there is one.
    #[inline]
    pub(crate) fn next_live(&self, met: &mut LiveKey) -> bool {
        self.log.next_live(met, |met| {
            // SAFETY: as in `get`. The library writes a key, the place behind it, and as many words as the length says.
            let code = unsafe { shardheap_raw_next_live(self.at(), met.behind, u64::MAX, met) };
            is_found(code).unwrap_or_else(|error| unreachable!("a walk is not refused: {error}"))
        })
    }

    /// The first live key from a place on, which becomes the place behind it; and whether the pass got a hold on it.
    pub(crate) fn next_held(&self, place: &mut u64) -> Result<Option<(Key, bool)>, Error> {
        if self.on_end.is_set() {
            return self.next_held_in_parts(place);
        }
        let next = self.log.next_held(|| {
            let mut met = HeldKey::default();
            // SAFETY: as in `get`.
            let code = unsafe { shardheap_raw_next_held(self.at(), *place, u64::MAX, &mut met) };
            let is_found = is_found(code)?;
            if is_found {
                *place = met.behind;
            }
            Ok(is_found.then_some((Key::from(met.key), met.held == 1)))
        })?;
        if let Some((_, true)) = next {
            self.holds.set(self.holds.get() + 1);
        }
        Ok(next)
    }

    // The same by a walk without holds and a get of each key that it meets, since each get may end another key. A key
    // that is gone at its get was not met.
    #[cold]
    fn next_held_in_parts(&self, place: &mut u64) -> Result<Option<(Key, bool)>, Error> {
        let mut met = LiveKey::behind(*place);
        while self.next_live(&mut met) {
            let got = self.get(met.key);
            if matches!(got, Ok(()) | Err(Error::Crowded)) {
                *place = met.behind;
                return Ok(Some((met.key, got.is_ok())));
            }
            if got != Err(Error::Gone) {
                return got.map(|()| None);
            }
        }
        Ok(None)
    }

    // A batch of loads that are recorded one by one, or tell a hook.
    #[cold]
    fn load_one_by_one(&self, keys: &[Key], results: &mut [Result<Value, Error>]) {
        for (key, result) in keys.iter().zip(results) {
            let mut value = Value::default();
            *result = self.load(*key, &mut value).map(|()| value);
        }
    }

    pub(crate) fn receipt(&self) -> Result<ReceiptHandle, Error> {
        // SAFETY: as in `get`, and the receipt's handle is an empty one of this call.
        let raw = written(|receipt| unsafe { shardheap_raw_receipt_make(self.at(), receipt) })?;
        Ok(ReceiptHandle { raw, heap: self.heap })
    }

    pub(crate) fn heed(&self, mut receipt: ReceiptHandle) -> Result<(), Error> {
        if receipt.heap != self.heap {
            return Err(Error::OtherHeap);
        }
        // SAFETY: as in `get`, and the receipt's handle is this function's. Both are of the heap with this number.
        told(unsafe { shardheap_raw_heed(self.at(), &mut receipt.raw) })
    }

    #[inline]
    pub(crate) fn insert(&self, words: &[u64]) -> Result<Key, Error> {
        let mut key = 0;
        self.log.insert(words, || {
            // SAFETY: as in `get`, and a slice has as many words as its length says.
            told(unsafe { shardheap_raw_insert(self.at(), words.as_ptr(), words.len(), &mut key) })?;
            Ok(Key::from(key))
        })
    }

    pub(crate) fn prepare(&self, words: u32) -> Result<u32, Error> {
        // SAFETY: as in `get`.
        written(|page| unsafe { shardheap_raw_prepare(self.at(), words, page) })
    }

    pub(crate) fn collect(&self) -> Result<(), Error> {
        // SAFETY: as in `get`.
        told(unsafe { shardheap_raw_collect(self.at()) })
    }

    pub(crate) fn pages_left(&self) -> Result<u64, Error> {
        // SAFETY: as in `get`.
        written(|pages| unsafe { shardheap_raw_pages_left(self.at(), pages) })
    }

    pub(crate) fn slots_out(&self) -> Result<u64, Error> {
        // SAFETY: as in `get`.
        written(|slots| unsafe { shardheap_raw_slots_out(self.at(), slots) })
    }

    /// The first live key of the shard from a place on, which becomes the place behind it.
    pub(crate) fn next_own_key(&self, place: &mut u64) -> Result<Option<Key>, Error> {
        let mut key = 0;
        // SAFETY: as in `get`.
        let code = unsafe { shardheap_raw_next_own_key(self.at(), place, &mut key) };
        next_told(code, key)
    }

    pub(crate) fn adopt(&self, shard: u32) -> Result<(), Error> {
        // SAFETY: as in `get`.
        told(unsafe { shardheap_raw_adopt(self.at(), shard.into()) })
    }

    pub(crate) fn leave(&self) -> Result<(), Error> {
        // SAFETY: as in `get`.
        told(unsafe { shardheap_raw_leave(self.at()) })
    }

    pub(crate) fn leave_idle(&self) -> Result<(), Error> {
        // SAFETY: as in `get`.
        told(unsafe { shardheap_raw_leave_idle(self.at()) })
    }

    fn give(&mut self) -> Result<(), Error> {
        // SAFETY: `&mut` gives the handle to this call alone. It is empty if this succeeds, and otherwise as it was.
        told(unsafe { shardheap_raw_give(self.raw.get_mut()) })
    }
}

impl Drop for PassHandle {
    /// Brings the pass home, once it has left the shard that it may own. A pass whose guards were forgotten is closed
    /// instead: its next user would have fewer holds, or none.
    fn drop(&mut self) {
        self.log.close();
        for _ in 0..LEAVE_TRIES {
            if self.holds.get() == 0 && self.give().is_ok() {
                return;
            }
            match self.leave() {
                Err(Error::Waiting) => thread::yield_now(),
                _ if self.holds.get() > 0 => break,
                _ => {}
            }
        }
        // SAFETY: `&mut` gives the handle to this call alone. It is empty afterwards.
        unsafe { shardheap_raw_pass_lose(self.raw.get_mut()) };
    }
}
