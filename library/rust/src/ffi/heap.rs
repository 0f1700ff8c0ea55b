//! The handles of heaps.
use super::*;
use crate::accounts::{PageAccounts, Totals};
use crate::heap::{Layout, Room, Shape};
use crate::history::Recorder;
use std::sync::atomic::{AtomicU64, Ordering};
use std::sync::{Mutex, MutexGuard, PoisonError};

/// How many heaps were opened. Each has a number that no other heap of the process has: 2^64 are never opened.
static OPENED: AtomicU64 = AtomicU64::new(0);

/// The handle of a heap, which one call at a time locks.
#[derive(Debug)]
pub(crate) struct HeapHandle {
    raw: Mutex<Raw>,
    number: u64,
    recorder: Recorder,
}

impl HeapHandle {
    // A heap whose keys have as many holds as those of the layout. The call opens it in an empty handle.
    fn opened(layout: Layout, call: impl FnOnce(&mut Raw) -> u32) -> Result<HeapHandle, Error> {
        let raw = Mutex::new(written(call)?);
        let number = OPENED.fetch_add(1, Ordering::Relaxed);
        Ok(HeapHandle { raw, number, recorder: Recorder::new(layout.holds()) })
    }

    pub(crate) fn open(layout: Layout, shape: Shape) -> Result<HeapHandle, Error> {
        let (Shape { shards, segments, passes }, of) = (shape, layout.number());
        // SAFETY: the handle is an empty one of this call.
        HeapHandle::opened(layout, |heap| unsafe { shardheap_raw_open(heap, of, shards, segments, passes) })
    }

    pub(crate) fn open_for(layout: Layout, room: Room) -> Result<HeapHandle, Error> {
        let (Room { owners, values, words, passes }, of) = (room, layout.number());
        // SAFETY: as in `open`.
        HeapHandle::opened(layout, |heap| unsafe { shardheap_raw_open_for(heap, of, owners, values, words, passes) })
    }

    /// A growing heap, which is never recorded. Its keys have as many holds as those of layout deep.
    pub(crate) fn open_growing(first: Room, chunks: u32) -> Result<HeapHandle, Error> {
        let Room { owners, values, words, passes } = first;
        HeapHandle::opened(Layout::Deep, |heap| {
            // SAFETY: as in `open`.
            unsafe { shardheap_raw_open_growing(heap, owners, values, words, passes, chunks) }
        })
    }

    /// Another handle of a growing heap.
    pub(crate) fn share(&self) -> Result<HeapHandle, Error> {
        // SAFETY: the lock gives the handle to this call alone. The other is an empty one of this call.
        let raw = Mutex::new(written(|other| unsafe { shardheap_raw_share(&mut *self.lock(), other) })?);
        Ok(HeapHandle { raw, number: self.number, recorder: Recorder::new(Layout::Deep.holds()) })
    }

    // Nothing panics while the lock is held, so that what it guards is whole even if it were poisoned.
    fn lock(&self) -> MutexGuard<'_, Raw> {
        self.raw.lock().unwrap_or_else(PoisonError::into_inner)
    }

    pub(crate) fn passes(&self) -> u64 {
        // SAFETY: the lock gives the handle to this call alone.
        unsafe { shardheap_raw_passes(&mut *self.lock()) }
    }

    pub(crate) fn chunks(&self) -> u64 {
        // SAFETY: as in `passes`.
        unsafe { shardheap_raw_chunks(&mut *self.lock()) }
    }

    pub(crate) fn capacity(&self, words: u32) -> u64 {
        // SAFETY: as in `passes`.
        unsafe { shardheap_raw_capacity(&mut *self.lock(), words) }
    }

    pub(crate) fn bytes(&self) -> u64 {
        // SAFETY: as in `passes`.
        unsafe { shardheap_raw_bytes(&mut *self.lock()) }
    }

    pub(crate) fn layout(&self) -> Layout {
        let mut number = 0;
        // SAFETY: as in `passes`. The handle is full, so the number is written.
        unsafe { shardheap_raw_layout_of(&mut *self.lock(), &mut number) };
        Layout::numbered(number)
    }

    pub(crate) fn take(&self) -> Result<PassHandle, Error> {
        // SAFETY: the lock gives the heap's handle to this call alone, and the pass's is an empty one of this call.
        let raw = written(|pass| unsafe { shardheap_raw_take(&mut *self.lock(), pass) })?;
        Ok(PassHandle::of(raw, self.number, self.recorder.log()))
    }

    #[cfg(feature = "record")]
    pub(crate) fn record(&mut self) -> Result<crate::history::Recording, Error> {
        let passes = self.passes();
        self.recorder.start(passes)
    }

    pub(crate) fn gather(&self) -> Result<(), Error> {
        // SAFETY: as in `passes`.
        told(unsafe { shardheap_raw_gather(&mut *self.lock()) })
    }

    pub(crate) fn accounts(&self, shard: u32, page: u32) -> Result<PageAccounts, Error> {
        // SAFETY: as in `passes`, and `words` has the size and alignment of what is written.
        let words: PageWords =
            written(|words| unsafe { shardheap_raw_accounts(&mut *self.lock(), shard, page, words) })?;
        let [used, class, live, marked, retired, queued] = words;
        let class = (used == 1).then_some(class);
        Ok(PageAccounts { class, live, marked, retired, queued })
    }

    pub(crate) fn totals(&self) -> Result<Totals, Error> {
        // SAFETY: as in `accounts`.
        let words: SumWords = written(|words| unsafe { shardheap_raw_totals(&mut *self.lock(), words) })?;
        let [live, marked, retired, queued, used_pages, blank_pages] = words;
        Ok(Totals { live, marked, retired, queued, used_pages, blank_pages })
    }

    /// The first live key from a place on, which becomes the place behind it.
    pub(crate) fn next_key(&self, place: &mut u64) -> Result<Option<Key>, Error> {
        let mut key = 0;
        // SAFETY: as in `passes`.
        let code = unsafe { shardheap_raw_next_key(&mut *self.lock(), place, &mut key) };
        next_told(code, key)
    }
}

impl Drop for HeapHandle {
    fn drop(&mut self) {
        let raw = self.raw.get_mut().unwrap_or_else(PoisonError::into_inner);
        // SAFETY: `&mut` gives the handle to this call alone. It is empty afterwards.
        unsafe { shardheap_raw_close(raw) }
    }
}
