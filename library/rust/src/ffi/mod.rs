//! The calls of the library, and handles as Rust uses them. What is unsafe below a slab is here and in `words`.
//!
//! What the reasons below lean on. The declarations are those of `shardheap.h`. A handle begins as zeroed bytes, and
//! nothing but the library writes it. It is never copied: it lies in a value that is neither `Copy` nor `Clone`, and to
//! move that is to move the handle. No call calls back, so that a handle which one thread has is used by one call.
use crate::ended::Ended;
use crate::error::{told, Error};
use crate::key::Key;
use crate::value::{Value, MAX_WORDS};
use std::ffi::c_void;

mod heap;
mod pass;

pub(crate) use heap::HeapHandle;
pub(crate) use pass::{PassHandle, ReceiptHandle};

/// What a handle is in memory. Zeroed, it is empty.
#[repr(C)]
#[derive(Debug)]
struct Raw {
    at: *mut c_void,
    full: bool,
}

// SAFETY: a handle owns what it names, and may go to whatever thread: so the library has it of the handles of a heap,
// of a pass and of a receipt.
unsafe impl Send for Raw {}

impl Default for Raw {
    /// An empty handle.
    fn default() -> Raw {
        Raw { at: std::ptr::null_mut(), full: false }
    }
}

/// What a call writes: a handle that it fills, or numbers. The call returns its code.
fn written<T: Default>(call: impl FnOnce(&mut T) -> u32) -> Result<T, Error> {
    let mut target = T::default();
    told(call(&mut target))?;
    Ok(target)
}

/// The code of the library for no further key.
const NO_KEY: u32 = 28;

/// Whether a call found a next key, by its code.
fn is_found(code: u32) -> Result<bool, Error> {
    match code {
        NO_KEY => Ok(false),
        code => told(code).map(|()| true),
    }
}

/// What a code means of a call that writes the next key.
fn next_told(code: u32, key: u64) -> Result<Option<Key>, Error> {
    Ok(is_found(code)?.then(|| Key::from(key)))
}

/// What C's `shardheap_page` is: used, class, live, marked, retired, queued.
type PageWords = [u32; 6];

/// What C's `shardheap_sums` is: live, marked, retired, queued, used pages, blank pages.
type SumWords = [u32; 6];

/// What C's `shardheap_loaded` is: a key to load, and what its load returned.
#[repr(C)]
#[derive(Clone, Copy)]
struct Loaded {
    key: u64,
    length: u64,
    code: u32,
    words: [u64; MAX_WORDS],
}

impl Loaded {
    const NONE: Loaded = Loaded { key: 0, length: 0, code: 0, words: [0; MAX_WORDS] };

    /// What the load returned.
    #[inline]
    fn result(&self) -> Result<Value, Error> {
        told(self.code)?;
        Value::new(&self.words[..MAX_WORDS.min(self.length as usize)])
    }
}

/// What C's `shardheap_live_key` is: a live key that a walk met, the place behind it, and its value.
#[repr(C)]
#[derive(Debug)]
pub(crate) struct LiveKey {
    pub(crate) key: Key,
    behind: u64,
    pub(crate) value: Value,
}

impl LiveKey {
    /// A walk goes on behind it over all keys.
    pub(crate) fn none() -> LiveKey {
        LiveKey::behind(0)
    }

    /// A walk goes on at this place.
    fn behind(place: u64) -> LiveKey {
        LiveKey { key: Key::from(0), behind: place, value: Value::default() }
    }
}

/// What C's `shardheap_held_key` is: the same with a hold in place of the value, or without one.
#[repr(C)]
#[derive(Default)]
struct HeldKey {
    key: u64,
    behind: u64,
    held: u32,
}

extern "C" {
    fn shardheap_raw_open(heap: *mut Raw, layout: u32, shards: u32, segments: u32, passes: u32) -> u32;
    fn shardheap_raw_open_for(heap: *mut Raw, layout: u32, owners: u32, values: u64, words: u32, passes: u32) -> u32;
    fn shardheap_raw_open_growing(
        heap: *mut Raw,
        owners: u32,
        values: u64,
        words: u32,
        passes: u32,
        chunks: u32,
    ) -> u32;
    fn shardheap_raw_chunks(heap: *mut Raw) -> u64;
    fn shardheap_raw_passes(heap: *mut Raw) -> u64;
    fn shardheap_raw_capacity(heap: *mut Raw, words: u32) -> u64;
    fn shardheap_raw_bytes(heap: *mut Raw) -> u64;
    fn shardheap_raw_layout_of(heap: *mut Raw, layout: *mut u32) -> u32;
    fn shardheap_raw_share(heap: *mut Raw, other: *mut Raw) -> u32;
    fn shardheap_raw_take(heap: *mut Raw, pass: *mut Raw) -> u32;
    fn shardheap_raw_close(heap: *mut Raw);
    fn shardheap_raw_gather(heap: *mut Raw) -> u32;
    fn shardheap_raw_accounts(heap: *mut Raw, shard: u32, page: u32, told: *mut PageWords) -> u32;
    fn shardheap_raw_totals(heap: *mut Raw, told: *mut SumWords) -> u32;
    fn shardheap_raw_next_key(heap: *mut Raw, place: *mut u64, key: *mut u64) -> u32;
    fn shardheap_raw_give(pass: *mut Raw) -> u32;
    fn shardheap_raw_pass_lose(pass: *mut Raw) -> u32;
    fn shardheap_raw_adopt(pass: *mut Raw, shard: u64) -> u32;
    fn shardheap_raw_leave(pass: *mut Raw) -> u32;
    fn shardheap_raw_leave_idle(pass: *mut Raw) -> u32;
    fn shardheap_raw_prepare(pass: *mut Raw, words: u32, page: *mut u32) -> u32;
    fn shardheap_raw_collect(pass: *mut Raw) -> u32;
    fn shardheap_raw_insert(pass: *mut Raw, words: *const u64, count: usize, key: *mut u64) -> u32;
    fn shardheap_raw_get(pass: *mut Raw, key: u64) -> u32;
    fn shardheap_raw_release(pass: *mut Raw, key: u64) -> u32;
    fn shardheap_raw_remove(pass: *mut Raw, key: u64) -> u32;
    fn shardheap_raw_get_ended(pass: *mut Raw, key: u64, ended: *mut Ended) -> u32;
    fn shardheap_raw_release_ended(pass: *mut Raw, key: u64, ended: *mut Ended) -> u32;
    fn shardheap_raw_remove_ended(pass: *mut Raw, key: u64, ended: *mut Ended) -> u32;
    fn shardheap_raw_read(pass: *mut Raw, key: u64, words: *mut u64, room: usize, length: *mut u64) -> u32;
    fn shardheap_raw_load(pass: *mut Raw, key: u64, words: *mut u64, room: usize, length: *mut u64) -> u32;
    fn shardheap_raw_load_each(pass: *mut Raw, loads: *mut Loaded, count: usize) -> u32;
    fn shardheap_raw_take_value(pass: *mut Raw, key: u64, words: *mut u64, room: usize, length: *mut u64) -> u32;
    fn shardheap_raw_next_live(pass: *mut Raw, from: u64, before: u64, next: *mut LiveKey) -> u32;
    fn shardheap_raw_next_held(pass: *mut Raw, from: u64, before: u64, next: *mut HeldKey) -> u32;
    fn shardheap_raw_pages_left(pass: *mut Raw, pages: *mut u64) -> u32;
    fn shardheap_raw_slots_out(pass: *mut Raw, slots: *mut u64) -> u32;
    fn shardheap_raw_next_own_key(pass: *mut Raw, place: *mut u64, key: *mut u64) -> u32;
    fn shardheap_raw_receipt_make(pass: *mut Raw, receipt: *mut Raw) -> u32;
    fn shardheap_raw_heed(pass: *mut Raw, receipt: *mut Raw) -> u32;
    fn shardheap_raw_receipt_close(receipt: *mut Raw);
}
