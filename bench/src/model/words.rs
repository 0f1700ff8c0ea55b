//! The words that threads share, and the place of each, as in the heap. Each page has 192 words for its slots. Behind
//! those of all pages come the classes of the pages, then two more words for each page, and two for each shard.
use std::sync::atomic::{AtomicU64, Ordering};

pub const SLOTS: usize = 48;
pub const PAGE_WORDS: usize = 195;
// Those of a page's slots: states, lengths, words of values, and links.
const BODY_WORDS: usize = 4 * SLOTS;

const WIDTHS: [usize; 8] = [1, 2, 3, 4, 6, 8, 12, 16];
const SLOTS_OF: [usize; 8] = [48, 24, 16, 12, 8, 6, 4, 3];

pub const PRESENT: u64 = 1 << 30;
pub const MARKED: u64 = 1 << 31;
/// The flags of a state word.
pub const FLAGS: u64 = PRESENT | MARKED;
/// The count of a state word.
pub const COUNT: u64 = PRESENT - 1;
/// One generation of a state word.
pub const GENERATION: u64 = 1 << 32;

// The bits of a key, above 6 for the slot: as in the layout `deep`.
const PAGE_BITS: u32 = 20;
const SHARD_BITS: u32 = 6;

pub fn class_of(len: usize) -> usize {
    WIDTHS.iter().position(|width| len <= *width).expect("at most 16 words")
}

pub fn width(class: usize) -> usize {
    WIDTHS[class]
}

pub fn slots(class: usize) -> usize {
    SLOTS_OF[class]
}

/// A slot of a page; pages are numbered over the whole heap.
#[derive(Clone, Copy)]
pub struct Spot {
    pub page: usize,
    pub slot: usize,
}

// A line of the cache.
#[repr(align(64))]
struct Line([AtomicU64; LINE_WORDS]);

const LINE_WORDS: usize = 8;

/// All words of a heap with `shards` shards of `pages` pages each. If `PLAIN`, the words of a value are stored by plain
/// moves. A locked instruction follows them, the publish, so their order is the same.
pub struct Words<const PLAIN: bool = false> {
    lines: Box<[Line]>,
    pub shards: usize,
    pub pages: usize,
}

impl<const PLAIN: bool> Words<PLAIN> {
    /// How the words of a value are stored: on x86-64 `SeqCst` is an `xchg`, and `Release` a `mov`.
    pub const FILLS: Ordering = if PLAIN { Ordering::Release } else { Ordering::SeqCst };

    pub fn new(shards: usize, pages: usize) -> Self {
        let all = shards * pages;
        let at_opening = |i: usize| if i < all * BODY_WORDS && i % BODY_WORDS < SLOTS { GENERATION } else { 0 };
        let line = |n: usize| Line(std::array::from_fn(|i| AtomicU64::new(at_opening(LINE_WORDS * n + i))));
        let lines = (0..(all * PAGE_WORDS + 2 * shards).div_ceil(LINE_WORDS)).map(line).collect();
        Words { lines, shards, pages }
    }

    fn word(&self, number: usize) -> &AtomicU64 {
        &self.lines[number / LINE_WORDS].0[number % LINE_WORDS]
    }

    fn in_page(&self, page: usize, offset: usize) -> &AtomicU64 {
        self.word(page * BODY_WORDS + offset)
    }

    // A word behind those of all slots.
    fn behind(&self, words_a_page: usize, offset: usize) -> &AtomicU64 {
        self.word(self.shards * self.pages * words_a_page + offset)
    }

    pub fn class(&self, page: usize) -> &AtomicU64 {
        self.behind(BODY_WORDS, page)
    }

    pub fn head(&self, page: usize) -> &AtomicU64 {
        self.behind(BODY_WORDS + 1, 2 * page)
    }

    pub fn page_link(&self, page: usize) -> &AtomicU64 {
        self.behind(BODY_WORDS + 1, 2 * page + 1)
    }

    pub fn state(&self, spot: Spot) -> &AtomicU64 {
        self.in_page(spot.page, spot.slot)
    }

    pub fn length(&self, spot: Spot) -> &AtomicU64 {
        self.in_page(spot.page, SLOTS + spot.slot)
    }

    pub fn payload(&self, page: usize, i: usize) -> &AtomicU64 {
        self.in_page(page, 2 * SLOTS + i)
    }

    pub fn link(&self, spot: Spot) -> &AtomicU64 {
        self.in_page(spot.page, 3 * SLOTS + spot.slot)
    }

    pub fn owner(&self, shard: usize) -> &AtomicU64 {
        self.behind(PAGE_WORDS, 2 * shard)
    }

    pub fn bell(&self, shard: usize) -> &AtomicU64 {
        self.behind(PAGE_WORDS, 2 * shard + 1)
    }

    /// The key of a slot in a generation.
    pub fn key(&self, spot: Spot, generation: u64) -> u64 {
        let (shard, page) = (spot.page / self.pages, spot.page % self.pages);
        ((((generation << SHARD_BITS) + shard as u64) << PAGE_BITS) + page as u64) * 64 + spot.slot as u64
    }

    /// The slot and the generation that a key names.
    pub fn place(&self, key: u64) -> Option<(Spot, u64)> {
        let slot = (key & 63) as usize;
        let page = ((key >> 6) & ((1 << PAGE_BITS) - 1)) as usize;
        let shard = ((key >> (6 + PAGE_BITS)) & ((1 << SHARD_BITS) - 1)) as usize;
        if slot >= SLOTS || page >= self.pages || shard >= self.shards {
            return None;
        }
        Some((Spot { page: shard * self.pages + page, slot }, key >> (6 + PAGE_BITS + SHARD_BITS)))
    }
}
