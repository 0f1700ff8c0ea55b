//! The number that names a value of a slab: the key of one of its heaps, and above it the number of that heap.
//!
//! A key of layout [`Tagged`](crate::Layout::Tagged) has a generation of 32 bits, 6 bits of the shard, 8 of the page
//! and 6 of the slot. So bits 52 to 59 are free for the heap, and the four above for the user.
use crate::Key;

/// Bits of a key in layout `Tagged`.
pub(super) const KEY_BITS: u32 = 52;

/// The most heaps that a slab has.
pub(super) const MOST_HEAPS: usize = 256;

/// The shards of a heap in layout `Tagged`, at most.
pub(super) const MOST_SHARDS: u32 = 64;

/// The slots of a page, for values of no words.
pub(super) const SLOTS: usize = 48;

/// The number of a key of this heap.
#[inline]
pub(super) fn number(heap: usize, key: Key) -> u64 {
    (heap as u64) << KEY_BITS | u64::from(key)
}

/// The number of the first place of a page, of generation 0.
pub(super) fn first_of_page(heap: usize, shard: usize, page: usize) -> u64 {
    (heap as u64) << KEY_BITS | (shard as u64) << 14 | (page as u64) << 6
}

/// The number of the same place with this generation, in place of 0.
pub(super) fn with_generation(place: u64, generation: u32) -> u64 {
    place | u64::from(generation) << 20
}

/// The key without its heap.
#[inline]
pub(super) fn key(number: u64) -> Key {
    Key::from(number & ((1 << KEY_BITS) - 1))
}

/// The number of the heap.
#[inline]
pub(super) fn heap(number: u64) -> usize {
    (number >> KEY_BITS) as usize
}

/// The generation of the key: how many values its place had.
#[inline]
pub(super) fn generation(number: u64) -> u32 {
    (number >> 20) as u32
}

/// The shard of its heap.
#[inline]
pub(super) fn shard(number: u64) -> u32 {
    (number >> 14) as u32 % MOST_SHARDS
}

/// The page of its shard.
#[inline]
pub(super) fn page(number: u64) -> usize {
    (number >> 6) as usize % 256
}

/// The slot of its page.
#[inline]
pub(super) fn slot(number: u64) -> usize {
    number as usize % 64
}

#[cfg(test)]
mod tests {
    use super::*;

    #[test]
    fn a_number_is_all_of_its_parts() {
        let parts = |number| (heap(number), generation(number), shard(number), page(number), slot(number));
        let number = 0xABC << 52 | 0x1234_5678 << 20 | 33 << 14 | 200 << 6 | 47;
        assert_eq!(parts(number), (0xABC, 0x1234_5678, 33, 200, 47));
        assert_eq!(super::number(3, Key::from(7 << 20)), 3 << 52 | 7 << 20);
        assert_eq!(key(number), Key::from(number & ((1 << 52) - 1)));
        assert_eq!(with_generation(first_of_page(0xABC, 33, 200) + 47, 0x1234_5678), number);
        // Each bit changes one of them.
        assert!((0..64).all(|bit| parts(number ^ 1 << bit) != parts(number)));
    }
}
