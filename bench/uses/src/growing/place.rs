//! Where the value of a key lies in a heap that grows, and how large its chunks are.

const WORD_BITS: u64 = 64;
const CHUNK_BITS: u64 = 8;
/// A key has its slot in 6 bits, then its page in 12 and its shard in 6, and above them its generation and its chunk.
const SLOT_BITS: u64 = 6;
const PAGE_BITS: u64 = 12;
const SHARD_BITS: u64 = 6;

/// The words of a page.
pub const PAGE_WORDS: u64 = 195;
const SEGMENT_PAGES: u64 = 8;
// Those of a shard beside its pages.
const SHARD_WORDS: u64 = 2;

/// The page of a key.
#[derive(Clone, Copy, Debug, PartialEq, Eq, Hash)]
pub struct Place {
    pub chunk: u64,
    /// Its number in the chunk, where the pages of one shard come after those of another.
    pub page: u64,
}

impl Place {
    pub fn of(key: u64) -> Place {
        let place = key >> SLOT_BITS;
        Place { chunk: key >> (WORD_BITS - CHUNK_BITS), page: place & ((1 << (PAGE_BITS + SHARD_BITS)) - 1) }
    }
}

/// How many shards a chunk has, and of how many segments each: by its number in the heap, except for the first one,
/// which is of one segment here. `crates/sh_grown/src/chunk_shapes.rt` has the same shapes.
fn shape(chunk: u64) -> (u64, u64) {
    let doublings = (chunk.saturating_sub(1) / 2).min(15);
    (1 << doublings.min(6), 1 << doublings.saturating_sub(6))
}

/// The pages of a chunk.
pub fn pages(chunk: u64) -> u64 {
    let (shards, segments) = shape(chunk);
    shards * segments * SEGMENT_PAGES
}

/// The words of a chunk.
pub fn words(chunk: u64) -> u64 {
    let (shards, _) = shape(chunk);
    pages(chunk) * PAGE_WORDS + shards * SHARD_WORDS
}

#[cfg(test)]
mod tests {
    use super::*;

    #[test]
    fn the_parts_of_a_key_are_apart() {
        let key = 3 << 56 | 9 << 24 | 5 << 18 | 7 << 6 | 63;
        assert_eq!(Place::of(key), Place { chunk: 3, page: 5 << 12 | 7 });
    }

    #[test]
    fn every_second_chunk_is_twice_as_large() {
        assert_eq!([0, 1, 2, 3, 4, 5, 14, 15].map(|chunk| pages(chunk) / 8), [1, 1, 1, 2, 2, 4, 64, 128]);
        assert_eq!([30, 31, 255].map(shape), [(64, 256), (64, 512), (64, 512)]);
        assert_eq!([0, 5].map(words), [8 * 195 + 2, 4 * (8 * 195 + 2)]);
    }
}
