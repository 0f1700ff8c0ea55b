//! What the words of the library's heap take, from its layout: computed, since it runs as another program.

use crate::model::{slots_for, PAGE_WORDS};

const WORD_BYTES: usize = 8;
const SEGMENT_PAGES: usize = 8;
// The owner word of a shard, and its bell.
const SHARD_WORDS: usize = 2;
// Of a shard, and of all shards of a heap, with keys of the layout `wide`.
const WIDE_SHARD_PAGES: usize = 1024;
const WIDE_PAGES: usize = 256 * WIDE_SHARD_PAGES;

/// The bytes of a value in a full page.
pub fn in_full_pages(words: usize) -> f64 {
    (PAGE_WORDS * WORD_BYTES) as f64 / slots_for(words) as f64
}

/// The bytes of a heap with room for this number of values of this number of words. The layout is `wide`, with the
/// fewest shards that serve, all of one number of segments. If `wide` has too few pages, it is `deep` with one shard.
pub fn heap_bytes(values: usize, words: usize) -> usize {
    let pages = values.div_ceil(slots_for(words));
    let shards = if pages <= WIDE_PAGES { pages.div_ceil(WIDE_SHARD_PAGES) } else { 1 };
    let segments = pages.div_ceil(shards * SEGMENT_PAGES);
    shards * (segments * SEGMENT_PAGES * PAGE_WORDS + SHARD_WORDS) * WORD_BYTES
}

#[cfg(test)]
mod tests {
    use super::*;

    #[test]
    fn a_full_page_has_so_many_bytes_for_a_value() {
        assert_eq!([in_full_pages(1), in_full_pages(16)], [32.5, 520.0]);
    }

    #[test]
    fn heaps_have_whole_segments_and_two_words_a_shard() {
        let table = [
            // One page, and with it a segment.
            (48, 1, 8 * 1560 + 16),
            // 21 pages: 3 segments.
            (1000, 1, 24 * 1560 + 16),
            // 209 pages: 27 segments.
            (10_000, 1, 216 * 1560 + 16),
            // 1,875 pages: 2 shards of 118 segments.
            (90_000, 1, 1888 * 1560 + 32),
            // 334 pages: 42 segments.
            (1000, 16, 336 * 1560 + 16),
            // 3,334 pages: 4 shards of 105 segments.
            (10_000, 16, 3360 * 1560 + 64),
            // 262,144 pages: 256 shards of 128 segments.
            (786_432, 16, 262_144 * 1560 + 256 * 16),
            // One page more: 1 shard of 32,769 segments.
            (786_433, 16, 262_152 * 1560 + 16),
        ];
        for (values, words, bytes) in table {
            assert_eq!(heap_bytes(values, words), bytes, "{values} values of {words} words");
        }
    }
}
