//! What it takes to open a map and to fill it, and how many words a heap that grows then has.
use super::maps::{caller, growing, room, stored, MOST_CHUNKS};
use super::place::{words, Place, PAGE_WORDS};
use gearlongan::{Heap, Layout};
use sharded_slab::Slab;
use std::collections::HashSet;
use std::hint::black_box;
use std::time::Instant;

/// What is filled: a plain heap with room for the values, a heap that grows, and `sharded_slab`.
#[derive(Clone, Copy, Debug, PartialEq, Eq)]
pub enum Side {
    Plain,
    Growing,
    Sharded,
}

pub const SIDES: [Side; 3] = [Side::Plain, Side::Growing, Side::Sharded];
pub const VALUES: [u64; 3] = [100_000, 1_000_000, 10_000_000];

impl Side {
    pub fn name(self) -> &'static str {
        match self {
            Side::Plain => "plain heap",
            Side::Growing => "growing heap",
            Side::Sharded => "`sharded_slab`",
        }
    }

    /// The side of this name.
    pub fn of_name(name: &str) -> Option<Side> {
        SIDES.into_iter().find(|side| side.name() == name)
    }
}

// The nanoseconds of one value, once the map is open.
fn filled(start: Instant, values: u64, mut insert: impl FnMut(u64) -> u64) -> f64 {
    let sum = (0..values).fold(0u64, |sum, value| sum.wrapping_add(insert(value)));
    black_box(sum);
    start.elapsed().as_nanos() as f64 / values as f64
}

/// The nanoseconds of one value, if a map is opened and filled with this many of one word. The process should have done
/// nothing before.
pub fn nanoseconds(side: Side, values: u64) -> f64 {
    let start = Instant::now();
    match side {
        Side::Plain => {
            let heap = Heap::open_for(Layout::Deep, room(values)).expect("there is memory");
            let owner = heap.take().expect("a pass is at home").adopt(0).expect("nobody has the shard");
            filled(start, values, |value| stored(&owner, &[value]))
        }
        Side::Growing => {
            let owner = caller(&growing(1, MOST_CHUNKS));
            filled(start, values, |value| stored(&owner, &[value]))
        }
        Side::Sharded => {
            let slab = Slab::new();
            filled(start, values, |value| slab.insert(value).expect("there is room") as u64)
        }
    }
}

/// The words of a heap that grows, after one thread has filled it.
#[derive(Clone, Copy, Debug, PartialEq)]
pub struct Words {
    /// Of all its chunks.
    pub chunks: u64,
    /// Of the pages that have a class: each has a value.
    pub classed: u64,
    /// How many times as many words the chunks after the first one had as those pages, where that was the most.
    pub most: f64,
}

/// Fills a heap that grows with this number of values of one word.
pub fn words_of(values: u64) -> Words {
    let owner = caller(&growing(1, MOST_CHUNKS));
    let (mut pages, mut last, mut opened) = (HashSet::new(), None, 1);
    let mut found = Words { chunks: words(0), classed: 0, most: 0.0 };
    for value in 0..values {
        let place = Place::of(stored(&owner, &[value]));
        if last != Some(place) && pages.insert(place) {
            found.classed += PAGE_WORDS;
        }
        last = Some(place);
        if place.chunk >= opened {
            opened = place.chunk + 1;
            found.chunks += words(place.chunk);
            found.most = found.most.max((found.chunks - words(0)) as f64 / found.classed as f64);
        }
    }
    found
}

#[cfg(test)]
mod tests {
    use super::super::place::pages;
    use super::*;

    #[test]
    fn each_side_is_filled() {
        assert!(SIDES.into_iter().all(|side| nanoseconds(side, 5000) > 0.0));
        assert!(SIDES.into_iter().all(|side| Side::of_name(side.name()) == Some(side)));
    }

    // The shapes are those of the library: each chunk has so many values when the next one opens.
    #[test]
    fn chunks_are_as_large_as_their_pages() {
        let heap = growing(1, MOST_CHUNKS);
        let owner = caller(&heap);
        for chunk in 0..18 {
            for value in 0..48 * pages(chunk) {
                assert_eq!(Place::of(stored(&owner, &[value])).chunk, chunk);
            }
            assert_eq!(heap.chunks(), chunk + 1);
        }
    }

    #[test]
    fn words_are_those_of_chunks_and_of_pages() {
        // Two segments in two chunks, of which the second has one page in use.
        let two = words_of(385);
        assert_eq!((two.chunks, two.classed), (2 * 1562, 9 * 195));
        assert_eq!(two.most, 1562.0 / (9.0 * 195.0));
        assert!((1.4..1.6).contains(&words_of(100_000).most));
    }
}
