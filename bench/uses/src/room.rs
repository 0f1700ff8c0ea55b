//! What room a heap has left after the mix of its lengths changed. A page has values of one length class while any of
//! its slots is taken; a page whose slots are all free may take another class.
use crate::dice::Dice;
use gearlongan::{Error, Heap, Key, Layout, Shape, Shard};

// 32 segments of 8 pages.
const SEGMENTS: u32 = 32;
const SHORT: usize = 1;
const LONG: usize = 16;

/// How many values of 16 words a shard of 256 pages has room for.
#[derive(Clone, Copy, Debug, PartialEq, Eq)]
pub struct Left {
    /// How many in a hundred of the values of one word, which filled it before, were removed.
    pub removed: usize,
    /// The values of 16 words that it then had room for.
    pub values: usize,
    /// Those of a shard that had no value before.
    pub fresh: usize,
}

fn opened() -> Shard {
    let heap = Heap::open(Layout::Wide, Shape { shards: 1, segments: SEGMENTS, passes: 1 }).expect("there is memory");
    heap.take().expect("a pass is at home").adopt(0).expect("nobody has the shard")
}

// Inserts values of this many words until there is no room.
fn filled(shard: &Shard, words: usize) -> Vec<Key> {
    let mut keys = Vec::new();
    loop {
        match shard.insert(&[7; LONG][..words]) {
            Ok(key) => keys.push(key),
            Err(Error::Full) => return keys,
            Err(error) => panic!("an insert is refused: {error}"),
        }
    }
}

// Removes this many in a hundred, which the dice choose.
fn thin_out(shard: &Shard, keys: &[Key], removed: usize) {
    let mut dice = Dice::new(0);
    for key in keys.iter().filter(|_| dice.below(100) < removed) {
        shard.remove(*key).expect("the key is there");
    }
}

/// What is left after this many in a hundred of the short values were removed.
pub fn left(removed: usize) -> Left {
    let (shard, fresh) = (opened(), filled(&opened(), LONG).len());
    thin_out(&shard, &filled(&shard, SHORT), removed);
    Left { removed, values: filled(&shard, LONG).len(), fresh }
}

#[cfg(test)]
mod tests {
    use super::*;

    // 256 pages have 3 slots of 16 words each.
    #[test]
    fn a_shard_without_values_has_the_room_of_a_new_one() {
        assert_eq!(left(100), Left { removed: 100, values: 768, fresh: 768 });
    }

    #[test]
    fn values_that_stay_keep_their_pages() {
        assert_eq!(left(0).values, 0);
        assert!(left(50).values < 768);
    }
}
