//! What is compared: a plain heap, heaps that grow, a table over one, and `sharded_slab`. One caller inserts and
//! removes. Of a heap another one gets and reads, which owns no shard.
use super::place::Place;
use gearlongan::{table, Caller, Error, Growing, Heap, Key, Layout, Pass, Room, Shard, Table, Value};
use sharded_slab::Slab;

/// As many as a heap may have.
pub const PASSES: u32 = 64;
/// As many chunks as a heap may have.
pub const MOST_CHUNKS: u32 = 256;
// How many values of 16 words a caller stores in its turn: those of 8 pages.
const TURN: usize = 24;
const LONG: [u64; 16] = [7; 16];

/// The calls of one thread on values of one word.
pub trait Map {
    /// Takes a hold on a key and gives it back.
    fn get(&mut self, key: u64) -> u64;

    /// The same, and reads the value.
    fn read(&mut self, key: u64) -> u64;

    fn insert(&mut self, value: u64) -> u64;

    /// Removes a key that `insert` returned.
    fn remove(&mut self, key: u64);
}

/// What has the calls of a pass.
pub trait HasPass {
    fn pass(&self) -> &Pass;
}

/// What inserts.
pub trait Inserts: HasPass {
    fn insert(&self, words: &[u64]) -> Result<Key, Error>;
}

impl HasPass for Pass {
    fn pass(&self) -> &Pass {
        self
    }
}

impl HasPass for Shard {
    fn pass(&self) -> &Pass {
        self
    }
}

impl HasPass for Caller {
    fn pass(&self) -> &Pass {
        self
    }
}

impl Inserts for Shard {
    fn insert(&self, words: &[u64]) -> Result<Key, Error> {
        Shard::insert(self, words)
    }
}

impl Inserts for Caller {
    fn insert(&self, words: &[u64]) -> Result<Key, Error> {
        Caller::insert(self, words)
    }
}

/// Stores a value of these words. There is room.
pub fn stored(owner: &impl Inserts, words: &[u64]) -> u64 {
    owner.insert(words).expect("there is room").into()
}

/// A heap: what inserts and removes, what gets and reads, and the value that it reads into.
pub struct InHeap<O, U> {
    owner: O,
    user: U,
    value: Value,
}

impl<O, U> InHeap<O, U> {
    fn of(owner: O, user: U) -> Self {
        InHeap { owner, user, value: Value::default() }
    }
}

impl<O: Inserts, U: HasPass> Map for InHeap<O, U> {
    fn get(&mut self, key: u64) -> u64 {
        self.user.pass().get(Key::from(key)).expect("the key is there").key().into()
    }

    fn read(&mut self, key: u64) -> u64 {
        self.user.pass().get(Key::from(key)).expect("the key is there").read_into(&mut self.value);
        self.value[0]
    }

    fn insert(&mut self, value: u64) -> u64 {
        stored(&self.owner, &[value])
    }

    fn remove(&mut self, key: u64) {
        self.owner.pass().remove(Key::from(key)).expect("the key is there");
    }
}

// A key of a table, which is there.
fn named(key: u64) -> table::Key<u64> {
    table::Key::from_bits(key).expect("a key is not 0")
}

// (A table has no holds: to get is to ask whether the key is there.)
impl Map for Table<u64> {
    fn get(&mut self, key: u64) -> u64 {
        assert!(self.contains(named(key)));
        key
    }

    fn read(&mut self, key: u64) -> u64 {
        Table::get(self, named(key)).expect("the key is there")
    }

    fn insert(&mut self, value: u64) -> u64 {
        Table::insert(self, &value).expect("there is room").to_bits()
    }

    fn remove(&mut self, key: u64) {
        assert!(Table::remove(self, named(key)));
    }
}

impl Map for Slab<u64> {
    fn get(&mut self, key: u64) -> u64 {
        Slab::get(self, key as usize).expect("the key is there").key() as u64
    }

    fn read(&mut self, key: u64) -> u64 {
        *Slab::get(self, key as usize).expect("the key is there")
    }

    fn insert(&mut self, value: u64) -> u64 {
        Slab::insert(self, value).expect("there is room") as u64
    }

    fn remove(&mut self, key: u64) {
        assert!(Slab::remove(self, key as usize));
    }
}

/// The room of a heap for this number of values of one word.
pub fn room(values: u64) -> Room {
    Room { owners: 1, values, words: 1, passes: PASSES }
}

/// The owner of the only shard of a new heap, and a pass.
pub fn plain(values: u64) -> InHeap<Shard, Pass> {
    let heap = Heap::open_for(Layout::Deep, room(values)).expect("there is memory");
    let take = || heap.take().expect("a pass is at home");
    InHeap::of(take().adopt(0).expect("nobody has the shard"), take())
}

/// A heap that grows, whose first chunk has room for this number of values.
pub fn growing(values: u64, chunks: u32) -> Growing {
    Heap::growing(room(values), chunks).expect("there is memory")
}

/// A caller of a heap that grows.
pub fn caller(heap: &Growing) -> Caller {
    heap.take().expect("a pass is at home")
}

/// Two callers of a heap with one chunk, which has room for this number of values.
pub fn of_one_chunk(values: u64) -> InHeap<Caller, Caller> {
    let heap = growing(values, MOST_CHUNKS);
    InHeap::of(caller(&heap), caller(&heap))
}

/// A table whose first chunk has room for this number of values.
pub fn table(values: u64) -> Table<u64> {
    Table::builder().threads(1).room(values).open().expect("there is memory")
}

/// Two callers of a heap with this many chunks, and the keys of values of one word: each chunk has as many of them. All
/// chunks but the last one are then filled with values of 16 words.
///
/// A caller whose shards are full adopts each shard that it may, in all chunks, before it opens another one. So all the
/// passes that there are take turns: most shards have an owner, and are passed over at once.
pub fn of_chunks(chunks: u32, each: u64) -> (InHeap<Caller, Caller>, Vec<u64>) {
    let heap = growing(1, chunks);
    let mut callers: Vec<Caller> = (0..PASSES).map(|_| caller(&heap)).collect();
    let (mut keys, mut opened, mut turn) = (Vec::new(), 0, 0);
    loop {
        for _ in 0..TURN {
            let chunk = Place::of(stored(&callers[turn], &LONG)).chunk;
            if chunk >= opened {
                // This caller owns a shard of the new chunk, and stores its next values there.
                opened = chunk + 1;
                keys.extend((0..each).map(|value| stored(&callers[turn], &[value])));
            }
        }
        if opened == u64::from(chunks) {
            break;
        }
        turn = (turn + 1) % callers.len();
    }
    let owner = callers.swap_remove(turn);
    drop(callers);
    (InHeap::of(owner, caller(&heap)), keys)
}

#[cfg(test)]
mod tests {
    use super::*;

    fn has_what_is_stored(map: &mut impl Map) {
        let keys: Vec<u64> = (0..100).map(|value| map.insert(value)).collect();
        for (value, key) in keys.iter().enumerate() {
            assert_eq!((map.get(*key), map.read(*key)), (*key, value as u64));
            map.remove(*key);
        }
    }

    #[test]
    fn each_map_has_what_is_stored() {
        has_what_is_stored(&mut plain(100));
        has_what_is_stored(&mut of_one_chunk(100));
        has_what_is_stored(&mut of_chunks(10, 1).0);
        has_what_is_stored(&mut Slab::new());
    }

    #[test]
    fn each_chunk_has_as_many_keys() {
        let (mut map, keys) = of_chunks(12, 250);
        assert_eq!(keys.len(), 3000);
        for (n, key) in keys.into_iter().enumerate() {
            assert_eq!((Place::of(key).chunk, map.read(key)), (n as u64 / 250, n as u64 % 250));
        }
        assert_eq!(Place::of(map.insert(7)).chunk, 11);
    }
}
