//! What the uses ask of each map.

/// What a map is opened for. Only the heap has its room from the start.
#[derive(Clone, Copy, Debug)]
pub struct Room {
    /// How many threads insert.
    pub owners: usize,
    /// How many values each of them has at most.
    pub values: usize,
    /// How many words the longest value has.
    pub words: usize,
}

/// A map that threads share. Values are of 64-bit words.
pub trait Map: Sync + Sized {
    /// What a thread has that uses the map.
    type Caller<'a>: Caller
    where
        Self: 'a;
    /// What a thread has while another thread has its turn: see `handing`.
    type Idle<'a>: Send
    where
        Self: 'a;

    fn open(room: Room) -> Self;

    fn idle(&self) -> Self::Idle<'_>;

    /// Begins to use the map, as the owner of this shard if the map has owners.
    fn begin<'a>(&'a self, idle: Self::Idle<'a>, shard: usize) -> Self::Caller<'a>;

    /// Ends what `begin` began.
    fn end<'a>(&'a self, caller: Self::Caller<'a>) -> Self::Idle<'a>;

    fn caller(&self, shard: usize) -> Self::Caller<'_> {
        self.begin(self.idle(), shard)
    }
}

/// The calls of one thread.
pub trait Caller {
    /// Stores the words, and returns their key.
    fn insert(&mut self, words: &[u64]) -> u64;

    /// Removes a key, which this thread or another one inserted: whether it was there.
    fn remove(&mut self, key: u64) -> bool;

    /// The sum of the words of a value, as a number that wraps; none if the key is not there.
    fn read(&mut self, key: u64) -> Option<u64>;
}
