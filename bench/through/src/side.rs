//! What the workloads ask of each side.

pub const SAMPLES: usize = 16;
pub const WORDS: usize = 16;
/// How many keys a batch of loads has.
pub const EIGHT: usize = 8;

/// Sixteen values, the same as `tool_bench` stores: the one at place n of a list is the one at n % 16 here. C has the
/// same structure.
#[repr(C)]
pub struct Samples {
    pub words: [[u64; WORDS]; SAMPLES],
    /// Of each value.
    pub length: usize,
}

impl Samples {
    pub fn new(length: usize) -> Samples {
        let words = |place: usize| std::array::from_fn(|k| (place * WORDS + k) as u64);
        Samples { words: std::array::from_fn(words), length }
    }

    /// The words of the value at a place of a list.
    #[inline]
    pub fn at(&self, place: usize) -> &[u64] {
        &self.words[place % SAMPLES][..self.length]
    }
}

/// What a heap has room for.
#[derive(Clone, Copy, Debug)]
pub struct Place {
    pub values: u64,
    /// Of each value.
    pub words: u32,
    /// How many chunks it may have, or 0 if it does not grow.
    pub chunks: u32,
    /// How many passes it has beside the owner's.
    pub users: u32,
}

/// A pass that uses keys, by the calls of the library. Each function is one loop, in the side's language. A call that is
/// refused ends the program: none should be.
pub trait User: Send {
    /// Takes a hold on each key and gives it back. Answers the sum of the keys.
    fn get_each(&mut self, keys: &[u64]) -> u64;

    /// Reads the value of each key under a hold. Answers the sum of the words.
    fn read_each(&mut self, keys: &[u64]) -> u64;

    /// The same, into one value of the caller's.
    fn read_each_into(&mut self, keys: &[u64]) -> u64;

    /// Reads the value of each key by one call, which keeps no hold. Answers the sum of the words.
    fn load_each(&mut self, keys: &[u64]) -> u64;

    /// The same, into one value of the caller's.
    fn load_each_into(&mut self, keys: &[u64]) -> u64;

    /// The same as `load_each`, by one call for each eight keys. Keys after the last eight are left out.
    fn load_in_eights(&mut self, keys: &[u64]) -> u64;

    /// Walks over all live keys with their values, this many times. Answers the sum of the words.
    fn walk_over(&mut self, walks: usize) -> u64;
}

/// A heap with an owner of its shard and passes that own nothing. Its functions are loops as those of a user are.
pub trait Side: Sized {
    type User: User;

    fn open(place: Place) -> Self;

    /// The owner, as one that uses keys.
    fn owner(&mut self) -> &mut Self::User;

    /// The passes that own nothing.
    fn users(&mut self) -> &mut [Self::User];

    /// Goes through the keys of the owner's shard until it was given `count` of them, from the first key again after
    /// the last. Answers the sum of the keys. The shard has a key.
    fn own_keys(&mut self, count: usize) -> u64;

    /// Inserts a value for each key, which it writes there. Answers the sum of the keys.
    fn insert_each(&mut self, samples: &Samples, keys: &mut [u64]) -> u64;

    /// Removes each key, by the owner.
    fn remove_each(&mut self, keys: &[u64]);
}
