//! What a workload asks of each rival.

/// A heap beside which the library's is measured. Threads share it.
pub trait Rival: Sync {
    /// What a thread that inserts has for itself.
    type Owner<'a>: Send
    where
        Self: 'a;

    /// The right to insert, which the thread asks for that uses it.
    fn owner(&self, shard: usize) -> Self::Owner<'_>;

    /// Stores the words, and answers their key.
    fn insert(&self, owner: &mut Self::Owner<'_>, words: &[u64]) -> u64;

    /// Removes a key, by the owner that inserted it.
    fn remove_own(&self, owner: &mut Self::Owner<'_>, key: u64);

    /// Removes a key, by another thread.
    fn remove(&self, key: u64);

    /// Takes a hold on a key and gives it back: whether the key was there.
    fn hold(&self, key: u64) -> bool;

    /// The sum of the words of a value, read under a hold.
    fn read(&self, key: u64) -> u64;

    /// The same without a hold, if the rival can.
    fn look(&self, key: u64) -> u64 {
        self.read(key)
    }
}
