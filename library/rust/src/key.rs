//! Keys.
use std::fmt;

/// The name of a value: a number that no other value of its heap ever has.
///
/// A key is plain data, to be stored, sent, and turned into a `u64` and back. A number that is no key of a heap is
/// refused there.
///
/// ```
/// use gearlongan::Key;
///
/// let key = Key::from(16_777_216);
/// assert_eq!(u64::from(key), 16_777_216);
/// assert_eq!(key.to_string(), "16777216");
/// ```
#[derive(Clone, Copy, PartialEq, Eq, PartialOrd, Ord, Hash)]
#[repr(transparent)]
pub struct Key(u64);

impl From<u64> for Key {
    #[inline]
    fn from(number: u64) -> Key {
        Key(number)
    }
}

impl From<Key> for u64 {
    #[inline]
    fn from(key: Key) -> u64 {
        key.0
    }
}

impl fmt::Debug for Key {
    fn fmt(&self, f: &mut fmt::Formatter<'_>) -> fmt::Result {
        write!(f, "Key({:#x})", self.0)
    }
}

impl fmt::Display for Key {
    fn fmt(&self, f: &mut fmt::Formatter<'_>) -> fmt::Result {
        self.0.fmt(f)
    }
}
