//! Keys of tables.
use crate::Record;
use std::cmp::Ordering;
use std::fmt;
use std::hash::{Hash, Hasher};
use std::marker::PhantomData;
use std::num::{NonZeroU64, ParseIntError};
use std::str::FromStr;

/// The name of a record in a table: a number that no other record of the table ever has. It is never 0.
///
/// A key is plain data of 8 bytes, whatever the record is, and `Option<Key<R>>` has 8 bytes too. A key is written as a
/// decimal number, and is read from one. With the feature `serde` it is serialized as a number, or in a format that
/// people read, such as JSON, as its text.
///
/// ```
/// use gearlongan::table::Key;
/// use gearlongan::Table;
///
/// let table = Table::new();
/// let key: Key<u32> = table.insert(&7)?;
/// let written = key.to_string();
/// assert_eq!(written.parse(), Ok(key));
/// assert_eq!(Key::from_bits(key.to_bits()), Some(key));
/// assert!("0".parse::<Key<u32>>().is_err());
/// assert_eq!(std::mem::size_of::<Option<Key<u32>>>(), 8);
/// # Ok::<(), gearlongan::Error>(())
/// ```
///
/// A key is a record too, and so is an `Option` of one. So records name records, of their own table or another one:
///
/// ```
/// # use gearlongan::table::Key;
/// # use gearlongan::Table;
/// gearlongan::record! {
///     struct Entity {
///         health: u32,
///         target: Option<Key<Entity>>,
///     }
/// }
///
/// let world = Table::new();
/// let first = world.insert(&Entity { health: 100, target: None })?;
/// let second = world.insert(&Entity { health: 90, target: Some(first) })?;
/// let target = world.get(second).and_then(|entity| entity.target);
/// assert!(target.is_some_and(|key| world.remove(key)));
/// # Ok::<(), gearlongan::Error>(())
/// ```
///
/// A table takes no key of another type:
///
/// ```compile_fail,E0308
/// # use gearlongan::Table;
/// let (users, orders) = (Table::<u32>::new(), Table::<u64>::new());
/// let key = users.insert(&7).unwrap();
/// orders.get(key);
/// ```
///
/// A key of another table of the same type is not refused, nor one of a table that was dropped, since a key has no bits
/// for it. Two tables issue the same numbers. If both have records of one type, wrap it in a type of its own for each
/// table: [`record!`] does so with `struct User(u32);`.
///
/// [`record!`]: crate::record
#[repr(transparent)]
pub struct Key<R> {
    bits: NonZeroU64,
    record: PhantomData<fn() -> R>,
}

impl<R> Key<R> {
    /// The key as a number, to be stored or sent.
    #[inline]
    pub fn to_bits(self) -> u64 {
        self.bits.get()
    }

    /// The key of a number. None if it is 0. A number that the table never issued finds nothing there.
    #[inline]
    pub fn from_bits(bits: u64) -> Option<Key<R>> {
        Some(Key { bits: NonZeroU64::new(bits)?, record: PhantomData })
    }

    #[inline]
    pub(super) fn raw(self) -> crate::Key {
        crate::Key::from(self.bits.get())
    }
}

impl<R> Clone for Key<R> {
    #[inline]
    fn clone(&self) -> Key<R> {
        *self
    }
}

impl<R> Copy for Key<R> {}

impl<R> PartialEq for Key<R> {
    #[inline]
    fn eq(&self, other: &Key<R>) -> bool {
        self.bits == other.bits
    }
}

impl<R> Eq for Key<R> {}

impl<R> PartialOrd for Key<R> {
    fn partial_cmp(&self, other: &Key<R>) -> Option<Ordering> {
        Some(self.cmp(other))
    }
}

impl<R> Ord for Key<R> {
    fn cmp(&self, other: &Key<R>) -> Ordering {
        self.bits.cmp(&other.bits)
    }
}

impl<R> Hash for Key<R> {
    fn hash<H: Hasher>(&self, state: &mut H) {
        self.bits.hash(state);
    }
}

impl<R> Record for Key<R> {
    const WORDS: usize = 1;

    #[inline]
    fn write(&self, words: &mut [u64]) {
        self.to_bits().write(words);
    }

    #[inline]
    fn read(words: &[u64]) -> Option<Key<R>> {
        Key::from_bits(u64::read(words)?)
    }
}

// No key is 0.
impl<R> Record for Option<Key<R>> {
    const WORDS: usize = 1;

    #[inline]
    fn write(&self, words: &mut [u64]) {
        self.map_or(0, Key::to_bits).write(words);
    }

    #[inline]
    fn read(words: &[u64]) -> Option<Option<Key<R>>> {
        u64::read(words).map(Key::from_bits)
    }
}

impl<R> fmt::Debug for Key<R> {
    fn fmt(&self, f: &mut fmt::Formatter<'_>) -> fmt::Result {
        write!(f, "Key({:#x})", self.bits)
    }
}

impl<R> fmt::Display for Key<R> {
    fn fmt(&self, f: &mut fmt::Formatter<'_>) -> fmt::Result {
        self.bits.fmt(f)
    }
}

impl<R> fmt::LowerHex for Key<R> {
    fn fmt(&self, f: &mut fmt::Formatter<'_>) -> fmt::Result {
        fmt::LowerHex::fmt(&self.bits, f)
    }
}

impl<R> FromStr for Key<R> {
    type Err = ParseIntError;

    fn from_str(text: &str) -> Result<Key<R>, ParseIntError> {
        Ok(Key { bits: text.parse()?, record: PhantomData })
    }
}
