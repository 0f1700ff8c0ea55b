//! Values.
use crate::error::Error;
use crate::record::{with_words, Record};
use crate::words::Words;
use std::fmt;
use std::hash::{Hash, Hasher};
use std::ops::Deref;

/// How many words a value may have.
pub const MAX_WORDS: usize = 16;

/// A value: 0 to 16 words, in place. It derefs to them.
///
/// ```
/// use gearlongan::{Error, Value};
///
/// let value = Value::new(&[7, 8])?;
/// assert_eq!(value, [7, 8]);
/// assert_eq!(value.iter().sum::<u64>(), 15);
/// assert_eq!(Value::new(&[0; 17]), Err(Error::TooLong));
/// assert!(Value::default().is_empty());
/// # Ok::<(), Error>(())
/// ```
#[derive(Clone, Copy)]
#[repr(transparent)]
pub struct Value {
    pub(crate) words: Words,
}

impl Value {
    /// The value of these words.
    ///
    /// # Errors
    ///
    /// [`Error::TooLong`] if they are more than 16.
    pub fn new(words: &[u64]) -> Result<Value, Error> {
        Ok(Value { words: Words::copy_of(words).ok_or(Error::TooLong)? })
    }

    /// The value that a record is stored as.
    ///
    /// ```
    /// use gearlongan::Value;
    ///
    /// assert_eq!(Value::of(&(7, [8, 9])), [7, 8, 9]);
    /// ```
    pub fn of<R: Record>(record: &R) -> Value {
        // (A record's words are never too many.)
        with_words(record, Words::copy_of).map_or_else(Value::default, |words| Value { words })
    }

    /// The record that is stored as this value.
    ///
    /// # Errors
    ///
    /// [`Error::WrongKind`] if it has not as many words as the record, or they are none of its words.
    ///
    /// ```
    /// use gearlongan::{Error, Value};
    ///
    /// let value = Value::new(&[7, 8, 9])?;
    /// assert_eq!(value.record(), Ok((7, [8, 9])));
    /// assert_eq!(value.record::<u64>(), Err(Error::WrongKind));
    /// # Ok::<(), Error>(())
    /// ```
    pub fn record<R: Record>(&self) -> Result<R, Error> {
        if self.len() != R::WORDS {
            return Err(Error::WrongKind);
        }
        R::read(self).ok_or(Error::WrongKind)
    }
}

impl Default for Value {
    /// The value of no words.
    #[inline]
    fn default() -> Value {
        Value { words: Words::none() }
    }
}

impl Deref for Value {
    type Target = [u64];

    #[inline]
    fn deref(&self) -> &[u64] {
        self.words.as_slice()
    }
}

impl AsRef<[u64]> for Value {
    fn as_ref(&self) -> &[u64] {
        self
    }
}

impl fmt::Debug for Value {
    fn fmt(&self, f: &mut fmt::Formatter<'_>) -> fmt::Result {
        (**self).fmt(f)
    }
}

impl Hash for Value {
    fn hash<H: Hasher>(&self, state: &mut H) {
        (**self).hash(state);
    }
}

impl PartialEq for Value {
    fn eq(&self, other: &Value) -> bool {
        **self == **other
    }
}

impl Eq for Value {}

impl PartialEq<[u64]> for Value {
    fn eq(&self, other: &[u64]) -> bool {
        **self == *other
    }
}

impl<const N: usize> PartialEq<[u64; N]> for Value {
    fn eq(&self, other: &[u64; N]) -> bool {
        **self == *other
    }
}
