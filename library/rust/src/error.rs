//! Why a call is refused.
use crate::pass::Pass;
use crate::shard::Shard;
use std::error;
use std::fmt;

/// Why a call is refused. After a refused call the values, the holds and the issued keys are as they were.
///
/// ```
/// use gearlongan::{Error, Heap, Layout, Shape};
///
/// let refused = Heap::open(Layout::Wide, Shape { shards: 0, segments: 1, passes: 1 }).err();
/// assert_eq!(refused, Some(Error::BadShape));
/// assert_eq!(Error::BadShape.to_string(), "the numbers are outside the limits of the layout");
/// ```
#[derive(Clone, Copy, Debug, PartialEq, Eq, Hash)]
#[non_exhaustive]
pub enum Error {
    /// The number is no key of the layout, or its place is outside the heap's shape.
    BadKey,
    /// The key was never issued, or it was removed.
    Gone,
    /// The key has as many holds as a key may have.
    Crowded,
    /// The pass has 16 holds.
    HoldsFull,
    /// The pass has no hold on that key.
    NotHeld,
    /// More than 16 words.
    TooLong,
    /// The shard, or the growing heap, has no room for a value of this length.
    Full,
    /// Memory was asked for and refused.
    Memory,
    /// The shard has an owner.
    Taken,
    /// There is no such shard, or each shard of the growing heap has another owner.
    NoShard,
    /// Another pass is in the middle of a free that has to end first.
    Waiting,
    /// The numbers are outside the limits of the layout.
    BadShape,
    /// No pass is at home.
    NoPass,
    /// A pass is away, so the heap cannot be counted as a whole.
    Away,
    /// The heap has no such page.
    NoPage,
    /// The value is no record of the kind that was asked for.
    WrongKind,
    /// The receipt is of another heap.
    OtherHeap,
    /// The table has no place for this thread.
    NoPlace,
    /// An answer of the library that this crate does not know. No call is known to give one.
    Unknown(u32),
}

impl fmt::Display for Error {
    fn fmt(&self, f: &mut fmt::Formatter<'_>) -> fmt::Result {
        f.write_str(match self {
            Error::BadKey => "the number is no key of this heap",
            Error::Gone => "the key was never issued, or it was removed",
            Error::Crowded => "the key has as many holds as it may have",
            Error::HoldsFull => "the pass has 16 holds",
            Error::NotHeld => "the pass has no hold on the key",
            Error::TooLong => "a value has at most 16 words",
            Error::Full => "the shard has no room for the value",
            Error::Memory => "memory was refused",
            Error::Taken => "the shard has an owner",
            Error::NoShard => "the heap has no such shard, or none without another owner",
            Error::Waiting => "another pass has a free in the shard to end first",
            Error::BadShape => "the numbers are outside the limits of the layout",
            Error::NoPass => "no pass is at home",
            Error::Away => "a pass of the heap is away",
            Error::NoPage => "the heap has no such page",
            Error::WrongKind => "the value is no record of this kind",
            Error::OtherHeap => "the receipt is of another heap",
            Error::NoPlace => "the table has no place for this thread",
            Error::Unknown(code) => return write!(f, "the library answered {code}, which is not known"),
        })
    }
}

impl error::Error for Error {}

/// The result that a code means.
#[inline]
pub(crate) fn told(code: u32) -> Result<(), Error> {
    if code == 0 {
        return Ok(());
    }
    Err(refusal(code))
}

#[cold]
fn refusal(code: u32) -> Error {
    match code {
        1 => Error::BadKey,
        2 => Error::Gone,
        3 => Error::Crowded,
        4 => Error::HoldsFull,
        5 => Error::NotHeld,
        6 => Error::TooLong,
        7 => Error::Full,
        8 => Error::Memory,
        9 => Error::Taken,
        10 => Error::NoShard,
        11 => Error::Waiting,
        12 => Error::BadShape,
        16 => Error::NoPass,
        21 => Error::Away,
        22 => Error::NoPage,
        _ => Error::Unknown(code),
    }
}

/// A shard was not adopted, and the pass comes back. `?` makes an [`Error`] of it, and then the pass goes home.
#[derive(Debug)]
pub struct AdoptError {
    /// The pass, as it was.
    pub pass: Pass,
    /// Why: [`Error::NoShard`], [`Error::Taken`] or [`Error::Memory`].
    pub error: Error,
}

/// A shard was not left, and comes back. `?` makes an [`Error`] of it, and then the shard is dropped.
#[derive(Debug)]
pub struct LeaveError {
    /// The shard, which serves as before.
    pub shard: Shard,
    /// Why: [`Error::Waiting`].
    pub error: Error,
}

impl fmt::Display for AdoptError {
    fn fmt(&self, f: &mut fmt::Formatter<'_>) -> fmt::Result {
        write!(f, "the shard was not adopted: {}", self.error)
    }
}

impl fmt::Display for LeaveError {
    fn fmt(&self, f: &mut fmt::Formatter<'_>) -> fmt::Result {
        write!(f, "the shard was not left: {}", self.error)
    }
}

impl error::Error for AdoptError {
    fn source(&self) -> Option<&(dyn error::Error + 'static)> {
        Some(&self.error)
    }
}

impl error::Error for LeaveError {
    fn source(&self) -> Option<&(dyn error::Error + 'static)> {
        Some(&self.error)
    }
}

impl From<AdoptError> for Error {
    fn from(refused: AdoptError) -> Error {
        refused.error
    }
}

impl From<LeaveError> for Error {
    fn from(refused: LeaveError) -> Error {
        refused.error
    }
}
