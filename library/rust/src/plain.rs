//! Records that are plain data, with the feature `bytemuck`.
use crate::record::Record;
use bytemuck::{bytes_of, cast_slice, cast_slice_mut, pod_read_unaligned, Pod};
use std::mem::size_of;

/// A record of any [`Pod`] type of at most 128 bytes, with the feature `bytemuck`. Its words have its bytes, in the
/// order of memory, and zeros behind them.
///
/// Its parts share words as they share memory, where each field of a [`record!`](crate::record!) has words of its own.
///
/// ```
/// use gearlongan::{Error, Plain, Table};
///
/// let places = Table::new();
/// let key = places.insert(&Plain([1.5f32, 2.5, 3.5]))?; // two words, and not three
/// assert_eq!(places.get(key), Some(Plain([1.5, 2.5, 3.5])));
/// # Ok::<(), Error>(())
/// ```
///
/// A type of more than 128 bytes is stored by no program that compiles:
///
/// ```compile_fail,E0080
/// gearlongan::Value::of(&gearlongan::Plain([0u64; 17]));
/// ```
#[derive(Clone, Copy, Debug, Default, Eq, Hash, Ord, PartialEq, PartialOrd)]
pub struct Plain<P>(pub P);

impl<P: Pod> Record for Plain<P> {
    const WORDS: usize = size_of::<P>().div_ceil(size_of::<u64>());

    #[inline]
    fn write(&self, words: &mut [u64]) {
        let (own, behind) = cast_slice_mut(words).split_at_mut(size_of::<P>());
        own.copy_from_slice(bytes_of(&self.0));
        behind.fill(0);
    }

    #[inline]
    fn read(words: &[u64]) -> Option<Plain<P>> {
        if words.len() != Self::WORDS {
            return None;
        }
        let (own, behind) = cast_slice(words).split_at_checked(size_of::<P>())?;
        behind.iter().all(|byte: &u8| *byte == 0).then(|| Plain(pod_read_unaligned(own)))
    }
}
