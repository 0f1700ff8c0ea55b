//! Room for the words of a value, of which only those that were written are looked at: what is read goes from the
//! library straight to where it stays.
use crate::error::Error;
use crate::value::{Value, MAX_WORDS};
use std::cell::{Cell, UnsafeCell};
use std::mem::MaybeUninit;
use std::slice;

/// A number of words, at most 16. C has a length and words in this order too.
#[derive(Clone, Copy)]
#[repr(C)]
pub(crate) struct Words {
    // At most 16, and as many words are written.
    length: usize,
    words: [MaybeUninit<u64>; MAX_WORDS],
}

impl Words {
    /// No words.
    #[inline]
    pub(crate) fn none() -> Words {
        let mut none = MaybeUninit::<Words>::uninit();
        // SAFETY: the length is in `none`. It is all that needs to be written. (Of an expression the compiler makes a
        // constant, whose room it writes as zeros.)
        unsafe {
            (&raw mut (*none.as_mut_ptr()).length).write(0);
            none.assume_init()
        }
    }

    /// A copy of these words: none if they are more than 16.
    #[inline]
    pub(crate) fn copy_of(words: &[u64]) -> Option<Words> {
        let mut copy = Words::none();
        for (place, word) in copy.words.get_mut(..words.len())?.iter_mut().zip(words) {
            place.write(*word);
        }
        copy.length = words.len();
        Some(copy)
    }

    #[inline]
    pub(crate) fn as_slice(&self) -> &[u64] {
        // SAFETY: that many words are written, and a word that is written is laid out as one that need not be.
        unsafe { slice::from_raw_parts(self.words.as_ptr().cast(), self.length) }
    }

    /// Becomes what `call` writes into a room of 16 words; `call` also writes their number. If it is refused, the words
    /// stay as they were.
    ///
    /// # Safety
    ///
    /// If `call` is not refused, it wrote as many words as it says, at most 16. If it is refused, it wrote nothing.
    #[inline]
    pub(crate) unsafe fn fill(
        &mut self,
        call: impl FnOnce(*mut u64, *mut u64) -> Result<(), Error>,
    ) -> Result<(), Error> {
        call(self.words.as_mut_ptr().cast(), (&raw mut self.length).cast())
    }
}

/// Room for a value that is read when it is first asked for, and then stays.
pub(crate) struct Kept {
    is_read: Cell<bool>,
    value: UnsafeCell<Value>,
}

impl Kept {
    #[inline]
    pub(crate) fn unread() -> Kept {
        Kept { is_read: Cell::new(false), value: UnsafeCell::new(Value::default()) }
    }

    /// The value, which `read` writes if nobody did.
    ///
    /// # Safety
    ///
    /// `read` does not come back to this room.
    #[inline]
    pub(crate) unsafe fn get_or_read(&self, read: impl FnOnce(&mut Value)) -> &Value {
        if !self.is_read.get() {
            // SAFETY: it is borrowed by nobody, since it is lent below alone, once it was read. The room is not `Sync`.
            read(unsafe { &mut *self.value.get() });
            self.is_read.set(true);
        }
        // SAFETY: from now on nobody writes it.
        unsafe { &*self.value.get() }
    }
}

#[cfg(test)]
mod tests {
    use super::*;

    // What a call does that is not refused.
    fn filled(words: &mut Words, with: &[u64]) {
        let call = |room: *mut u64, length: *mut u64| {
            // SAFETY: the room has 16 words, and `with` has no more.
            unsafe { room.copy_from(with.as_ptr(), with.len()) };
            // SAFETY: it is the length of `words`, which this call has alone.
            unsafe { length.write(with.len() as u64) };
            Ok(())
        };
        // SAFETY: it wrote as many words as it says.
        assert_eq!(unsafe { words.fill(call) }, Ok(()));
    }

    #[test]
    fn words_are_those_that_were_written_last() {
        let mut words = Words::none();
        assert!(words.as_slice().is_empty());
        for length in [16, 0, 3] {
            filled(&mut words, &[length as u64; 16][..length]);
            assert_eq!(words.as_slice(), &[length as u64; 16][..length]);
        }
        let copy = words;
        filled(&mut words, &[7]);
        assert_eq!((copy.as_slice(), words.as_slice()), (&[3; 3][..], &[7][..]));
    }

    #[test]
    fn words_stay_where_a_call_is_refused() {
        let mut words = Words::none();
        filled(&mut words, &[7, 8]);
        // SAFETY: it is refused.
        let refused = unsafe { words.fill(|_, _| Err(Error::Gone)) };
        assert_eq!((refused, words.as_slice()), (Err(Error::Gone), &[7, 8][..]));
    }

    #[test]
    fn copies_have_at_most_sixteen_words() {
        let all: [u64; 17] = std::array::from_fn(|place| place as u64);
        for length in 0..=MAX_WORDS {
            assert_eq!(
                Words::copy_of(&all[..length]).map(|copy| copy.as_slice().to_vec()),
                Some(all[..length].to_vec())
            );
        }
        assert!(Words::copy_of(&all).is_none());
    }

    #[test]
    fn what_is_kept_is_read_once() {
        let (kept, reads) = (Kept::unread(), Cell::new(0));
        let read = |value: &mut Value| {
            reads.set(reads.get() + 1);
            *value = Value::of(&(7, reads.get()));
        };
        // SAFETY: `read` does not know of the room.
        let (one, other) = unsafe { (kept.get_or_read(read), kept.get_or_read(read)) };
        assert_eq!((one, other), (&Value::of(&(7, 1)), &Value::of(&(7, 1))));
        let moved = kept;
        // SAFETY: as above.
        assert_eq!(unsafe { moved.get_or_read(read) }, &Value::of(&(7, 1)));
    }
}
