//! Records: types that are stored as words.
use crate::value::MAX_WORDS;
use std::num::NonZero;

/// A type that is stored as a fixed number of words. Records as they are: all integers, `bool`, `char`, `f32`, `f64`,
/// `Option<NonZero<..>>` of each integer, a table's [`Key`](crate::table::Key) and an `Option` of one, and arrays and
/// tuples of records. A number of 128 bits has two words, and any other one. [`record!`](crate::record!) makes a record
/// of the fields of a struct.
///
/// A value does not say which type it was stored as, only how many words it has. If two types of one heap have the same
/// length, give each a word of its own that says which it is, and let `read` look at it.
///
/// ```
/// use gearlongan::{Record, Value};
///
/// #[derive(Debug, PartialEq)]
/// struct Session {
///     user: u64,
///     until: u64,
/// }
///
/// impl Record for Session {
///     const WORDS: usize = 2;
///
///     fn write(&self, words: &mut [u64]) {
///         (self.user, self.until).write(words);
///     }
///
///     fn read(words: &[u64]) -> Option<Session> {
///         let (user, until) = Record::read(words)?;
///         Some(Session { user, until })
///     }
/// }
///
/// let session = Session { user: 7, until: 1000 };
/// assert_eq!(Value::of(&session), [7, 1000]);
/// assert_eq!(Value::of(&session).record(), Ok(session));
/// ```
///
/// A record of more than 16 words is stored by no program that compiles:
///
/// ```compile_fail
/// gearlongan::Value::of(&[0u64; 17]);
/// ```
pub trait Record: Sized {
    /// How many words it is stored as: 0 to 16.
    const WORDS: usize;

    /// Writes all of the words, which are as many as [`WORDS`](Record::WORDS) says.
    fn write(&self, words: &mut [u64]);

    /// The record that was stored as these words, of which there are [`WORDS`](Record::WORDS). None if no
    /// record is stored as them.
    fn read(words: &[u64]) -> Option<Self>;
}

/// Runs it with the words that a record is stored as.
#[inline]
pub(crate) fn with_words<R: Record, T>(record: &R, act: impl FnOnce(&[u64]) -> T) -> T {
    const { assert!(R::WORDS <= MAX_WORDS, "a record has at most 16 words") };
    let mut words = [0; MAX_WORDS];
    record.write(&mut words[..R::WORDS]);
    act(&words[..R::WORDS])
}

/// Types of one word, each with its conversions.
macro_rules! word_record {
    ($($kind:ty: $write:expr, $read:expr;)+) => {$(
        impl Record for $kind {
            const WORDS: usize = 1;

            #[inline]
            fn write(&self, words: &mut [u64]) {
                words[0] = $write(*self);
            }

            #[inline]
            fn read(words: &[u64]) -> Option<$kind> {
                words.first().copied().and_then($read)
            }
        }
    )+};
}

word_record! {
    u64: std::convert::identity, Some;
    i64: |n| n as u64, |word| Some(word as i64);
    u8: u64::from, |word| word.try_into().ok();
    u16: u64::from, |word| word.try_into().ok();
    u32: u64::from, |word| word.try_into().ok();
    usize: |n| n as u64, |word| word.try_into().ok();
    i8: |n| i64::from(n) as u64, |word| (word as i64).try_into().ok();
    i16: |n| i64::from(n) as u64, |word| (word as i64).try_into().ok();
    i32: |n| i64::from(n) as u64, |word| (word as i64).try_into().ok();
    isize: |n| n as u64, |word| (word as i64).try_into().ok();
    bool: u64::from, |word| u8::try_from(word).ok().filter(|bit| *bit < 2).map(|bit| bit == 1);
    char: u64::from, |word| u32::try_from(word).ok().and_then(char::from_u32);
    f32: |n: f32| u64::from(n.to_bits()), |word| Some(f32::from_bits(word.try_into().ok()?));
    f64: f64::to_bits, |word| Some(f64::from_bits(word));
}

/// Two words, the low one first.
macro_rules! wide_record {
    ($($kind:ty),+) => {$(
        impl Record for $kind {
            const WORDS: usize = 2;

            #[inline]
            fn write(&self, words: &mut [u64]) {
                [*self as u64, (*self >> 64) as u64].write(words);
            }

            #[inline]
            fn read(words: &[u64]) -> Option<$kind> {
                let [low, high]: [u64; 2] = Record::read(words)?;
                Some((high as $kind) << 64 | low as $kind)
            }
        }
    )+};
}

wide_record!(u128, i128);

/// No number is stored as 0.
macro_rules! nonzero_record {
    ($($kind:ty),+) => {$(
        impl Record for Option<NonZero<$kind>> {
            const WORDS: usize = <$kind>::WORDS;

            #[inline]
            fn write(&self, words: &mut [u64]) {
                self.map_or(0, NonZero::get).write(words);
            }

            #[inline]
            fn read(words: &[u64]) -> Option<Self> {
                <$kind>::read(words).map(NonZero::new)
            }
        }
    )+};
}

nonzero_record!(u8, u16, u32, u64, u128, usize, i8, i16, i32, i64, i128, isize);

impl Record for () {
    const WORDS: usize = 0;

    fn write(&self, _: &mut [u64]) {}

    fn read(words: &[u64]) -> Option<()> {
        words.is_empty().then_some(())
    }
}

// An array's words are those of its items, one after the other.
impl<R: Record, const N: usize> Record for [R; N] {
    const WORDS: usize = N * R::WORDS;

    #[inline]
    fn write(&self, words: &mut [u64]) {
        for (at, item) in self.iter().enumerate() {
            item.write(&mut words[at * R::WORDS..(at + 1) * R::WORDS]);
        }
    }

    #[inline]
    fn read(words: &[u64]) -> Option<[R; N]> {
        if words.len() != Self::WORDS {
            return None;
        }
        let mut items = [const { None }; N];
        for (at, item) in items.iter_mut().enumerate() {
            *item = Some(R::read(words.get(at * R::WORDS..(at + 1) * R::WORDS)?)?);
        }
        Some(items.map(|item| item.expect("each was read")))
    }
}

// A tuple's words are those of its parts, one after the other.
macro_rules! tuple_record {
    ($($part:ident $at:tt),+) => {
        impl<$($part: Record),+> Record for ($($part,)+) {
            const WORDS: usize = 0 $(+ $part::WORDS)+;

            fn write(&self, words: &mut [u64]) {
                let mut at = 0;
                $(
                    self.$at.write(&mut words[at..at + $part::WORDS]);
                    at += $part::WORDS;
                )+
                debug_assert_eq!(at, words.len(), "a record has as many words as it says");
            }

            fn read(words: &[u64]) -> Option<Self> {
                let mut at = 0;
                let parts = ($({
                    at += $part::WORDS;
                    $part::read(words.get(at - $part::WORDS..at)?)?
                },)+);
                (at == words.len()).then_some(parts)
            }
        }
    };
}

tuple_record!(A 0);
tuple_record!(A 0, B 1);
tuple_record!(A 0, B 1, C 2);
tuple_record!(A 0, B 1, C 2, D 3);
tuple_record!(A 0, B 1, C 2, D 3, E 4);
tuple_record!(A 0, B 1, C 2, D 3, E 4, F 5);

/// Declares a struct whose fields are records, and makes it a record: its words are those of its fields, in order.
///
/// ```
/// use gearlongan::{Error, Value};
/// use std::num::NonZero;
///
/// gearlongan::record! {
///     /// What a server knows of a client.
///     #[derive(Clone, Copy, Debug, PartialEq)]
///     pub struct Session {
///         pub user: Option<NonZero<u32>>,
///         until: f64,
///         address: [u8; 4],
///     }
/// }
///
/// let session = Session { user: NonZero::new(7), until: 8.5, address: [127, 0, 0, 1] };
/// let value = Value::of(&session);
/// assert_eq!(value, [7, 8.5f64.to_bits(), 127, 0, 0, 1]);
/// assert_eq!(value.record(), Ok(session));
/// ```
///
/// A struct of one unnamed field makes a type of its own of another record, so that two tables do not take each other's
/// keys:
///
/// ```
/// use gearlongan::Table;
///
/// gearlongan::record! { struct User(u32); }
/// gearlongan::record! { struct Order(u32); }
///
/// let (users, orders) = (Table::new(), Table::new());
/// let (user, order) = (users.insert(&User(7))?, orders.insert(&Order(7))?);
/// assert_eq!(users.get(user).map(|it| it.0), orders.get(order).map(|it| it.0)); // `users.get(order)` does not compile
/// # Ok::<(), gearlongan::Error>(())
/// ```
///
/// A struct of more than 16 words is stored by no program that compiles:
///
/// ```compile_fail,E0080
/// gearlongan::record! {
///     struct Long {
///         words: [u64; 16],
///         more: bool,
///     }
/// }
/// gearlongan::Value::of(&Long { words: [0; 16], more: true });
/// ```
#[macro_export]
macro_rules! record {
    (
        $(#[$of_struct:meta])*
        $shown:vis struct $name:ident {
            $($(#[$of_field:meta])* $field_shown:vis $field:ident: $kind:ty),* $(,)?
        }
    ) => {
        $(#[$of_struct])*
        $shown struct $name {
            $($(#[$of_field])* $field_shown $field: $kind),*
        }

        impl $crate::Record for $name {
            const WORDS: usize = 0 $(+ <$kind as $crate::Record>::WORDS)*;

            #[inline]
            fn write(&self, words: &mut [u64]) {
                let rest = words;
                $(let (own, rest) = rest.split_at_mut(<$kind as $crate::Record>::WORDS);
                <$kind as $crate::Record>::write(&self.$field, own);)*
                debug_assert!(rest.is_empty(), "a record has as many words as it says");
            }

            #[inline]
            fn read(words: &[u64]) -> ::core::option::Option<Self> {
                let rest = words;
                $(let $field = <$kind as $crate::Record>::read(rest.get(..<$kind as $crate::Record>::WORDS)?)?;
                let rest = rest.get(<$kind as $crate::Record>::WORDS..)?;)*
                rest.is_empty().then_some($name { $($field),* })
            }
        }
    };    (
        $(#[$of_struct:meta])*
        $shown:vis struct $name:ident($(#[$of_field:meta])* $field_shown:vis $kind:ty $(,)?);
    ) => {
        $(#[$of_struct])*
        $shown struct $name($(#[$of_field])* $field_shown $kind);

        impl $crate::Record for $name {
            const WORDS: usize = <$kind as $crate::Record>::WORDS;

            #[inline]
            fn write(&self, words: &mut [u64]) {
                <$kind as $crate::Record>::write(&self.0, words);
            }

            #[inline]
            fn read(words: &[u64]) -> ::core::option::Option<Self> {
                <$kind as $crate::Record>::read(words).map($name)
            }
        }
    };
}
