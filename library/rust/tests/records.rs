//! Records, values and keys, which ask nothing of a heap.
use gearlongan::{Error, Key, Record, Value, MAX_WORDS};
use std::collections::HashSet;
use std::fmt::Debug;
use std::num::NonZero;

fn comes_back<R: Record + PartialEq + Debug>(record: R, words: &[u64]) {
    let value = Value::of(&record);
    assert_eq!(&*value, words);
    assert_eq!(value.len(), R::WORDS);
    assert_eq!(value.record(), Ok(record));
    let longer: Vec<u64> = words.iter().copied().chain([0]).collect();
    if let Ok(longer) = Value::new(&longer) {
        assert_eq!(longer.record::<R>(), Err(Error::WrongKind));
    }
}

#[test]
fn records_come_back() {
    comes_back(7u64, &[7]);
    comes_back([0u64; 0], &[]);
    comes_back([7u64, 8], &[7, 8]);
    comes_back([u64::MAX; 16], &[u64::MAX; 16]);
    comes_back((7u64,), &[7]);
    comes_back((7u64, 8u64), &[7, 8]);
    comes_back((7u64, [8u64, 9]), &[7, 8, 9]);
    comes_back(([1u64; 0], (2u64, [3u64, 4]), 5u64), &[2, 3, 4, 5]);
    comes_back((1u64, 2u64, 3u64, 4u64, 5u64, 6u64), &[1, 2, 3, 4, 5, 6]);
    comes_back(([1u64; 8], [2u64; 8]), &[[1; 8], [2; 8]].concat());
}

#[test]
fn integers_of_each_width_come_back() {
    comes_back(u8::MAX, &[255]);
    comes_back(u16::MAX, &[65_535]);
    comes_back(u32::MAX, &[4_294_967_295]);
    comes_back(usize::MAX, &[u64::MAX]);
    comes_back(-1i8, &[u64::MAX]);
    comes_back(i16::MIN, &[u64::MAX - 32_767]);
    comes_back(-7i32, &[u64::MAX - 6]);
    comes_back(i64::MIN, &[1 << 63]);
    comes_back(isize::MAX, &[u64::MAX >> 1]);
    comes_back(3u128 << 64 | 7, &[7, 3]);
    comes_back(-1i128, &[u64::MAX, u64::MAX]);
    comes_back(i128::MIN, &[0, 1 << 63]);
    comes_back([(true, -1i8); 8], &[1, u64::MAX].repeat(8));
}

#[test]
fn other_types_of_a_word_come_back() {
    comes_back((), &[]);
    comes_back((true, false), &[1, 0]);
    comes_back(['a', char::MAX], &[97, 0x10_ffff]);
    comes_back((1.5f64, -0.0f32), &[1.5f64.to_bits(), 0x8000_0000]);
    comes_back((NonZero::new(7u8), NonZero::<i64>::new(0)), &[7, 0]);
    comes_back(NonZero::new(1u128 << 64), &[0, 1]);
}

#[test]
fn words_that_are_no_record_are_refused() {
    fn is_refused<R: Record + Debug + PartialEq>(words: &[u64]) {
        let value = Value::new(words).expect("it is not too long");
        assert_eq!(value.record::<R>(), Err(Error::WrongKind), "{words:?}");
    }
    is_refused::<u8>(&[256]);
    is_refused::<u32>(&[1 << 32]);
    is_refused::<i8>(&[128]);
    is_refused::<i32>(&[1 << 31]);
    is_refused::<bool>(&[2]);
    is_refused::<bool>(&[257]);
    is_refused::<char>(&[0xd800]);
    is_refused::<char>(&[1 << 32 | 97]);
    is_refused::<f32>(&[1 << 32]);
    is_refused::<Option<NonZero<u16>>>(&[1 << 16]);
    is_refused::<[bool; 2]>(&[0, 2]);
    is_refused::<Session>(&[7, 2, 0, 0]);
}

gearlongan::record! {
    /// A struct with a field of each kind.
    #[derive(Clone, Copy, Debug, PartialEq)]
    struct Session {
        user: u32,
        is_guest: bool,
        /// Longitude and latitude.
        place: [f32; 2],
    }
}

gearlongan::record! {
    #[derive(Debug, PartialEq)]
    struct Nothing {}
}

gearlongan::record! {
    #[derive(Debug, PartialEq)]
    struct Nested { words: [u64; 2], rest: u64, session: Session }
}

#[test]
fn structs_of_fields_come_back() {
    let session = Session { user: 7, is_guest: true, place: [1.0, 2.0] };
    comes_back(session, &[7, 1, 0x3f80_0000, 0x4000_0000]);
    comes_back(Nothing {}, &[]);
    // The names of fields are apart from those of the macro.
    comes_back(Nested { words: [8, 9], rest: 10, session }, &[8, 9, 10, 7, 1, 0x3f80_0000, 0x4000_0000]);
}

#[test]
fn values_are_their_words() {
    for length in 0..=MAX_WORDS {
        let words: Vec<u64> = (0..length as u64).collect();
        let value = Value::new(&words).expect("it is not too long");
        assert_eq!(*value, words[..]);
        assert_eq!(value.as_ref(), &words[..]);
        assert_eq!(format!("{value:?}"), format!("{words:?}"));
    }
    assert_eq!(Value::new(&[0; MAX_WORDS + 1]), Err(Error::TooLong));
    let values: HashSet<Value> = [&[][..], &[0], &[0, 0], &[0]].iter().flat_map(|words| Value::new(words)).collect();
    assert_eq!(values.len(), 3, "a value has a length");
}

#[test]
fn keys_are_plain_numbers() {
    let keys: HashSet<Key> = [1, 2, 1].map(Key::from).into();
    assert_eq!(keys.len(), 2);
    assert_eq!(u64::from(Key::from(u64::MAX)), u64::MAX);
    assert!(Key::from(1) < Key::from(2));
    assert_eq!(format!("{} {:?} {:>4}", Key::from(16), Key::from(16), Key::from(16)), "16 Key(0x10)   16");
}

#[derive(Debug, PartialEq)]
enum Event {
    Came(u64),
    Went { user: u64 },
}

impl Record for Event {
    const WORDS: usize = 2;

    fn write(&self, words: &mut [u64]) {
        match *self {
            Event::Came(user) => [0, user].write(words),
            Event::Went { user } => [1, user].write(words),
        }
    }

    fn read(words: &[u64]) -> Option<Event> {
        match *words {
            [0, user] => Some(Event::Came(user)),
            [1, user] => Some(Event::Went { user }),
            _ => None,
        }
    }
}

#[test]
fn a_record_of_ones_own_says_which_words_it_is() {
    comes_back(Event::Came(7), &[0, 7]);
    comes_back(Event::Went { user: 8 }, &[1, 8]);
    let other = Value::new(&[2, 7]).expect("it is not too long");
    assert_eq!(other.record::<Event>(), Err(Error::WrongKind));
}
