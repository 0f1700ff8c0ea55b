//! A table: what its calls return, its keys, and how it is opened.
use gearlongan::table::Key;
use gearlongan::{Error, Table};
use std::collections::{BTreeSet, HashSet};
use std::mem::size_of;
use std::panic::{RefUnwindSafe, UnwindSafe};

gearlongan::record! {
    #[derive(Clone, Copy, Debug, PartialEq)]
    struct Session {
        user: u32,
        is_guest: bool,
        until: f64,
    }
}

fn filled(count: u64) -> (Table<u64>, Vec<Key<u64>>) {
    let table = Table::new();
    let keys = (0..count).map(|n| table.insert(&n).expect("there is room")).collect();
    (table, keys)
}

#[test]
fn records_are_inserted_copied_and_removed() {
    let table = Table::default();
    let session = Session { user: 7, is_guest: false, until: -8.5 };
    let key = table.insert(&session).expect("there is room");
    assert_eq!((table.get(key), table.contains(key), table.len()), (Some(session), true, 1));
    let taken = table.insert(&Session { user: 8, ..session }).expect("there is room");
    assert_ne!(key, taken);
    assert_eq!(
        (table.take(taken), table.take(taken), table.remove(taken)),
        (Some(Session { user: 8, ..session }), None, false)
    );
    assert!(table.remove(key) && !table.remove(key) && !table.contains(key) && table.is_empty());
    assert_eq!((table.get(key), table.take(key)), (None, None));
    assert_eq!(format!("{table:?}"), "Table { len: 0, .. }");
}

#[test]
fn a_table_grows_and_finds_each_record() {
    let (table, keys) = filled(10_000);
    assert_eq!(table.len(), 10_000);
    assert!(keys.iter().zip(0..).all(|(key, n)| table.get(*key) == Some(n)));
    assert!(keys.iter().step_by(2).all(|key| table.remove(*key)));
    assert!(keys.iter().zip(0..).all(|(key, n)| table.take(*key) == (n % 2 == 1).then_some(n)));
    assert!(table.is_empty());
}

/// A page has 195 words: 48 records of a word, or 3 of sixteen. A shard of 8 pages has two words more.
#[test]
fn a_table_says_what_it_has_room_for() {
    let (table, keys) = filled(384);
    assert_eq!((table.capacity(), table.bytes(), keys.len()), (2 * 8 * 48, 2 * (8 * 195 + 2) * 8, 384));
    assert_eq!(Table::<[u64; 16]>::new().capacity(), 2 * 8 * 3);
    let whole = Table::builder().threads(1).chunks(1).open().expect("it opens");
    let count = std::iter::from_fn(|| whole.insert(&7u64).ok()).count();
    assert_eq!((whole.capacity(), whole.len()), (count, count));
    for n in 0..1000 {
        table.insert(&n).expect("there is room");
    }
    assert!(table.capacity() >= table.len() && table.bytes() > 2 * (8 * 195 + 2) * 8);
}

#[test]
fn no_key_is_issued_again() {
    let table = Table::new();
    let keys: HashSet<_> = (0..5000).map(|n| table.insert(&n).inspect(|key| assert!(table.remove(*key)))).collect();
    assert_eq!(keys.len(), 5000);
}

#[test]
fn keys_are_numbers() {
    assert_eq!((size_of::<Key<[u64; 16]>>(), size_of::<Option<Key<[u64; 16]>>>()), (8, 8));
    let (_table, keys) = filled(3);
    let bits: Vec<u64> = keys.iter().map(|key| key.to_bits()).collect();
    for (key, bits) in keys.iter().zip(&bits) {
        assert_eq!((Key::from_bits(*bits), key.to_string().parse()), (Some(*key), Ok(*key)));
        assert_eq!((key.to_string(), format!("{key:x}")), (bits.to_string(), format!("{bits:x}")));
        assert_eq!((format!("{key:#x}"), format!("{key:?}")), (format!("{bits:#x}"), format!("Key({bits:#x})")));
    }
    let in_order: BTreeSet<_> = keys.iter().rev().copied().collect();
    let mut sorted = bits;
    sorted.sort_unstable();
    assert_eq!(in_order.into_iter().map(Key::to_bits).collect::<Vec<_>>(), sorted);
    assert_eq!(Key::<u64>::from_bits(0), None);
    assert!(["0", "", "-1", "a", "18446744073709551616"].iter().all(|text| text.parse::<Key<u64>>().is_err()));
}

#[test]
fn numbers_that_were_never_issued_find_nothing() {
    let (table, keys) = filled(3);
    let near = (0..64).map(|bit| keys[0].to_bits() ^ 1 << bit).chain([1, u64::MAX]);
    for key in near.filter_map(Key::<u64>::from_bits).filter(|it| !keys.contains(it)) {
        assert_eq!((table.get(key), table.take(key)), (None, None));
        assert!(!table.contains(key) && !table.remove(key));
    }
    assert_eq!(table.len(), 3);
}

#[test]
fn a_table_has_limits() {
    let refused = [
        Table::<u64>::builder().threads(0).open().err(),
        Table::<u64>::builder().threads(65).open().err(),
        Table::<u64>::builder().chunks(0).open().err(),
        Table::<u64>::builder().chunks(257).open().err(),
        Table::<u64>::builder().room(u64::MAX).open().err(),
    ];
    assert_eq!(refused, [Some(Error::BadShape); 5]);
    let table = Table::builder().room(1000).chunks(1).threads(1).open().expect("it opens");
    let keys: Vec<_> = std::iter::from_fn(|| table.insert(&[7u64; 2]).ok()).collect();
    assert!(keys.len() >= 1000);
    assert_eq!((table.insert(&[7; 2]), table.len()), (Err(Error::Full), keys.len()));
    assert!(table.remove(keys[0]) && table.insert(&[8; 2]).is_ok());
}

#[test]
fn records_of_no_words_and_of_sixteen_are_stored() {
    let (none, most) = (Table::new(), Table::new());
    let keys = (none.insert(&()).expect("there is room"), most.insert(&[7u128; 8]).expect("there is room"));
    assert_eq!((none.get(keys.0), most.get(keys.1)), (Some(()), Some([7; 8])));
}

#[test]
fn a_thread_lets_its_place_rest_and_takes_it_again() {
    let (table, keys) = filled(3);
    for _ in 0..3 {
        table.rest();
        table.rest();
        assert_eq!((table.get(keys[1]), table.enter(), table.enter()), (Some(1), Ok(()), Ok(())));
    }
    assert_eq!(table.len(), 3);
}

#[test]
fn a_table_is_shared_and_moved_whatever_its_record_is() {
    fn is_shared<T: Send + Sync + Unpin + UnwindSafe + RefUnwindSafe>() {}
    is_shared::<Table<*const u8>>();
    is_shared::<Key<*const u8>>();
}
