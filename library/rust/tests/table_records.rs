//! What the code of a record may do: panic, call the table, and count its drops. And records of keys.
use gearlongan::table::Key;
use gearlongan::{Error, Record, Table, Value};
use std::cell::Cell;
use std::panic::{catch_unwind, AssertUnwindSafe};
use std::sync::atomic::{AtomicUsize, Ordering::SeqCst};
use std::sync::LazyLock;
use std::thread;

thread_local! {
    static PANICS: Cell<bool> = const { Cell::new(false) };
}

/// A number whose `read` and `write` panic if they are to.
#[derive(Debug, PartialEq)]
struct Wild(u64);

fn panic_if_it_is_to() {
    if PANICS.get() {
        panic!("it is to");
    }
}

impl Record for Wild {
    const WORDS: usize = 1;

    fn write(&self, words: &mut [u64]) {
        panic_if_it_is_to();
        self.0.write(words);
    }

    fn read(words: &[u64]) -> Option<Wild> {
        panic_if_it_is_to();
        u64::read(words).map(Wild)
    }
}

/// Whether it panics, while records do.
fn panics<T>(act: impl FnOnce() -> T) -> bool {
    PANICS.set(true);
    let panicked = catch_unwind(AssertUnwindSafe(act)).is_err();
    PANICS.set(false);
    panicked
}

/// Of a table that other threads use, some of which share a place.
#[test]
fn a_record_that_panics_leaves_the_table_whole() {
    let table = Table::new();
    let work = |n| {
        let key = table.insert(&Wild(n)).expect("there is room");
        assert!(panics(|| table.insert(&Wild(n))) && panics(|| table.get(key)));
        assert_eq!((table.get(key), table.contains(key)), (Some(Wild(n)), true));
        assert!(panics(|| table.take(key)));
        assert_eq!((table.get(key), table.remove(key)), (None, false));
    };
    thread::scope(|scope| (0..80).for_each(|n| drop(scope.spawn(move || work(n)))));
    assert!(table.is_empty() && table.enter().is_ok());
}

static CALLED: LazyLock<Table<Calling>> = LazyLock::new(Table::new);

/// A record whose `read` and `write` use its table.
#[derive(Debug, PartialEq)]
struct Calling(u64);

impl Record for Calling {
    const WORDS: usize = 1;

    fn write(&self, words: &mut [u64]) {
        if self.0 > 0 {
            let key = CALLED.insert(&Calling(self.0 - 1)).expect("there is room");
            assert!(CALLED.remove(key));
        }
        self.0.write(words);
    }

    fn read(words: &[u64]) -> Option<Calling> {
        let it = u64::read(words).map(Calling)?;
        assert!(it.0 == 0 || CALLED.insert(&Calling(0)).is_ok_and(|key| CALLED.take(key) == Some(Calling(0))));
        Some(it)
    }
}

#[test]
fn a_record_may_call_its_table() {
    thread::scope(|scope| {
        for _ in 0..70 {
            scope.spawn(|| {
                let key = CALLED.insert(&Calling(3)).expect("there is room");
                assert_eq!((CALLED.get(key), CALLED.take(key)), (Some(Calling(3)), Some(Calling(3))));
            });
        }
    });
    assert!(CALLED.is_empty());
}

static DROPS: AtomicUsize = AtomicUsize::new(0);

gearlongan::record! { struct Dropped(u64); }

impl Drop for Dropped {
    fn drop(&mut self) {
        DROPS.fetch_add(1, SeqCst);
    }
}

/// A table drops no record: only the copies outside are dropped.
#[test]
fn each_copy_is_dropped_and_nothing_in_the_table_is() {
    let table = Table::new();
    let keys: Vec<_> = (0..4).map(|n| table.insert(&Dropped(n)).expect("there is room")).collect();
    assert_eq!(DROPS.load(SeqCst), 4);
    assert!(table.get(keys[0]).is_some_and(|copy| copy.0 == 0) && table.take(keys[1]).is_some());
    assert_eq!(DROPS.load(SeqCst), 6);
    assert!(table.remove(keys[2]));
    drop(table);
    assert_eq!(DROPS.load(SeqCst), 6);
}

gearlongan::record! {
    #[derive(Clone, Copy, Debug, PartialEq)]
    struct Entity {
        health: u16,
        target: Option<Key<Entity>>,
        owner: Key<u32>,
    }
}

#[test]
fn keys_are_records() -> Result<(), Error> {
    let (world, users) = (Table::new(), Table::new());
    let owner = users.insert(&7u32)?;
    let first = Entity { health: 100, target: None, owner };
    let key = world.insert(&first)?;
    let second = Entity { target: Some(key), ..first };
    assert_eq!(Value::of(&second), [100, key.to_bits(), owner.to_bits()]);
    assert_eq!(world.get(world.insert(&second)?).and_then(|it| world.get(it.target?)), Some(first));
    assert_eq!(Value::of(&0u64).record::<Key<u32>>(), Err(Error::WrongKind));
    assert_eq!(Value::of(&0u64).record::<Option<Key<u32>>>(), Ok(None));
    Ok(())
}

#[test]
fn a_record_of_no_words_has_keys() -> Result<(), Error> {
    gearlongan::record! {
        #[derive(Debug, PartialEq)]
        struct Nothing {}
    }
    let table = Table::new();
    let keys: Vec<_> = (0..1000).map(|_| table.insert(&Nothing {})).collect::<Result<_, _>>()?;
    assert!(keys.iter().all(|key| table.get(*key) == Some(Nothing {})));
    assert!(keys.iter().all(|key| table.take(*key).is_some() && table.get(*key).is_none()));
    Ok(())
}
