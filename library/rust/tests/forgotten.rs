//! Guards that `mem::forget` leaves behind: their values stay, and no other value is touched. Memory that only a
//! forgotten guard has is lost.
#![forbid(unsafe_code)]
use gearlongan::slab::{Config, Pool, Slab};
use gearlongan::Table;
use std::mem::forget;
use std::sync::Arc;
use std::thread;

const COUNT: usize = if cfg!(debug_assertions) { 300 } else { 10_000 };

fn text(n: usize) -> String {
    format!("value {n}")
}

#[test]
fn forgotten_entries_keep_their_values_and_places() {
    let slab = Slab::new();
    let mut old = Vec::new();
    for n in 0..COUNT {
        let key = slab.insert(text(n)).expect("there is room");
        let entry = slab.get(key).expect("it is there");
        forget(slab.get(key));
        assert!(slab.remove(key));
        assert_eq!(*entry, text(n));
        old.push(key);
    }
    assert!(old.iter().all(|key| !slab.contains(*key) && !slab.remove(*key) && slab.take(*key).is_none()));
    // A place whose value stays is not issued again.
    let keys: Vec<usize> = (0..COUNT).flat_map(|n| slab.insert(text(n))).collect();
    let place = |key: &usize| key & !(0xFFFF_FFFF << 20);
    assert!(keys.iter().all(|key| old.iter().take(100).all(|gone| place(gone) != place(key))));
    assert!(keys.iter().enumerate().all(|(n, key)| slab.get(*key).is_some_and(|value| *value == text(n))));
}

#[test]
fn forgotten_vacant_entries_take_room_and_nothing_more() {
    struct Small;
    impl Config for Small {
        const INITIAL_PAGE_SIZE: usize = 1;
        const MAX_PAGES: usize = 1;
        const MAX_THREADS: usize = 1;
    }
    let slab = Slab::new_with_config::<Small>();
    let kept = slab.insert(text(7)).expect("there is room");
    let forgotten: Vec<usize> = std::iter::from_fn(|| {
        let entry = slab.vacant_entry()?;
        let key = entry.key();
        forget(entry);
        Some(key)
    })
    .collect();
    assert_eq!(forgotten.len(), 4 * 384 - 1);
    assert!(forgotten.iter().all(|key| !slab.contains(*key) && !slab.remove(*key)));
    assert!(slab.get(kept).is_some_and(|value| *value == text(7)) && slab.insert(text(8)).is_none());
    assert!(slab.remove(kept) && slab.insert(text(8)).is_some());
}

#[test]
fn forgotten_guards_of_a_pool_keep_their_values() {
    let pool: Pool<String> = Pool::new();
    let mut all = Vec::new();
    for n in 0..COUNT {
        let mut guard = pool.create().expect("there is room");
        guard.push_str(&text(n));
        let key = guard.key();
        match n % 3 {
            // Its key never finds it.
            0 => forget(guard),
            1 => forget(guard.downgrade()),
            _ => {
                drop(guard);
                forget(pool.get(key));
            }
        }
        assert_eq!(pool.get(key).is_some_and(|value| *value == text(n)), n % 3 != 0);
        all.push(key);
    }
    assert!(all.iter().all(|key| pool.clear(*key) && pool.get(*key).is_none() && !pool.clear(*key)));
    assert!((0..COUNT).all(|_| pool.create_with(|value| assert!(value.is_empty())).is_some()));
}

/// The slab of a forgotten owned entry is never dropped, and goes on.
#[test]
fn a_slab_with_a_forgotten_owned_entry_goes_on() {
    let slab = Arc::new(Slab::new());
    let key = slab.insert(text(7)).expect("there is room");
    let theirs = slab.clone();
    thread::spawn(move || forget(theirs.get_owned(key))).join().expect("it ends well");
    assert!(slab.remove(key) && !slab.contains(key));
    assert!(slab.insert(text(8)).is_some_and(|key| slab.take(key) == Some(text(8))));
    assert!(Arc::strong_count(&slab) == 2);
    let pool: Arc<Pool<String>> = Arc::new(Pool::new());
    forget(pool.clone().create_owned());
    assert!(pool.create_with(|value| value.push('a')).is_some());
}

/// A value counts its users up to 16,777,215. Its key finds nothing while it has as many, and finds it again after.
#[test]
#[cfg_attr(debug_assertions, ignore = "it takes a minute")]
fn sixteen_million_forgotten_entries_do_not_end_the_value() {
    let slab = Slab::new();
    let key = slab.insert(text(7)).expect("there is room");
    let entry = slab.get(key).expect("it is there");
    let forgotten = std::iter::from_fn(|| slab.get(key).map(forget)).count();
    assert_eq!((forgotten, slab.contains(key)), ((1 << 24) - 2, false));
    assert_eq!(*entry, text(7));
    drop(entry);
    assert!(slab.get(key).is_some_and(|value| *value == text(7)));
    assert!(slab.remove(key) && !slab.contains(key));
    assert!(slab.insert(text(8)).is_some_and(|key| slab.take(key) == Some(text(8))));
}

#[test]
fn a_forgotten_table_tells_no_ends() {
    let mut table = Table::new();
    table.on_end(|_, n: u64| assert_eq!(n, 7));
    let keys = [7, 8].map(|n| table.insert(&n).expect("there is room"));
    assert!(table.remove(keys[0]));
    forget(table);
}
