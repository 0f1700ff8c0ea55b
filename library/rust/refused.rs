//! What the compiler must refuse. Each line that ends in `//~` and a code has an error of that code, and no other line
//! has one. Without these lines the program is right. For `refused.py`.
#![forbid(unsafe_code)]
#![allow(unused)]
use gearlongan::slab::pool::{OwnedRefMut, Ref, RefMut};
use gearlongan::slab::{Entry, OwnedEntry, Pool, Slab, VacantEntry};
use gearlongan::table::Key;
use gearlongan::{Heap, Layout, Pass, Shape, Table};
use std::cell::Cell;
use std::rc::Rc;
use std::sync::{Arc, Mutex, MutexGuard};
use std::thread;

// No guard outlives its slab, its pool or its value.

fn an_entry_outlives_its_slab(slab: Slab<String>, key: usize) {
    let entry = slab.get(key);
    drop(slab); //~ E0505
    drop(entry);
}

fn an_entry_outlives_the_arc_that_it_was_got_from(key: usize) -> usize {
    let mut kept: Option<Entry<'_, String>> = None;
    {
        let slab: Arc<Slab<String>> = Arc::new(Slab::new());
        kept = slab.get(key); //~ E0597
    }
    kept.map_or(0, |entry| entry.len())
}

fn a_vacant_entry_outlives_its_slab(slab: Slab<String>) {
    let entry = slab.vacant_entry();
    drop(slab); //~ E0505
    drop(entry);
}

fn a_slab_is_moved_while_it_is_borrowed(slab: Slab<String>, key: usize) {
    let entry = slab.get(key);
    let moved = Box::new(slab); //~ E0505
    drop(entry);
}

fn a_reference_outlives_its_entry(slab: &Slab<String>, key: usize) {
    let mut kept: &str = "";
    if let Some(entry) = slab.get(key) {
        kept = entry.as_str(); //~ E0597
    }
    println!("{kept}");
}

fn a_reference_outlives_its_owned_entry(entry: OwnedEntry<String>) {
    let kept: &str = &entry;
    drop(entry); //~ E0505
    println!("{kept}");
}

fn a_value_of_all_outlives_the_slab(mut slab: Slab<String>) {
    let kept = slab.unique_iter().next();
    drop(slab); //~ E0505
    drop(kept);
}

fn a_slab_is_shared_while_all_its_values_are_looked_at(mut slab: Slab<String>, key: usize) {
    let all = slab.unique_iter();
    slab.remove(key); //~ E0502
    drop(all);
}

fn an_entry_of_a_walk_outlives_its_slab(slab: Slab<String>) {
    let entry = slab.iter().next();
    drop(slab); //~ E0505
    drop(entry);
}

fn all_values_are_looked_at_while_one_has_a_guard(mut slab: Slab<String>, key: usize) {
    let entry = slab.get(key);
    slab.unique_iter(); //~ E0502
    drop(entry);
}

fn a_guard_outlives_its_pool(pool: Pool<String>, key: usize) {
    let guard = pool.get(key);
    drop(pool); //~ E0505
    drop(guard);
}

fn a_written_guard_outlives_its_pool(pool: Pool<String>) {
    let guard = pool.create();
    drop(pool); //~ E0505
    drop(guard);
}

fn a_reference_outlives_the_guard_that_wrote(mut guard: RefMut<'_, String>) {
    let kept: &mut String = &mut guard;
    let read = guard.downgrade(); //~ E0505
    kept.push('a');
}

fn a_value_is_kept_for_the_closure_that_makes_it(pool: &Pool<String>) {
    let mut kept: Option<&mut String> = None;
    pool.create_with(|text| {
        kept = Some(text); //~ E0521
    });
}

// A value is written by one guard, before others read it.

fn an_entry_writes(mut entry: Entry<'_, String>) {
    entry.push('a'); //~ E0596
}

fn a_guard_that_reads_writes(mut guard: Ref<'_, String>) {
    guard.push('a'); //~ E0596
}

fn two_writers_of_one_guard(mut guard: OwnedRefMut<String>) {
    let one: &mut String = &mut guard;
    let other: &mut String = &mut guard; //~ E0499
    one.push('a');
}

fn a_guard_writes_after_it_was_downgraded(mut guard: RefMut<'_, String>) {
    let read = guard.downgrade();
    guard.push('a'); //~ E0382
}

fn a_vacant_entry_is_filled_twice(entry: VacantEntry<'_, String>) {
    entry.insert(String::new());
    entry.insert(String::new()); //~ E0382
}

// A value with a lifetime is dropped before that ends, and is not taken for one with another lifetime.

fn a_value_borrows_what_is_dropped_before_the_slab() {
    let slab: Slab<&str> = Slab::new();
    let text = String::from("a");
    slab.insert(text.as_str()); //~ E0597
}

fn a_slab_takes_a_shorter_lifetime<'a>(slab: &'a Slab<&'static str>, text: &'a str) {
    slab.insert(text); //~ E0521
}

fn a_guard_is_read_with_a_longer_lifetime<'a>(entry: &Entry<'_, &'a str>) -> &'static str {
    return **entry; //~ -
    ""
}

// Values that are not `Send` or not `Sync` stay in their thread.

fn a_slab_of_what_is_not_send_is_moved(slab: Slab<Rc<u8>>) {
    thread::spawn(move || drop(slab)); //~ E0277
}

fn a_slab_of_what_is_not_send_is_shared(slab: &Slab<Rc<u8>>) {
    thread::scope(|scope| {
        scope.spawn(|| slab.insert(Rc::default())); //~ E0277
    });
}

fn a_slab_of_what_is_not_sync_is_shared(slab: &Slab<Cell<u8>>) {
    thread::scope(|scope| {
        scope.spawn(|| slab.insert(Cell::default())); //~ E0277
    });
}

fn an_arc_of_a_slab_of_what_is_not_sync_is_sent(slab: Arc<Slab<Cell<u8>>>) {
    thread::spawn(move || drop(slab)); //~ E0277
}

fn a_slab_of_locks_that_are_held_is_shared(slab: &Slab<MutexGuard<'static, u8>>, key: usize) {
    thread::scope(|scope| {
        scope.spawn(|| slab.remove(key)); //~ E0277
    });
}

fn a_slab_of_locks_that_are_held_is_moved(slab: Slab<MutexGuard<'static, u8>>) {
    thread::spawn(move || drop(slab)); //~ E0277
}

fn a_pool_of_locks_that_are_held_is_shared(pool: &Pool<Option<MutexGuard<'static, u8>>>, key: usize) {
    thread::scope(|scope| {
        scope.spawn(|| pool.clear(key)); //~ E0277
    });
}

fn a_pool_of_locks_that_are_held_is_moved(pool: Pool<Option<MutexGuard<'static, u8>>>) {
    thread::spawn(move || drop(pool)); //~ E0277
}

fn an_entry_of_what_is_not_sync_is_sent(entry: Entry<'static, Cell<u8>>) {
    thread::spawn(move || entry.set(7)); //~ E0277
}

fn an_entry_of_what_is_not_send_is_sent(entry: Entry<'static, MutexGuard<'static, u8>>) {
    thread::spawn(move || drop(entry)); //~ E0277
}

fn an_owned_entry_of_what_is_not_sync_is_sent(entry: OwnedEntry<Cell<u8>>) {
    thread::spawn(move || entry.set(7)); //~ E0277
}

fn an_owned_entry_of_what_is_not_send_is_sent(entry: OwnedEntry<MutexGuard<'static, u8>>) {
    thread::spawn(move || drop(entry)); //~ E0277
}

fn an_owned_guard_of_a_lock_that_is_held_is_sent(guard: OwnedRefMut<Option<MutexGuard<'static, u8>>>) {
    thread::spawn(move || drop(guard)); //~ E0277
}

fn an_owned_guard_of_what_is_not_sync_is_sent(guard: OwnedRefMut<Option<Cell<u8>>>) {
    thread::spawn(move || drop(guard)); //~ E0277
}

fn a_vacant_entry_of_what_is_not_send_is_sent(entry: VacantEntry<'static, Rc<u8>>) {
    thread::spawn(move || drop(entry)); //~ E0277
}

// A pass of a heap is used by one thread at a time, and a guard stays with its pass.

fn a_pass_is_shared(heap: &Heap, key: gearlongan::Key) {
    let Ok(pass) = heap.take() else { return };
    thread::scope(|scope| {
        scope.spawn(|| pass.remove(key)); //~ E0277
    });
}

fn a_caller_is_shared(heap: &gearlongan::Growing, key: gearlongan::Key) {
    let Ok(caller) = heap.take() else { return };
    thread::scope(|scope| {
        scope.spawn(|| caller.remove(key)); //~ E0277
    });
}

fn a_receipt_is_shared(receipt: gearlongan::Receipt) {
    thread::scope(|scope| {
        scope.spawn(|| drop(&receipt)); //~ E0277
    });
}

fn a_guard_of_a_pass_is_sent(pass: &'static gearlongan::Pass, key: gearlongan::Key) {
    let Ok(guard) = pass.get(key) else { return };
    thread::spawn(move || drop(guard)); //~ E0277
}

fn a_guard_outlives_its_pass(pass: gearlongan::Pass, key: gearlongan::Key) {
    let guard = pass.get(key);
    drop(pass); //~ E0505
    drop(guard);
}

fn main() {}

// A key is of one type of records, and a record has at most 16 words.

fn a_key_of_another_type_is_got(table: &Table<u32>, key: Key<u64>) {
    table.get(key); //~ E0308
}

fn a_key_of_another_type_is_removed(table: &Table<u32>, key: Key<i32>) {
    table.remove(key); //~ E0308
}

fn keys_of_two_types_are_compared(one: Key<u32>, other: Key<u64>) {
    let _ = one == other; //~ E0308
}

fn a_key_of_a_heap_is_looked_up_in_a_table(table: &Table<u32>, key: gearlongan::Key) {
    table.contains(key); //~ E0308
}

fn a_record_of_another_type_is_stored(table: &Table<u32>) {
    let _ = table.insert(&7u64); //~ E0308
}

fn what_is_no_record_is_stored(text: &String) {
    let _ = Table::new().insert(text); //~ E0277
}

fn a_table_of_what_is_no_record_is_made() {
    let _: Table<Rc<u8>> = Table::new(); //~ E0277
}

// A hook goes where its pass or table goes, and borrows nothing. A guard keeps its pass as it is, until it is released.

fn a_hook_is_set_while_a_guard_is_there(mut pass: Pass, key: gearlongan::Key) {
    let guard = pass.get(key).unwrap();
    pass.on_end(|_, _| ()); //~ E0502
    drop(guard);
}

fn a_guard_is_used_after_its_release(pass: &Pass, key: gearlongan::Key) {
    let guard = pass.get(key).unwrap();
    guard.release();
    println!("{}", guard.len()); //~ E0382
}

fn a_guard_is_released_after_its_pass(pass: Pass, key: gearlongan::Key) {
    let guard = pass.get(key).unwrap();
    drop(pass); //~ E0505
    guard.release();
}

fn a_hook_that_stays_with_its_thread_goes_with_a_pass(pass: &mut Pass) {
    let count = Rc::new(Cell::new(0));
    pass.on_end(move |_, _| count.set(1)); //~ E0277
}

fn a_hook_of_a_table_is_of_one_thread(table: &mut Table<u32>) {
    let count = Cell::new(0);
    table.on_end(move |_, _| count.set(1)); //~ E0277
}

fn a_hook_borrows_what_ends_before_its_table(table: &mut Table<u32>) {
    let keys: Mutex<Vec<Key<u32>>> = Mutex::new(Vec::new());
    table.on_end(|key, _| keys.lock().unwrap().push(key)); //~ E0373
}

fn a_hook_is_set_of_a_table_that_is_shared(table: &Table<u32>) {
    table.on_end(|_, _| ()); //~ E0596
}

fn a_hook_takes_the_records_of_another_table(table: &mut Table<u32>) {
    table.on_end(|_, _: u64| ()); //~ E0631
}
