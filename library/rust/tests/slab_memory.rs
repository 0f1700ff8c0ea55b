//! The memory of slabs and tables, as the C library counts it: the heaps take theirs from there too.
#![cfg(all(target_os = "linux", target_env = "gnu", target_pointer_width = "64"))]
use gearlongan::slab::{Pool, Slab};
use gearlongan::Table;
use std::thread;

/// C's `struct mallinfo2`.
#[repr(C)]
struct Counts {
    arena: usize,
    free_chunks: usize,
    fast_chunks: usize,
    mapped: usize,
    mapped_bytes: usize,
    unused: usize,
    fast_bytes: usize,
    used: usize,
    free: usize,
    trimmable: usize,
}

extern "C" {
    fn mallinfo2() -> Counts;
}

/// The bytes that are allocated in all of the process: no other test runs in it.
fn allocated() -> usize {
    // SAFETY: C's own call.
    let counts = unsafe { mallinfo2() };
    counts.used + counts.mapped_bytes
}

const MIB: usize = 1 << 20;

#[test]
fn slabs_are_small_and_leave_nothing_behind() {
    let begin = allocated();
    let slab = Slab::new();
    let key = slab.insert(7u64).expect("there is room");
    assert!(allocated() - begin <= 128 << 10, "a new slab took {} bytes", allocated() - begin);
    assert!(slab.contains(key));

    // This thread goes on, and so does another that used them.
    let (sender, receiver) = std::sync::mpsc::channel::<&Slab<u64>>();
    let (done, was_done) = std::sync::mpsc::channel();
    let slabs: Vec<Slab<u64>> = (0..100).map(|_| Slab::new()).collect();
    thread::scope(|scope| {
        scope.spawn(move || {
            for slab in receiver {
                assert!(slab.insert(7).is_some_and(|key| slab.remove(key)));
            }
            done.send(()).expect("somebody listens");
        });
        for slab in &slabs {
            assert!(slab.insert(7).is_some_and(|key| slab.remove(key)));
            sender.send(slab).expect("it listens");
        }
        drop(sender);
        was_done.recv().expect("it ends well");
    });
    assert!(allocated() - begin > 4 * MIB);
    drop(slabs);
    for _ in 0..100 {
        let slab = Slab::new();
        assert!(slab.insert(7u64).is_some());
        let pool: Pool<String> = Pool::new();
        assert!(pool.create().is_some());
    }
    let left = allocated().saturating_sub(begin);
    assert!(left < 2 * MIB, "{left} bytes are left");
    a_table_is_small_and_leaves_little_behind();
    many_tables_leave_no_more_than_a_few();
}

// A part of the test above, since it counts all of the process.
fn a_table_is_small_and_leaves_little_behind() {
    let begin = allocated();
    let table = Table::new();
    let taken = allocated() - begin;
    assert!(taken <= 160 << 10, "a new table took {taken} bytes");
    assert!((0..10_000u64).all(|n| table.insert(&n).is_ok()));
    drop(table);
    // The block of the table itself stays as long as a thread remembers it.
    let left = allocated().saturating_sub(begin);
    assert!(left < 16 << 10, "{left} bytes are left");
}

// Another part. Each table is used by this thread, which goes on, and some by a thread that ends.
fn many_tables_leave_no_more_than_a_few() {
    let begin = allocated();
    for n in 0..10_000u64 {
        let table = Table::new();
        let key = table.insert(&n).expect("there is room");
        if n % 20 == 0 {
            thread::scope(|scope| _ = scope.spawn(|| assert!(table.contains(key))));
        }
        assert_eq!(table.take(key), Some(n));
    }
    let left = allocated().saturating_sub(begin);
    assert!(left < 256 << 10, "{left} bytes are left");
}
