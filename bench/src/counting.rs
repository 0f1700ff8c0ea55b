//! The allocator of this program, which counts while it is asked to what the thread has and has not given back.
use std::alloc::{GlobalAlloc, Layout, System};
use std::cell::Cell;

pub struct Counting;

thread_local! {
    // The bytes, while they are counted.
    static BYTES: Cell<Option<isize>> = const { Cell::new(None) };
}

fn add(bytes: isize) {
    BYTES.with(|counted| {
        if let Some(so_far) = counted.get() {
            counted.set(Some(so_far + bytes));
        }
    });
}

// SAFETY: each call is the system's, of which all is asked that was asked of this one. Counting takes no memory.
unsafe impl GlobalAlloc for Counting {
    unsafe fn alloc(&self, layout: Layout) -> *mut u8 {
        add(layout.size() as isize);
        System.alloc(layout)
    }

    unsafe fn alloc_zeroed(&self, layout: Layout) -> *mut u8 {
        add(layout.size() as isize);
        System.alloc_zeroed(layout)
    }

    unsafe fn dealloc(&self, place: *mut u8, layout: Layout) {
        add(-(layout.size() as isize));
        System.dealloc(place, layout);
    }

    unsafe fn realloc(&self, place: *mut u8, layout: Layout, size: usize) -> *mut u8 {
        add(size as isize - layout.size() as isize);
        System.realloc(place, layout, size)
    }
}

/// Does the job, and answers how many bytes more this thread has than before: those that it asked for, without what the
/// system's allocator adds for itself.
pub fn counted<T>(job: impl FnOnce() -> T) -> (T, isize) {
    BYTES.set(Some(0));
    let answer = job();
    (answer, BYTES.take().unwrap_or_default())
}

#[cfg(test)]
mod tests {
    use super::*;

    #[test]
    fn what_is_kept_is_counted_and_what_is_given_back_is_not() {
        let (kept, bytes) = counted(|| {
            drop(vec![0u8; 1000]);
            let mut kept = Vec::<u64>::with_capacity(4);
            kept.reserve_exact(10);
            kept
        });
        assert_eq!((kept.capacity(), bytes), (10, 80));
        assert_eq!(counted(|| drop(kept)).1, -80);
    }

    #[test]
    fn each_count_begins_anew() {
        let (_kept, first) = counted(|| Box::new([0u64; 3]));
        let (_kept_too, second) = counted(|| Box::new(1u64));
        assert_eq!((first, second), (24, 8));
    }
}
