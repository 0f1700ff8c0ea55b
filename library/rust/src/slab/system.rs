//! How memory goes back to the system. The C library keeps much of what is freed, for later allocations.
//!
//! The calls are those of glibc on Linux. Elsewhere the functions do nothing. Of a thread's arena glibc returns what is
//! free between blocks and keeps the end, except for the first thread: so nodes are returned by their pages.

#[cfg(all(target_os = "linux", target_env = "gnu"))]
mod calls {
    use std::ffi::c_void;

    /// Linux's advice that pages are not needed: they are zero when they are next used.
    pub(super) const DONT_NEED: i32 = 4;

    extern "C" {
        pub(super) fn getpagesize() -> i32;
        pub(super) fn madvise(at: *mut c_void, bytes: usize, advice: i32) -> i32;
        pub(super) fn malloc_trim(kept: usize) -> i32;
    }
}

/// Returns the pages that are wholly within a block which is freed next.
///
/// # Safety
///
/// The block is the caller's alone, and its content is not read any more.
pub(super) unsafe fn forget_pages(at: *mut u8, bytes: usize) {
    #[cfg(all(target_os = "linux", target_env = "gnu"))]
    {
        // SAFETY: C's own call.
        let page = unsafe { calls::getpagesize() } as usize;
        let before = at.align_offset(page);
        let whole = bytes.saturating_sub(before) / page * page;
        if whole > 0 {
            // SAFETY: these are pages within the block. If the system refuses, they stay as they are.
            unsafe { calls::madvise(at.add(before).cast(), whole, calls::DONT_NEED) };
        }
    }
    _ = (at, bytes);
}

/// Returns what is free between other blocks, as the memory of heaps.
pub(super) fn return_free_memory() {
    #[cfg(all(target_os = "linux", target_env = "gnu"))]
    // SAFETY: C's own call, which any thread may make at any time.
    unsafe {
        calls::malloc_trim(0);
    }
}
