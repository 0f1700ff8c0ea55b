//! The C library's functions for memory, with a question before each call that allocates. A test that has this module
//! has `crate::is_granted`: false if the memory is refused. Both Rust and the library of heaps take theirs here. (The
//! function `calloc` stays. glibc ends the process if that is refused as it registers a destructor of a thread.)
use std::ffi::c_void;

extern "C" {
    fn __libc_malloc(size: usize) -> *mut c_void;
    fn __libc_realloc(at: *mut c_void, size: usize) -> *mut c_void;
    fn __libc_memalign(align: usize, size: usize) -> *mut c_void;
}

fn if_granted(allocate: impl FnOnce() -> *mut c_void) -> *mut c_void {
    if crate::is_granted() {
        allocate()
    } else {
        std::ptr::null_mut()
    }
}

#[no_mangle]
extern "C" fn malloc(size: usize) -> *mut c_void {
    // SAFETY: C's own call.
    if_granted(|| unsafe { __libc_malloc(size) })
}

#[no_mangle]
unsafe extern "C" fn realloc(at: *mut c_void, size: usize) -> *mut c_void {
    // SAFETY: the caller says that this is its memory.
    if_granted(|| unsafe { __libc_realloc(at, size) })
}

#[no_mangle]
extern "C" fn aligned_alloc(align: usize, size: usize) -> *mut c_void {
    // SAFETY: C's own call.
    if_granted(|| unsafe { __libc_memalign(align, size) })
}

#[no_mangle]
unsafe extern "C" fn posix_memalign(at: *mut *mut c_void, align: usize, size: usize) -> i32 {
    // SAFETY: C's own call.
    let allocated = if_granted(|| unsafe { __libc_memalign(align, size) });
    if allocated.is_null() {
        return 12; // ENOMEM
    }
    // SAFETY: the caller says that the result goes there.
    unsafe { *at = allocated };
    0
}
