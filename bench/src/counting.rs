// Counts what the C library's allocator is asked for, by the product and by the harness.

use std::ffi::c_void;
use std::sync::atomic::{AtomicU64, Ordering::Relaxed};

static ASKED: AtomicU64 = AtomicU64::new(0);

/// How often memory was asked for since the start.
pub fn asked() -> u64 {
    ASKED.load(Relaxed)
}

extern "C" {
    fn __libc_malloc(size: usize) -> *mut c_void;
    fn __libc_calloc(count: usize, size: usize) -> *mut c_void;
    fn __libc_realloc(block: *mut c_void, size: usize) -> *mut c_void;
}

#[no_mangle]
unsafe extern "C" fn malloc(size: usize) -> *mut c_void {
    ASKED.fetch_add(1, Relaxed);
    __libc_malloc(size)
}

#[no_mangle]
unsafe extern "C" fn calloc(count: usize, size: usize) -> *mut c_void {
    ASKED.fetch_add(1, Relaxed);
    __libc_calloc(count, size)
}

#[no_mangle]
unsafe extern "C" fn realloc(block: *mut c_void, size: usize) -> *mut c_void {
    ASKED.fetch_add(1, Relaxed);
    __libc_realloc(block, size)
}
