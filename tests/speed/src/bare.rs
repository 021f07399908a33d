//! The C library's movers, called by name, so that nothing is compiled in their place.

use std::ffi::{c_int, c_void};

extern "C" {
    fn memcpy(to: *mut c_void, from: *const c_void, size: usize) -> *mut c_void;
    fn memmove(to: *mut c_void, from: *const c_void, size: usize) -> *mut c_void;
    fn memset(to: *mut c_void, byte: c_int, size: usize) -> *mut c_void;
}

pub fn copy(from: &[u8], at: usize, to: &mut [u8], start: usize, size: usize) {
    let (from, to) = (&from[at..at + size], &mut to[start..start + size]);
    // SAFETY: both have `size` bytes, and a `&mut` shares none with anything.
    unsafe { memcpy(to.as_mut_ptr().cast(), from.as_ptr().cast(), size) };
}

pub fn move_within(bytes: &mut [u8], from: usize, to: usize, size: usize) {
    assert!(from + size <= bytes.len() && to + size <= bytes.len());
    let start = bytes.as_mut_ptr();
    // SAFETY: both stretches lie in `bytes`; they may overlap.
    unsafe { memmove(start.add(to).cast(), start.add(from).cast(), size) };
}

pub fn clear(bytes: &mut [u8], start: usize, size: usize) {
    let part = &mut bytes[start..start + size];
    // SAFETY: the part has `size` bytes.
    unsafe { memset(part.as_mut_ptr().cast(), 0, size) };
}
