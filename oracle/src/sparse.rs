// Numbers that are all 0 and take memory only where they are written: a file of 4 GiB costs its header, its trailer and the
// nodes that are met. Its tables are larger than most machines would promise, so nothing is reserved for them.

use std::mem::size_of;
use std::ops::{Deref, DerefMut};
use std::slice;

extern "C" {
    fn mmap(at: *mut u8, bytes: usize, protection: i32, flags: i32, file: i32, offset: i64) -> *mut u8;
    fn munmap(at: *mut u8, bytes: usize) -> i32;
}

// As Linux numbers them.
const READ_AND_WRITE: i32 = 1 | 2;
const PRIVATE_ANONYMOUS_UNRESERVED: i32 = 0x2 | 0x20 | 0x4000;

// A number whose bytes may all be 0.
pub trait Number: Copy {}

impl Number for u8 {}

impl Number for u16 {}

impl Number for u64 {}

pub struct Zeros<T: Number> {
    at: *mut T,
    len: usize,
}

impl<T: Number> Zeros<T> {
    pub fn new(len: usize) -> Zeros<T> {
        let bytes = len.checked_mul(size_of::<T>()).expect("a size that has a number");
        let at = unsafe { mmap(std::ptr::null_mut(), bytes, READ_AND_WRITE, PRIVATE_ANONYMOUS_UNRESERVED, -1, 0) };
        assert!(at as isize != -1, "there is room for {} bytes of addresses", bytes);
        Zeros { at: at as *mut T, len }
    }
}

impl<T: Number> Deref for Zeros<T> {
    type Target = [T];

    fn deref(&self) -> &[T] {
        unsafe { slice::from_raw_parts(self.at, self.len) }
    }
}

impl<T: Number> DerefMut for Zeros<T> {
    fn deref_mut(&mut self) -> &mut [T] {
        unsafe { slice::from_raw_parts_mut(self.at, self.len) }
    }
}

impl<T: Number> Drop for Zeros<T> {
    fn drop(&mut self) {
        unsafe { munmap(self.at as *mut u8, self.len * size_of::<T>()) };
    }
}
