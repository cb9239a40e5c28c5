//! Memory that ends at a page which nobody may read or write: one byte too far ends the program.

use std::ffi::{c_int, c_long, c_void};
use std::ptr::null_mut;

extern "C" {
    fn mmap(
        at: *mut c_void,
        len: usize,
        access: c_int,
        flags: c_int,
        file: c_int,
        offset: c_long,
    ) -> *mut c_void;
    fn mprotect(at: *mut c_void, len: usize, access: c_int) -> c_int;
}

// Linux on x86-64.
const PAGE: usize = 4_096;
const NO_ACCESS: c_int = 0;
const READ_WRITE: c_int = 3;
const PRIVATE_ANONYMOUS: c_int = 0x22;

pub struct Fenced {
    bytes: &'static mut [u8],
}

impl Fenced {
    /// Room for so many bytes, and a page between two fences for the rest. It stays to the end of
    /// the program.
    pub fn new(room: usize) -> Fenced {
        let len = room.div_ceil(PAGE) * PAGE;
        // SAFETY: the mapping is new and private, and only its middle is ever used.
        unsafe {
            let all = mmap(null_mut(), len + 2 * PAGE, NO_ACCESS, PRIVATE_ANONYMOUS, -1, 0);
            assert_ne!(all as isize, -1, "no memory");
            let middle = all.add(PAGE);
            assert_eq!(mprotect(middle, len, READ_WRITE), 0, "no fence");
            Fenced { bytes: std::slice::from_raw_parts_mut(middle as *mut u8, len) }
        }
    }

    /// The last bytes before the fence.
    pub fn last(&mut self, len: usize) -> &mut [u8] {
        let start = self.bytes.len() - len;
        &mut self.bytes[start..]
    }

    /// All bytes.
    pub fn all(&mut self) -> &mut [u8] {
        self.bytes
    }

    /// The last numbers before the fence.
    pub fn last_numbers<T: Number>(&mut self, len: usize) -> &mut [T] {
        let all = self.all_numbers();
        let start = all.len() - len;
        &mut all[start..]
    }

    /// These numbers, the last before the fence.
    pub fn holding<T: Number>(&mut self, numbers: &[T]) -> &[T] {
        let last = self.last_numbers(numbers.len());
        last.copy_from_slice(numbers);
        last
    }

    /// All of the memory as numbers.
    pub fn all_numbers<T: Number>(&mut self) -> &mut [T] {
        // SAFETY: any bytes are such a number.
        let (before, numbers, after) = unsafe { self.bytes.align_to_mut() };
        assert!(before.is_empty() && after.is_empty(), "whole pages hold whole numbers");
        numbers
    }
}

/// Plain numbers: any bytes are one.
pub trait Number: Copy {}

impl Number for u8 {}
impl Number for u16 {}
impl Number for u64 {}
impl Number for usize {}
impl Number for i64 {}
