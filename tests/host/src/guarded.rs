//! Memory between two pages that nobody may touch: a read or a write beyond it ends the program.

use std::ffi::{c_int, c_long, c_void};
use std::marker::PhantomData;

extern "C" {
    fn mmap(
        place: *mut c_void,
        length: usize,
        access: c_int,
        flags: c_int,
        file: c_int,
        offset: c_long,
    ) -> *mut c_void;
    fn mprotect(place: *mut c_void, length: usize, access: c_int) -> c_int;
    fn munmap(place: *mut c_void, length: usize) -> c_int;
    fn sysconf(name: c_int) -> c_long;
}

// Linux's numbers, the same on x86-64 and Arm.
const NO_ACCESS: c_int = 0;
const READ: c_int = 1;
const READ_AND_WRITE: c_int = 3;
const PRIVATE_AND_ANONYMOUS: c_int = 0x02 | 0x20;
const PAGE_SIZE: c_int = 30;

/// A slice of plain numbers in such memory.
pub struct Guarded<T> {
    mapped: *mut u8,
    mapped_len: usize,
    first: *mut T,
    length: usize,
    numbers: PhantomData<T>,
}

/// Numbers whose every pattern of bits is a value.
pub trait Number: Copy {}
impl Number for u8 {}
impl Number for u16 {}
impl Number for u32 {}
impl Number for u64 {}

impl<T: Number> Guarded<T> {
    /// Its last element lies before a guard page.
    pub fn ending_at_guard(length: usize) -> Guarded<T> {
        let bytes = length * size_of::<T>();
        Guarded::new(length, |room| room - bytes)
    }

    /// Its first element lies after a guard page.
    pub fn starting_after_guard(length: usize) -> Guarded<T> {
        Guarded::new(length, |_| 0)
    }

    pub fn holding(place: fn(usize) -> Guarded<T>, content: &[T]) -> Guarded<T> {
        let mut memory = place(content.len());
        memory.as_mut_slice().copy_from_slice(content);
        memory
    }

    /// From here on a write to it ends the program too.
    pub fn read_only(self) -> Guarded<T> {
        let page = page_size();
        // SAFETY: the pages between the two guards are this mapping's own.
        let done =
            unsafe { mprotect(self.mapped.add(page).cast(), self.mapped_len - 2 * page, READ) };
        assert_eq!(done, 0, "the pages can be made read-only");
        self
    }

    fn new(length: usize, offset: impl Fn(usize) -> usize) -> Guarded<T> {
        let page = page_size();
        let room = (length * size_of::<T>()).div_ceil(page).max(1) * page;
        let mapped_len = room + 2 * page;
        // SAFETY: a new mapping, of which only the middle is opened.
        let mapped = unsafe {
            mmap(std::ptr::null_mut(), mapped_len, NO_ACCESS, PRIVATE_AND_ANONYMOUS, -1, 0)
        };
        assert_ne!(mapped as isize, -1, "memory can be mapped");
        let mapped: *mut u8 = mapped.cast();
        let middle = mapped.wrapping_add(page);
        // SAFETY: the middle is this mapping's own.
        let opened = unsafe { mprotect(middle.cast(), room, READ_AND_WRITE) };
        assert_eq!(opened, 0, "the pages between the guards can be opened");
        let first = middle.wrapping_add(offset(room)).cast();
        Guarded { mapped, mapped_len, first, length, numbers: PhantomData }
    }

    pub fn as_slice(&self) -> &[T] {
        // SAFETY: so many elements lie in the open middle, and new pages are zero.
        unsafe { std::slice::from_raw_parts(self.first, self.length) }
    }

    pub fn as_mut_slice(&mut self) -> &mut [T] {
        // SAFETY: the same, and it is borrowed for writing.
        unsafe { std::slice::from_raw_parts_mut(self.first, self.length) }
    }
}

impl<T> Drop for Guarded<T> {
    fn drop(&mut self) {
        // SAFETY: the mapping is this value's own, and nothing borrows from it any more.
        unsafe { munmap(self.mapped.cast(), self.mapped_len) };
    }
}

/// On which side of a piece of memory the guard page lies next to it.
#[derive(Clone, Copy, Debug)]
pub enum Side {
    Before,
    Behind,
}

pub fn placed<T: Number>(side: Side, length: usize) -> Guarded<T> {
    match side {
        Side::Before => Guarded::starting_after_guard(length),
        Side::Behind => Guarded::ending_at_guard(length),
    }
}

/// Bytes that cannot be written.
pub fn read_only(side: Side, content: &[u8]) -> Guarded<u8> {
    let mut memory = placed(side, content.len());
    memory.as_mut_slice().copy_from_slice(content);
    memory.read_only()
}

/// Memory that holds the same in every element.
pub fn filled<T: Number>(side: Side, length: usize, with: T) -> Guarded<T> {
    let mut memory = placed(side, length);
    memory.as_mut_slice().fill(with);
    memory
}

fn page_size() -> usize {
    // SAFETY: it only answers a number.
    unsafe { sysconf(PAGE_SIZE) as usize }
}
