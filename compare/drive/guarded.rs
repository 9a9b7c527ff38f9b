//! Memory between two pages that must not be touched: a read or a write outside of it ends the program.

use std::{ffi::c_void, slice};

extern "C" {
    fn mmap(
        at: *mut c_void,
        length: usize,
        may: i32,
        how: i32,
        file: i32,
        offset: i64,
    ) -> *mut c_void;
    fn mprotect(at: *mut c_void, length: usize, may: i32) -> i32;
}

const PAGE: usize = 4096;
const NOTHING: i32 = 0;
const READ_AND_WRITE: i32 = 3;
const PRIVATE_AND_EMPTY: i32 = 0x22;

pub struct Guarded<T> {
    first: *mut T,
    count: usize,
}

impl<T: Copy> Guarded<T> {
    /// So many elements at least; as many as fill pages.
    pub fn new(count: usize, filling: T) -> Guarded<T> {
        let size = (count * size_of::<T>()).next_multiple_of(PAGE);
        let first = unsafe {
            let start = mmap(
                std::ptr::null_mut(),
                size + 2 * PAGE,
                NOTHING,
                PRIVATE_AND_EMPTY,
                -1,
                0,
            );
            assert_ne!(start as isize, -1, "no memory");
            let first = start.byte_add(PAGE);
            assert_eq!(mprotect(first, size, READ_AND_WRITE), 0);
            first as *mut T
        };
        let count = size / size_of::<T>();
        unsafe { slice::from_raw_parts_mut(first, count) }.fill(filling);
        Guarded { first, count }
    }

    pub fn len(&self) -> usize {
        self.count
    }

    /// The last so many, right before the page that must not be touched.
    pub fn last(&mut self, count: usize) -> &mut [T] {
        assert!(count <= self.count);
        unsafe { slice::from_raw_parts_mut(self.first.add(self.count - count), count) }
    }
}
