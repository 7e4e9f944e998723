//! Memory between two pages that nobody may touch: a read or a write beyond either end ends the process.

use std::ffi::c_void;
use std::slice;

extern "C" {
    fn mmap(at: *mut c_void, size: usize, may: i32, how: i32, file: i32, from: i64) -> *mut c_void;
    fn mprotect(at: *mut c_void, size: usize, may: i32) -> i32;
    fn sysconf(name: i32) -> i64;
    fn prctl(option: i32, value: usize) -> i32;
}

// As Linux has them.
const NOTHING: i32 = 0;
const READ_AND_WRITE: i32 = 1 | 2;
const PRIVATE_AND_EMPTY: i32 = 2 | 0x20;
const PAGE_SIZE: i32 = 30;
const DUMPABLE: i32 = 4;

/// A process that is ended on purpose leaves no dump.
pub fn leave_no_dump() {
    // SAFETY: it reads no memory of ours.
    unsafe { prctl(DUMPABLE, 0) };
}

/// At which end of its pages a buffer lies.
#[derive(Clone, Copy, Debug)]
pub enum End {
    Front,
    Back,
}

pub struct Pages {
    first: *mut u8,
    size: usize,
}

impl Pages {
    /// At least so many bytes, with a page before and a page behind.
    pub fn new(least: usize) -> Pages {
        // SAFETY: a mapping of its own, of which the pages at both ends are shut, and which is never given back.
        unsafe {
            let page = sysconf(PAGE_SIZE) as usize;
            let size = least.next_multiple_of(page);
            let null = std::ptr::null_mut();
            let all = mmap(null, size + 2 * page, NOTHING, PRIVATE_AND_EMPTY, -1, 0);
            assert_ne!(all as isize, -1, "no memory is mapped");
            let first = all.cast::<u8>().add(page);
            let opened = mprotect(first.cast(), size, READ_AND_WRITE);
            assert_eq!(opened, 0, "no memory is opened");
            Pages { first, size }
        }
    }

    /// A copy of the items, flush with an end.
    pub fn hold<T: Copy>(&mut self, items: &[T], end: End) -> &mut [T] {
        let bytes = size_of_val(items);
        assert!(bytes <= self.size, "{bytes} bytes for too few pages");
        let from = match end {
            End::Front => 0,
            End::Back => self.size - bytes,
        };
        // SAFETY: both ends of the pages are aligned for any item, and the items lie within.
        let held =
            unsafe { slice::from_raw_parts_mut(self.first.add(from).cast::<T>(), items.len()) };
        held.copy_from_slice(items);
        held
    }
}
