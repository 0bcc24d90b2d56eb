//! Buffers that end at a page which may not be touched: a call that reads or writes past the end of
//! what it is lent stops the program at once.

use std::cell::RefCell;
use std::ffi::{c_int, c_long, c_void};
use std::ops::{Deref, DerefMut};
use std::{ptr, slice};

// As Linux has them on x86-64 and Arm.
const PROT_NONE: c_int = 0;
const PROT_READ_WRITE: c_int = 1 | 2;
const MAP_PRIVATE_ANONYMOUS: c_int = 0x02 | 0x20;
const SC_PAGESIZE: c_int = 30;

extern "C" {
    fn mmap(
        at: *mut c_void,
        size: usize,
        protection: c_int,
        flags: c_int,
        file: c_int,
        offset: i64,
    ) -> *mut c_void;
    fn mprotect(at: *mut c_void, size: usize, protection: c_int) -> c_int;
    fn sysconf(name: c_int) -> c_long;
}

/// The smallest mapping, without its last page. Most buffers fit, so that few are made.
const LEAST: usize = 1 << 17;

/// Bytes that can be used, right before a page that cannot.
#[derive(Clone, Copy)]
struct Mapping {
    start: *mut u8,
    size: usize,
}

thread_local! {
    /// Mappings that no buffer has now.
    static FREE: RefCell<Vec<Mapping>> = const { RefCell::new(Vec::new()) };
}

impl Mapping {
    fn new(size: usize) -> Self {
        // SAFETY: a new mapping is asked for, and only it is changed; both answers are tested.
        unsafe {
            let page = usize::try_from(sysconf(SC_PAGESIZE)).expect("pages have a size");
            let size = size.next_multiple_of(page);
            let start = mmap(
                ptr::null_mut(),
                size + page,
                PROT_READ_WRITE,
                MAP_PRIVATE_ANONYMOUS,
                -1,
                0,
            );
            assert!(start as isize != -1, "no memory for a guarded buffer");
            let start = start.cast::<u8>();
            let last = mprotect(start.add(size).cast(), page, PROT_NONE);
            assert!(last == 0, "the last page cannot be guarded");
            Mapping { start, size }
        }
    }

    /// A free one that is long enough, or a new one.
    fn of(len: usize) -> Self {
        let free = FREE.with_borrow_mut(|free| {
            let place = free.iter().rposition(|mapping| mapping.size >= len)?;
            Some(free.swap_remove(place))
        });
        free.unwrap_or_else(|| Mapping::new(len.max(LEAST)))
    }
}

/// A buffer. Its last byte is the last before the guarded page.
pub struct Lent {
    mapping: Mapping,
    len: usize,
}

impl Lent {
    /// A copy of these bytes.
    pub fn new(bytes: &[u8]) -> Self {
        let mut lent = Lent {
            mapping: Mapping::of(bytes.len()),
            len: bytes.len(),
        };
        lent.copy_from_slice(bytes);
        lent
    }

    fn start(&self) -> *mut u8 {
        // SAFETY: `len` is at most the size of the mapping.
        unsafe { self.mapping.start.add(self.mapping.size - self.len) }
    }
}

impl Deref for Lent {
    type Target = [u8];

    fn deref(&self) -> &[u8] {
        // SAFETY: so many bytes stand there, they are this buffer's alone, and a new mapping is 0.
        unsafe { slice::from_raw_parts(self.start(), self.len) }
    }
}

impl DerefMut for Lent {
    fn deref_mut(&mut self) -> &mut [u8] {
        // SAFETY: as above.
        unsafe { slice::from_raw_parts_mut(self.start(), self.len) }
    }
}

impl Drop for Lent {
    fn drop(&mut self) {
        FREE.with_borrow_mut(|free| free.push(self.mapping));
    }
}
