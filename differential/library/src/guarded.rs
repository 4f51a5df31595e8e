//! Memory to lend to the functions, between pages that nothing may touch: who reads or writes there ends
//! the process by SIGSEGV.

use std::cell::RefCell;
use std::collections::HashMap;
use std::ffi::{c_int, c_void};
use std::ptr;
use std::slice;

// As they are on Linux for x86-64, for which the archive is.
const PAGE: usize = 4096;
const PROT_NONE: c_int = 0;
const PROT_READ: c_int = 1;
const PROT_WRITE: c_int = 2;
const MAP_PRIVATE: c_int = 2;
const MAP_ANONYMOUS: c_int = 0x20;

unsafe extern "C" {
    fn mmap(
        start: *mut c_void,
        length: usize,
        protection: c_int,
        flags: c_int,
        file: c_int,
        offset: i64,
    ) -> *mut c_void;

    fn mprotect(start: *mut c_void, length: usize, protection: c_int) -> c_int;
}

/// The length of each guard: further than an index of two bytes reaches in a file or an output.
const GUARD: usize = 1 << 21;

/// Whole pages hold the items, so only one end can stand at a guard.
#[derive(Clone, Copy, PartialEq, Eq)]
pub enum Edge {
    /// The first item stands right behind the guard in front.
    Front,
    /// The last item stands right before the guard behind.
    Behind,
}

thread_local! {
    /// Pages between guards that no one uses, by their length. They are not given back to the system:
    /// that would take longer than the calls they are lent to.
    static FREE: RefCell<HashMap<usize, Vec<*mut u8>>> = RefCell::default();
}

/// Items that may be read and written. Where there are none, no page is between the guards.
pub struct Guarded<T> {
    /// Where the guard in front ends.
    pages: *mut u8,
    /// How many bytes there are to the guard behind.
    length: usize,
    first: *mut T,
    count: usize,
}

impl<T: Copy> Guarded<T> {
    /// A copy of the items.
    pub fn new(items: &[T], edge: Edge) -> Guarded<T> {
        let length = size_of_val(items).next_multiple_of(PAGE);
        let free = FREE.with_borrow_mut(|free| free.entry(length).or_default().pop());
        let pages = free.unwrap_or_else(|| between_guards(length));
        let slack = if edge == Edge::Front { 0 } else { length - size_of_val(items) };
        // SAFETY: within the pages. Their start is aligned to every T, and so is what stands a whole
        // number of them before their end.
        let first = unsafe { pages.add(slack) }.cast();
        // SAFETY: both have so many items, and the pages are no one else's.
        unsafe { ptr::copy_nonoverlapping(items.as_ptr(), first, items.len()) };
        Guarded { pages, length, first, count: items.len() }
    }

    pub fn items(&self) -> &[T] {
        // SAFETY: the items are there as long as `self`, and no one else has them.
        unsafe { slice::from_raw_parts(self.first, self.count) }
    }

    pub fn items_mut(&mut self) -> &mut [T] {
        // SAFETY: as in `items`; a sealed one does not come here.
        unsafe { slice::from_raw_parts_mut(self.first, self.count) }
    }
}

impl<T> Drop for Guarded<T> {
    fn drop(&mut self) {
        FREE.with_borrow_mut(|free| free.entry(self.length).or_default().push(self.pages));
    }
}

/// Items that may be read only: a write ends the process, too.
pub struct Sealed<T>(Guarded<T>);

impl<T: Copy> Sealed<T> {
    /// A copy of the items.
    pub fn new(items: &[T], edge: Edge) -> Sealed<T> {
        let guarded = Guarded::new(items, edge);
        protect(guarded.pages, guarded.length, PROT_READ);
        Sealed(guarded)
    }

    pub fn items(&self) -> &[T] {
        self.0.items()
    }
}

impl<T> Drop for Sealed<T> {
    fn drop(&mut self) {
        protect(self.0.pages, self.0.length, PROT_READ | PROT_WRITE);
    }
}

/// Pages of this length that may be read and written, with a guard on both sides.
fn between_guards(length: usize) -> *mut u8 {
    let flags = MAP_PRIVATE | MAP_ANONYMOUS;
    let all = GUARD + length + GUARD;
    // SAFETY: the system chooses a place where nothing is.
    let start = unsafe { mmap(ptr::null_mut(), all, PROT_NONE, flags, -1, 0) };
    assert_ne!(start.addr(), usize::MAX, "mmap fails");
    // SAFETY: within what is mapped.
    let pages = unsafe { start.cast::<u8>().add(GUARD) };
    protect(pages, length, PROT_READ | PROT_WRITE);
    pages
}

fn protect(pages: *mut u8, length: usize, protection: c_int) {
    // SAFETY: pages of `between_guards`, to whose items no reference is held.
    let failed = unsafe { mprotect(pages.cast(), length, protection) };
    assert_eq!(failed, 0, "mprotect fails");
}
