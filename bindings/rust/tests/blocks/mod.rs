//! The allocator of a test: it counts the blocks of each thread, and refuses large ones on demand.

use std::alloc::{GlobalAlloc, Layout, System};
use std::cell::Cell;
use std::ptr::null_mut;

thread_local! {
    /// This thread is refused blocks of more bytes.
    pub static MOST: Cell<usize> = const { Cell::new(usize::MAX) };
    /// How many blocks this thread took, less those that it gave back.
    pub static BLOCKS: Cell<isize> = const { Cell::new(0) };
}

struct Counted;

// SAFETY: each call is passed on to the system's allocator, or refused with a null pointer.
unsafe impl GlobalAlloc for Counted {
    unsafe fn alloc(&self, layout: Layout) -> *mut u8 {
        if layout.size() > MOST.get() {
            return null_mut();
        }
        BLOCKS.set(BLOCKS.get() + 1);
        // SAFETY: the caller's duties are those of this call.
        unsafe { System.alloc(layout) }
    }

    unsafe fn dealloc(&self, at: *mut u8, layout: Layout) {
        BLOCKS.set(BLOCKS.get() - 1);
        // SAFETY: as in `alloc`.
        unsafe { System.dealloc(at, layout) }
    }
}

#[global_allocator]
static ALLOCATOR: Counted = Counted;
