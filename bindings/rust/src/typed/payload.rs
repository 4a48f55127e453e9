//! A payload as the load of an item.
//!
//! A payload of at most eight bytes is the load itself, whatever its bytes are: the library carries them and never
//! reads them. The load of any other is the address of a box: who inserts an item gives its box away, and who deletes
//! the item gets the box. The queue orders the two, so what was written to the payload before its insertion is seen
//! by the thread that gets it.

use crate::sys::Load;
use std::alloc::{alloc, Layout};
use std::mem::{align_of, size_of};

/// Whether a payload is the load itself.
const fn is_small<T>() -> bool {
    size_of::<T>() <= size_of::<Load>() && align_of::<T>() <= align_of::<Load>()
}

/// The load that stands for a payload, or the payload where memory is refused.
pub(super) fn load_of<T>(payload: T) -> Result<Load, T> {
    if !is_small::<T>() {
        return boxed(payload).map(|payload| Load::new(Box::into_raw(payload) as u64));
    }
    let mut load = Load::new(0);
    // SAFETY: the load has room for it, and its alignment will do.
    unsafe { load.as_mut_ptr().cast::<T>().write(payload) };
    Ok(load)
}

/// The payload that a load stands for.
///
/// # Safety
///
/// [`load_of`] gave the load for a `T`, and the payload is taken from it here alone.
pub(super) unsafe fn payload_of<T>(load: Load) -> T {
    if is_small::<T>() {
        // SAFETY: as the caller says, the load has a `T`.
        return unsafe { load.as_ptr().cast::<T>().read() };
    }
    // SAFETY: as the caller says, it is the address of a box, which no one else gets.
    unsafe { *Box::from_raw(load.assume_init() as usize as *mut T) }
}

/// A box for a payload, or the payload where memory is refused.
fn boxed<T>(payload: T) -> Result<Box<T>, T> {
    let layout = Layout::new::<T>();
    if layout.size() == 0 {
        return Ok(Box::new(payload));
    }
    // SAFETY: the layout is not one of no bytes.
    let at = unsafe { alloc(layout) }.cast::<T>();
    if at.is_null() {
        return Err(payload);
    }
    // SAFETY: this is new memory for a `T`, from where boxes have theirs, and no one else has it.
    unsafe {
        at.write(payload);
        Ok(Box::from_raw(at))
    }
}
