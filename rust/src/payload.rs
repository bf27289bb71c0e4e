//! Values as payloads: the library has the address of a value's block, as a number that it never follows.

use alloc::alloc::{alloc, Layout};
use alloc::boxed::Box;
use core::ptr::NonNull;

/// Moves a value into a block of its own, and returns the payload that stands for it.
///
/// # Errors
///
/// If memory is refused, the value comes back.
pub(crate) fn into_payload<T>(value: T) -> Result<u64, T> {
    let layout = Layout::new::<T>();
    let block = if layout.size() == 0 {
        NonNull::dangling().as_ptr()
    } else {
        // SAFETY: the layout is not of size 0.
        unsafe { alloc(layout) }.cast::<T>()
    };
    if block.is_null() {
        return Err(value);
    }
    // SAFETY: the block is that of `alloc` for a `T`, or of size 0 and aligned.
    unsafe { block.write(value) };
    Ok(block as usize as u64)
}

/// Moves the value out of the block that a payload stands for, and frees the block.
///
/// # Safety
///
/// The payload is of `into_payload::<T>`, and its value was not taken before.
pub(crate) unsafe fn from_payload<T>(payload: u64) -> T {
    let block = payload as usize as *mut T;
    // SAFETY: the block is that of the global allocator for a `T`, as a `Box` has it, or of size 0; nothing else owns
    // it.
    *unsafe { Box::from_raw(block) }
}

/// The value that a payload stands for, where it is.
///
/// # Safety
///
/// The payload is of `into_payload::<T>`, and its value is not taken, nor borrowed mutably, as long as `'a` lasts.
pub(crate) unsafe fn value_at<'a, T>(payload: u64) -> &'a T {
    // SAFETY: the block has a `T`, which stays and is not written for `'a`.
    unsafe { &*(payload as usize as *const T) }
}

/// The value that a payload stands for, to be changed where it is.
///
/// # Safety
///
/// The payload is of `into_payload::<T>`, and its value is not taken, nor borrowed elsewhere, as long as `'a` lasts.
pub(crate) unsafe fn value_at_mut<'a, T>(payload: u64) -> &'a mut T {
    // SAFETY: the block has a `T`, which stays, and which nothing else reads or writes for `'a`.
    unsafe { &mut *(payload as usize as *mut T) }
}

/// Calls `drop_next` until it returns `false`, also where a call panics, since the drop of a value may panic.
pub(crate) fn drop_each(drop_next: impl FnMut() -> bool) {
    struct Rest<F: FnMut() -> bool>(F);

    impl<F: FnMut() -> bool> Drop for Rest<F> {
        fn drop(&mut self) {
            while (self.0)() {}
        }
    }

    let mut rest = Rest(drop_next);
    while (rest.0)() {}
}
