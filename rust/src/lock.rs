//! A lock that is held for a few steps, with `std` and without.

use core::cell::UnsafeCell;
use core::sync::atomic::{AtomicBool, Ordering};

/// A value that one thread at a time uses.
pub(crate) struct Lock<T> {
    is_held: AtomicBool,
    value: UnsafeCell<T>,
}

// SAFETY: `with` hands the value to one thread at a time, and orders what they do with it.
unsafe impl<T: Send> Sync for Lock<T> {}

impl<T> Lock<T> {
    pub(crate) fn new(value: T) -> Self {
        Self { is_held: AtomicBool::new(false), value: UnsafeCell::new(value) }
    }

    /// Uses the value by a call that takes a few steps and does not panic. Waits while another thread does so.
    pub(crate) fn with<R>(&self, call: impl FnOnce(&mut T) -> R) -> R {
        while self.is_held.swap(true, Ordering::Acquire) {
            give_way();
        }
        // SAFETY: only the thread that has set the flag is here, until it clears that.
        let result = call(unsafe { &mut *self.value.get() });
        self.is_held.store(false, Ordering::Release);
        result
    }

    /// The value, which no other thread can use meanwhile.
    pub(crate) fn get_mut(&mut self) -> &mut T {
        self.value.get_mut()
    }
}

/// Lets others go on, for whom this thread waits.
pub(crate) fn give_way() {
    #[cfg(feature = "std")]
    std::thread::yield_now();
    #[cfg(not(feature = "std"))]
    core::hint::spin_loop();
}
