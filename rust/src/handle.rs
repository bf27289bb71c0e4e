//! Handles of the library, and how they keep the conditions of its header.

use core::cell::UnsafeCell;

/// A handle as the library has it, which is of a collection, or of nothing.
pub(crate) trait Raw {
    /// The handle of nothing.
    const NOTHING: Self;

    /// Whether it is of nothing.
    fn is_of_nothing(&self) -> bool;

    /// Frees the handle at `this`.
    ///
    /// # Safety
    ///
    /// The header's conditions hold, as for each call.
    unsafe fn free(this: *mut Self);
}

/// A handle of the library, which is freed when it is dropped.
///
/// The header asks for this, and it holds for each call that gets [`raw`](Handle::raw):
///
/// - A handle is zero before its first call, only the calls write it, and no copy of it is used: this begins as
///   [`Raw::NOTHING`], and nothing else writes it. Rust never uses the place that it was moved from.
/// - No pointer is null, and two pointers of a call lead to different memory: one is that of a handle, and the other
///   that of another handle, by two `&mut`, or of a local variable.
/// - One call at a time is made on a handle: the calls do not call back, and no two threads have a reference to this,
///   which is not `Sync`.
/// - Another thread may make the next call, if a lock, the start or the join of a thread, or a sequentially consistent
///   atomic lies in between. Safe Rust hands a value to another thread only where what was done with it happens before
///   what that thread does with it. So it is by one of these, or by something that orders the two calls as they do,
///   such as the `Release` and the `Acquire` of a channel.
/// - No call is made from a signal handler, or in the child of a fork of a process with threads: safe Rust runs nothing
///   there. Nor does it replace `malloc`, `realloc` or `free`.
///
/// So no collection is `Sync`, and one is `Send` only if its values are:
///
/// ```compile_fail,E0277
/// fn is_sync<T: Sync>() {}
/// is_sync::<cordyceps_c::Timers<u8>>();
/// ```
///
/// ```compile_fail,E0277
/// fn is_sync<T: Sync>() {}
/// is_sync::<cordyceps_c::Inbox<u8>>();
/// ```
///
/// ```compile_fail,E0277
/// fn is_send<T: Send>() {}
/// is_send::<cordyceps_c::Timers<std::rc::Rc<u8>>>();
/// ```
///
/// ```compile_fail,E0277
/// fn is_send<T: Send>() {}
/// is_send::<cordyceps_c::Inbox<std::rc::Rc<u8>>>();
/// ```
pub(crate) struct Handle<H: Raw>(UnsafeCell<H>);

// SAFETY: the library lets each thread make calls on a handle, if they are ordered as above. What the payloads stand
// for is a matter of the types that have the handle.
unsafe impl<H: Raw> Send for Handle<H> {}

impl<H: Raw> Handle<H> {
    /// Makes a handle by a call that makes a collection in a handle of nothing, or answers `false`.
    pub(crate) fn made_by(new: impl FnOnce(*mut H) -> bool) -> Option<Self> {
        let made = Self(UnsafeCell::new(H::NOTHING));
        new(made.raw()).then_some(made)
    }

    /// The pointer that the calls get.
    pub(crate) fn raw(&self) -> *mut H {
        self.0.get()
    }

    /// Whether it is of nothing.
    pub(crate) fn is_of_nothing(&mut self) -> bool {
        self.0.get_mut().is_of_nothing()
    }

    /// Takes the handle, and leaves one of nothing.
    pub(crate) fn take(&mut self) -> Self {
        core::mem::replace(self, Self(UnsafeCell::new(H::NOTHING)))
    }
}

impl<H: Raw> Drop for Handle<H> {
    fn drop(&mut self) {
        // SAFETY: the header's conditions hold, as `Handle` says. No call follows.
        unsafe { H::free(self.raw()) };
    }
}
