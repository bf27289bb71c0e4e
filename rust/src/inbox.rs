//! Inboxes: many threads send, and one at a time receives.

use alloc::sync::Arc;
use core::fmt;
use core::marker::PhantomData;
use core::ptr;

use crate::error::{NoMemory, NotTaken};
use crate::ffi;
use crate::handle::{Handle, Raw};
use crate::lock::{give_way, Lock};
use crate::payload::{drop_each, from_payload, into_payload};

/// The most rooms that an inbox can have.
pub const MAX_ROOMS: usize = 1 << 20;

/// A handle of an inbox, to which many threads send, and from which one at a time receives.
///
/// Each thread has a handle of its own, made by [`split`]. Sending and receiving never wait: where a thread is to sleep
/// until a value is there, use means of your own, such as `std::thread::park`. The values of one handle come out in the
/// order in which it sent them.
///
/// A room is a permit to send one value, so the rooms bound how many values are in the inbox. Sending takes a room of
/// the handle, which first takes some of the inbox's pool if it has none, and receiving gives one to the handle that
/// receives. This handle keeps at most 16, and none once it finds nothing: it gives the others to the pool. A thread
/// that sends no more for a while calls [`give_back`].
///
/// Each value takes one block of memory of the library, and one of its own. The values that are left in the inbox are
/// dropped with its last handle. A handle that is dropped takes a lock of the inbox for a moment, as no other call
/// does.
///
/// A handle is `Send` if the values are, and not `Sync`.
///
/// # Examples
///
/// ```
/// use cordyceps_c::Inbox;
/// use std::thread;
///
/// let mut inbox = Inbox::new(64)?;
/// let mut sender = inbox.split()?;
/// let thread = thread::spawn(move || {
///     for number in 0..10 {
///         sender.send(number).unwrap();
///     }
/// });
/// thread.join().unwrap();
/// for number in 0..10 {
///     assert_eq!(inbox.receive(), Ok(number));
/// }
/// assert!(inbox.receive().is_err());
/// # Ok::<(), Box<dyn std::error::Error>>(())
/// ```
///
/// [`split`]: Inbox::split
/// [`give_back`]: Inbox::give_back
pub struct Inbox<T> {
    /// Of nothing once another handle has absorbed this one. The payloads of an inbox are those of `into_payload::<T>`,
    /// each once, of the same type by all handles.
    handle: Handle<ffi::cordyceps_inbox>,
    shared: Arc<Shared<T>>,
}

/// What the handles of an inbox share: two handles are of one inbox if and only if this is the same.
///
/// The first handle that is dropped is kept here, and absorbs each later one, before that one's reference to this goes.
/// So when the last reference goes, the handle that is kept is the only one of the inbox: it finds all values that are
/// left, and is freed with the inbox.
///
/// That exactly one thread drops this is what `Arc` is for. Handles that called `Arc::try_unwrap` instead could all
/// miss that they are the last: of two that try at the same time, neither may succeed.
///
/// It is invariant in `T`, since one handle may receive what another has sent. Else a handle of an inbox of `&'static`
/// references could be taken for one to which shorter ones are sent:
///
/// ```compile_fail
/// # use cordyceps_c::Inbox;
/// let mut inbox: Inbox<&'static str> = Inbox::new(1).unwrap();
/// {
///     let short = String::from("short");
///     let mut other: Inbox<&str> = inbox.split().unwrap();
///     other.send(&short).unwrap();
/// }
/// inbox.receive().unwrap();
/// ```
struct Shared<T> {
    dropped: Lock<Option<Handle<ffi::cordyceps_inbox>>>,
    // (the handles pass values as a lock does, so they are `Send` and variant as it is)
    values: PhantomData<Lock<T>>,
}

impl<T> Inbox<T> {
    /// Makes an inbox of so many rooms, all of which are in its pool.
    ///
    /// # Errors
    ///
    /// [`NoMemory`], if memory is refused to the library.
    ///
    /// # Panics
    ///
    /// Panics if there are more rooms than [`MAX_ROOMS`].
    ///
    /// # Complexity
    ///
    /// O(`rooms`), with seven allocations.
    pub fn new(rooms: usize) -> Result<Self, NoMemory> {
        assert!(rooms <= MAX_ROOMS, "an inbox has at most {MAX_ROOMS} rooms, and not {rooms}");
        let mut handle = Handle::new(rooms).ok_or(NoMemory)?;
        handle.give_back();
        let shared = Shared { dropped: Lock::new(None), values: PhantomData };
        Ok(Self { handle, shared: Arc::new(shared) })
    }

    /// Makes a further handle of the same inbox, for another thread.
    ///
    /// # Errors
    ///
    /// [`NoMemory`], if memory is refused.
    ///
    /// # Complexity
    ///
    /// O(1), with one allocation.
    pub fn split(&mut self) -> Result<Self, NoMemory> {
        let handle = self.handle.split().ok_or(NoMemory)?;
        Ok(Self { handle, shared: Arc::clone(&self.shared) })
    }

    /// Sends a value. The values of one handle come out in the order in which it sent them.
    ///
    /// # Errors
    ///
    /// [`SendError::Full`], if neither the handle nor the pool has a room, and [`SendError::NoMemory`], if memory is
    /// refused. The value comes back in the error.
    ///
    /// # Complexity
    ///
    /// O(1), with two allocations.
    pub fn send(&mut self, value: T) -> Result<(), SendError<T>> {
        let payload = into_payload(value).map_err(SendError::NoMemory)?;
        let why = match self.handle.send(payload) {
            ffi::CORDYCEPS_DONE => return Ok(()),
            ffi::CORDYCEPS_FULL => SendError::Full,
            ffi::CORDYCEPS_NO_MEMORY => SendError::NoMemory,
            other => unreachable!("cordyceps_inbox_send answered {other}"),
        };
        // SAFETY: the payload is the one made above, and was not sent.
        Err(why(unsafe { from_payload(payload) }))
    }

    /// Receives the next value. The handle then has its room.
    ///
    /// # Errors
    ///
    /// A [`ReceiveError`] says why there is none. It is [`ReceiveError::Empty`] once all other handles of the inbox
    /// were absorbed.
    ///
    /// # Complexity
    ///
    /// O(1).
    pub fn receive(&mut self) -> Result<T, ReceiveError> {
        let payload = self.handle.receive()?;
        // SAFETY: all handles of the inbox are of this type, so the payload was made of a `T`; it comes out once.
        Ok(unsafe { from_payload(payload) })
    }

    /// Takes over the rooms of another handle of the same inbox, which ends by this.
    ///
    /// # Errors
    ///
    /// A handle of another inbox comes back.
    ///
    /// # Complexity
    ///
    /// O(1).
    pub fn absorb(&mut self, mut other: Self) -> Result<(), NotTaken<Self>> {
        if !Arc::ptr_eq(&self.shared, &other.shared) {
            return Err(NotTaken(other));
        }
        // SAFETY: the two are of one inbox, since they share the same.
        unsafe { self.handle.absorb(&mut other.handle) };
        Ok(())
    }

    /// Gives all rooms of the handle to the pool, from which each handle may take them. Returns `false` if others gave
    /// rooms back in between at each of its tries; the handle has rooms still then.
    ///
    /// # Complexity
    ///
    /// O(1).
    pub fn give_back(&mut self) -> bool {
        self.handle.give_back()
    }
}

impl<T> fmt::Debug for Inbox<T> {
    fn fmt(&self, f: &mut fmt::Formatter<'_>) -> fmt::Result {
        f.debug_struct("Inbox").finish_non_exhaustive()
    }
}

impl<T> Drop for Inbox<T> {
    /// Gives the rooms back, and drops what is left in the inbox if this is its last handle.
    fn drop(&mut self) {
        if self.handle.is_of_nothing() {
            return;
        }
        while !self.handle.give_back() {
            give_way();
        }
        self.shared.dropped.with(|dropped| match dropped {
            // SAFETY: the two are of one inbox, since both were dropped with a reference to the same `Shared`.
            Some(first) => unsafe { first.absorb(&mut self.handle) },
            None => *dropped = Some(self.handle.take()),
        });
    }
}

impl<T> Drop for Shared<T> {
    fn drop(&mut self) {
        let dropped = self.dropped.get_mut();
        if let Some(last) = dropped.as_mut() {
            // SAFETY: as in `Inbox::receive`.
            drop_each(|| last.receive().map(|it| drop(unsafe { from_payload::<T>(it) })).is_ok());
        }
    }
}

impl Raw for ffi::cordyceps_inbox {
    const NOTHING: Self = Self { at: ptr::null_mut() };

    fn is_of_nothing(&self) -> bool {
        self.at.is_null()
    }

    /// Frees the handle, with the inbox if it is its only one. It is that, or of nothing, since others are absorbed
    /// before. So it needs no second try.
    unsafe fn free(this: *mut Self) {
        // SAFETY: the header's conditions hold, as the caller keeps.
        unsafe { ffi::cordyceps_inbox_free(this) };
    }
}

impl Handle<ffi::cordyceps_inbox> {
    fn new(rooms: usize) -> Option<Self> {
        // SAFETY: the header's conditions hold, as `Handle` says.
        Self::made_by(|it| unsafe { ffi::cordyceps_inbox_new(rooms, it) })
    }

    fn split(&mut self) -> Option<Self> {
        // SAFETY: the header's conditions hold, as `Handle` says.
        Self::made_by(|it| unsafe { ffi::cordyceps_inbox_split(self.raw(), it) })
    }

    fn send(&mut self, payload: u64) -> u32 {
        // SAFETY: the header's conditions hold, as `Handle` says.
        unsafe { ffi::cordyceps_inbox_send(self.raw(), payload) }
    }

    fn receive(&mut self) -> Result<u64, ReceiveError> {
        let mut payload = 0;
        // SAFETY: the header's conditions hold, as `Handle` says.
        match unsafe { ffi::cordyceps_inbox_receive(self.raw(), &mut payload) } {
            ffi::CORDYCEPS_DONE => Ok(payload),
            ffi::CORDYCEPS_EMPTY => Err(ReceiveError::Empty),
            ffi::CORDYCEPS_UNLINKED => Err(ReceiveError::Unlinked),
            ffi::CORDYCEPS_BUSY => Err(ReceiveError::Busy),
            other => unreachable!("cordyceps_inbox_receive answered {other}"),
        }
    }

    fn give_back(&mut self) -> bool {
        // SAFETY: the header's conditions hold, as `Handle` says.
        unsafe { ffi::cordyceps_inbox_give_back(self.raw()) }
    }

    /// Takes over the rooms of another handle, which is of nothing then.
    ///
    /// # Safety
    ///
    /// The two are of one inbox.
    unsafe fn absorb(&mut self, other: &mut Self) {
        // SAFETY: the header's conditions hold, as `Handle` says; the caller keeps that the two are of one inbox.
        unsafe { ffi::cordyceps_inbox_absorb(self.raw(), other.raw()) };
    }
}

/// The error of [`Inbox::send`], with the value that was not sent.
#[derive(Clone, Copy, PartialEq, Eq)]
pub enum SendError<T> {
    /// Neither the handle nor the pool has a room.
    Full(T),
    /// Memory was refused.
    NoMemory(T),
}

impl<T> SendError<T> {
    /// Returns the value that was not sent.
    pub fn into_inner(self) -> T {
        match self {
            Self::Full(value) | Self::NoMemory(value) => value,
        }
    }
}

impl<T> fmt::Debug for SendError<T> {
    fn fmt(&self, f: &mut fmt::Formatter<'_>) -> fmt::Result {
        f.write_str(match self {
            Self::Full(_) => "Full(..)",
            Self::NoMemory(_) => "NoMemory(..)",
        })
    }
}

impl<T> fmt::Display for SendError<T> {
    fn fmt(&self, f: &mut fmt::Formatter<'_>) -> fmt::Result {
        f.write_str(match self {
            Self::Full(_) => "the inbox has no free room",
            Self::NoMemory(_) => "memory was refused",
        })
    }
}

#[cfg(feature = "std")]
impl<T> std::error::Error for SendError<T> {}

/// The error of [`Inbox::receive`], which says why there is no value.
#[derive(Clone, Copy, Debug, PartialEq, Eq)]
pub enum ReceiveError {
    /// No value was there.
    Empty,
    /// A thread that sends is between two steps, before the next value: try again.
    Unlinked,
    /// Another handle receives: try again.
    Busy,
}

impl fmt::Display for ReceiveError {
    fn fmt(&self, f: &mut fmt::Formatter<'_>) -> fmt::Result {
        f.write_str(match self {
            Self::Empty => "the inbox is empty",
            Self::Unlinked => "a thread is sending the next value",
            Self::Busy => "another handle receives",
        })
    }
}

#[cfg(feature = "std")]
impl std::error::Error for ReceiveError {}
