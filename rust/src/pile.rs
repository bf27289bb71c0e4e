//! Piles: many threads push, and each may take all at once.

use alloc::sync::Arc;
use core::fmt;
use core::marker::PhantomData;
use core::ptr;

use crate::error::{NoMemory, NotTaken};
use crate::ffi;
use crate::handle::{Handle, Raw};
use crate::lock::{give_way, Lock};
use crate::payload::{drop_each, from_payload, into_payload};

/// The most rooms that a pile can have.
pub const MAX_ROOMS: usize = 1 << 20;

/// A handle of a pile, onto which many threads push, and of which each may take all values at once.
///
/// Each thread has a handle of its own, made by [`split`]. No call waits. A handle that pops takes all that the pile
/// has at that moment, hands these values out one by one, the one pushed last first, and only then takes all again.
///
/// A room is a permit to push one value, so the rooms bound how many values are in the pile. Pushing takes a room of
/// the handle, which first takes some of the pile's pool if it has none, and taking gives the rooms of all that was
/// taken to the handle that takes. So a handle that pops calls [`give_back`] now and then, at the latest when it finds
/// nothing.
///
/// Each value takes one block of memory of the library, and one of its own. A handle that is dropped drops the values
/// that it took and has not handed out, and takes a lock of the pile for a moment, as no other call does. The values
/// that are left in the pile are dropped with its last handle.
///
/// A handle is `Send` if the values are, and not `Sync`.
///
/// # Examples
///
/// ```
/// use cordyceps_c::Pile;
/// use std::thread;
///
/// let mut pile = Pile::new(64)?;
/// let mut pusher = pile.split()?;
/// let thread = thread::spawn(move || {
///     for number in 0..10 {
///         pusher.push(number).unwrap();
///     }
/// });
/// thread.join().unwrap();
/// for number in (0..10).rev() {
///     assert_eq!(pile.pop(), Some(number));
/// }
/// assert_eq!(pile.pop(), None);
/// pile.give_back();
/// # Ok::<(), cordyceps_c::NoMemory>(())
/// ```
///
/// [`split`]: Pile::split
/// [`give_back`]: Pile::give_back
pub struct Pile<T> {
    /// Of nothing once another handle has absorbed this one. The payloads of a pile are those of `into_payload::<T>`,
    /// each once, of the same type by all handles.
    handle: Handle<ffi::cordyceps_pile>,
    shared: Arc<Shared<T>>,
}

/// What the handles of a pile share: two handles are of one pile if and only if this is the same.
///
/// It has a handle of its own, the keeper, which absorbs each handle that is dropped, before that one's reference to
/// this goes. So when the last reference goes, the keeper is the only handle of the pile: it takes all values that are
/// left, and is freed with the pile. That exactly one thread drops this is what `Arc` is for.
///
/// It is invariant in `T`, since one handle may take what another has pushed.
struct Shared<T> {
    keeper: Lock<Handle<ffi::cordyceps_pile>>,
    // (the handles pass values as a lock does, so they are `Send` and variant as it is)
    values: PhantomData<Lock<T>>,
}

impl<T> Pile<T> {
    /// Makes a pile of so many rooms, all of which are in its pool.
    ///
    /// # Errors
    ///
    /// [`NoMemory`], if memory is refused to the library.
    ///
    /// # Panics
    ///
    /// Panics if there are more rooms than [`MAX_ROOMS`].
    ///
    /// # Complexity
    ///
    /// O(`rooms`), with seven allocations.
    pub fn new(rooms: usize) -> Result<Self, NoMemory> {
        assert!(rooms <= MAX_ROOMS, "a pile has at most {MAX_ROOMS} rooms, and not {rooms}");
        let mut keeper = Handle::<ffi::cordyceps_pile>::new(rooms).ok_or(NoMemory)?;
        let handle = keeper.split().ok_or(NoMemory)?;
        keeper.give_back();
        let shared = Shared { keeper: Lock::new(keeper), values: PhantomData };
        Ok(Self { handle, shared: Arc::new(shared) })
    }

    /// Makes a further handle of the same pile, for another thread.
    ///
    /// # Errors
    ///
    /// [`NoMemory`], if memory is refused.
    ///
    /// # Complexity
    ///
    /// O(1), with one allocation.
    pub fn split(&mut self) -> Result<Self, NoMemory> {
        let handle = self.handle.split().ok_or(NoMemory)?;
        Ok(Self { handle, shared: Arc::clone(&self.shared) })
    }

    /// Tries once to push a value.
    ///
    /// # Errors
    ///
    /// A [`PushError`] says why it was not pushed, and has the value.
    ///
    /// # Complexity
    ///
    /// O(1), with two allocations.
    pub fn push(&mut self, value: T) -> Result<(), PushError<T>> {
        let payload = into_payload(value).map_err(PushError::NoMemory)?;
        let why = match self.handle.push(payload) {
            ffi::CORDYCEPS_DONE => return Ok(()),
            ffi::CORDYCEPS_FULL => PushError::Full,
            ffi::CORDYCEPS_BUSY => PushError::Busy,
            ffi::CORDYCEPS_NO_MEMORY => PushError::NoMemory,
            other => unreachable!("cordyceps_pile_push answered {other}"),
        };
        // SAFETY: the payload is the one made above, and was not pushed.
        Err(why(unsafe { from_payload(payload) }))
    }

    /// Hands out the next value of those that the handle took. If none is left, the handle first takes all that the
    /// pile has at that moment, of which the one pushed last comes first. Returns `None` if there was none.
    ///
    /// # Complexity
    ///
    /// O(1), or O(n) where it takes n values.
    pub fn pop(&mut self) -> Option<T> {
        // SAFETY: all handles of the pile are of this type, so the payload was made of a `T`; it comes out once.
        self.handle.pop().map(|it| unsafe { from_payload(it) })
    }

    /// Takes over the rooms of another handle of the same pile, which ends by this.
    ///
    /// # Errors
    ///
    /// A handle of another pile comes back, and so does one that took values which it has not handed out yet.
    ///
    /// # Complexity
    ///
    /// O(1).
    pub fn absorb(&mut self, mut other: Self) -> Result<(), NotTaken<Self>> {
        // SAFETY: the two are of one pile, where they share the same.
        if Arc::ptr_eq(&self.shared, &other.shared) && unsafe { self.handle.absorb(&mut other.handle) } {
            Ok(())
        } else {
            Err(NotTaken(other))
        }
    }

    /// Gives all rooms of the handle to the pool, from which each handle may take them. Returns `false` if others gave
    /// rooms back in between at each of its tries; the handle has rooms still then.
    ///
    /// # Complexity
    ///
    /// O(1).
    pub fn give_back(&mut self) -> bool {
        self.handle.give_back()
    }

    /// Has the keeper absorb this handle, if it took no value that it has not handed out yet.
    fn is_kept(&mut self) -> bool {
        // SAFETY: the two are of one pile, since this one was split off the keeper, or off another one that was.
        self.shared.keeper.with(|keeper| unsafe { keeper.absorb(&mut self.handle) })
    }
}

impl<T> fmt::Debug for Pile<T> {
    fn fmt(&self, f: &mut fmt::Formatter<'_>) -> fmt::Result {
        f.debug_struct("Pile").finish_non_exhaustive()
    }
}

impl<T> Drop for Pile<T> {
    /// Drops the values that the handle took and has not handed out, gives the rooms back, and drops what is left in
    /// the pile if this is its last handle.
    fn drop(&mut self) {
        if self.handle.is_of_nothing() {
            return;
        }
        while !self.handle.give_back() {
            give_way();
        }
        // (a handle that is not absorbed has taken a value still, so it takes no further one; it is dropped without the
        // lock, since its drop may do anything)
        drop_each(|| !self.is_kept() && self.pop().is_some());
    }
}

impl<T> Drop for Shared<T> {
    fn drop(&mut self) {
        let keeper = self.keeper.get_mut();
        // SAFETY: as in `Pile::pop`.
        drop_each(|| keeper.pop().map(|it| drop(unsafe { from_payload::<T>(it) })).is_some());
    }
}

impl Raw for ffi::cordyceps_pile {
    const NOTHING: Self = Self { at: ptr::null_mut() };

    fn is_of_nothing(&self) -> bool {
        self.at.is_null()
    }

    /// Frees the handle, with the pile if it is its only one. It is that, or of nothing, since others are absorbed
    /// before. So it needs no second try.
    unsafe fn free(this: *mut Self) {
        // SAFETY: the header's conditions hold, as the caller keeps.
        unsafe { ffi::cordyceps_pile_free(this) };
    }
}

impl Handle<ffi::cordyceps_pile> {
    fn new(rooms: usize) -> Option<Self> {
        // SAFETY: the header's conditions hold, as `Handle` says.
        Self::made_by(|it| unsafe { ffi::cordyceps_pile_new(rooms, it) })
    }

    fn split(&mut self) -> Option<Self> {
        // SAFETY: the header's conditions hold, as `Handle` says.
        Self::made_by(|it| unsafe { ffi::cordyceps_pile_split(self.raw(), it) })
    }

    fn push(&mut self, payload: u64) -> u32 {
        // SAFETY: the header's conditions hold, as `Handle` says.
        unsafe { ffi::cordyceps_pile_push(self.raw(), payload) }
    }

    fn pop(&mut self) -> Option<u64> {
        let mut payload = 0;
        // SAFETY: the header's conditions hold, as `Handle` says.
        unsafe { ffi::cordyceps_pile_pop(self.raw(), &mut payload) }.then_some(payload)
    }

    fn give_back(&mut self) -> bool {
        // SAFETY: the header's conditions hold, as `Handle` says.
        unsafe { ffi::cordyceps_pile_give_back(self.raw()) }
    }

    /// Takes over the rooms of another handle, which is of nothing then, or answers `false` if that one took payloads
    /// which it has not handed out yet.
    ///
    /// # Safety
    ///
    /// The two are of one pile.
    unsafe fn absorb(&mut self, other: &mut Self) -> bool {
        // SAFETY: the header's conditions hold, as `Handle` says; the caller keeps that the two are of one pile.
        unsafe { ffi::cordyceps_pile_absorb(self.raw(), other.raw()) }
    }
}

/// The error of [`Pile::push`], with the value that was not pushed.
#[derive(Clone, Copy, PartialEq, Eq)]
pub enum PushError<T> {
    /// Neither the handle nor the pool has a room.
    Full(T),
    /// Another handle pushed or took between two steps of the push: try again.
    Busy(T),
    /// Memory was refused.
    NoMemory(T),
}

impl<T> PushError<T> {
    /// Returns the value that was not pushed.
    pub fn into_inner(self) -> T {
        match self {
            Self::Full(value) | Self::Busy(value) | Self::NoMemory(value) => value,
        }
    }
}

impl<T> fmt::Debug for PushError<T> {
    fn fmt(&self, f: &mut fmt::Formatter<'_>) -> fmt::Result {
        f.write_str(match self {
            Self::Full(_) => "Full(..)",
            Self::Busy(_) => "Busy(..)",
            Self::NoMemory(_) => "NoMemory(..)",
        })
    }
}

impl<T> fmt::Display for PushError<T> {
    fn fmt(&self, f: &mut fmt::Formatter<'_>) -> fmt::Result {
        f.write_str(match self {
            Self::Full(_) => "the pile has no free room",
            Self::Busy(_) => "another handle came in between",
            Self::NoMemory(_) => "memory was refused",
        })
    }
}

#[cfg(feature = "std")]
impl<T> std::error::Error for PushError<T> {}
