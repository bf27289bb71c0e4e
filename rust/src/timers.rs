//! Timers, which fire by their deadlines.

use core::fmt;
use core::marker::PhantomData;
use core::ptr;

use crate::error::{NoMemory, NotTaken};
use crate::ffi;
use crate::handle::{Handle, Raw};
use crate::payload::{drop_each, from_payload, into_payload};
use crate::ticket::{next_collection, Ticket};

/// Timers, each with a value, which fire by their deadlines.
///
/// Times are numbers of any unit, such as milliseconds since the start of the program. The clock is 0 at first, is
/// moved by [`pop_due`] alone, and never goes back. A timer fires at its deadline, or at the clock if the deadline has
/// passed when it is started. Timers that fire at the same time fire in the order of their starts.
///
/// Each timer takes one block of memory of the library, and one for its value.
///
/// # Examples
///
/// ```
/// use cordyceps_c::Timers;
///
/// let mut timers = Timers::new()?;
/// timers.start(20, "close")?;
/// let poll = timers.start(10, "poll")?;
/// timers.start(10, "flush")?;
/// assert_eq!(timers.len(), 3);
///
/// // A timer is stopped by its ticket, which is stale from then on.
/// assert_eq!(timers.stop(poll).unwrap().value, "poll");
/// assert!(timers.stop(poll).is_none());
///
/// assert_eq!(timers.pop_due(15).unwrap().value, "flush");
/// assert!(timers.pop_due(15).is_none());
/// # Ok::<(), Box<dyn std::error::Error>>(())
/// ```
///
/// [`pop_due`]: Timers::pop_due
pub struct Timers<T> {
    /// Its payloads are those of `into_payload::<T>`, each once.
    handle: Handle<ffi::cordyceps_timers>,
    values: PhantomData<T>,
}

/// A timer that fired or was stopped.
#[derive(Clone, Copy, Debug, PartialEq, Eq)]
pub struct Fired<T> {
    /// The deadline with which the timer was started, or restarted at last.
    pub deadline: u64,
    /// The value with which the timer was started.
    pub value: T,
}

impl Raw for ffi::cordyceps_timers {
    const NOTHING: Self = Self { at: ptr::null_mut() };

    fn is_of_nothing(&self) -> bool {
        self.at.is_null()
    }

    unsafe fn free(this: *mut Self) {
        // SAFETY: the header's conditions hold, as the caller keeps.
        unsafe { ffi::cordyceps_timers_free(this) };
    }
}

impl<T> Timers<T> {
    /// Makes timers of which none runs. The clock is 0.
    ///
    /// # Errors
    ///
    /// [`NoMemory`], if memory is refused.
    ///
    /// # Complexity
    ///
    /// O(1), with one allocation.
    pub fn new() -> Result<Self, NoMemory> {
        // SAFETY: the header's conditions hold, as `Handle` says.
        let made = Handle::made_by(|it| unsafe { ffi::cordyceps_timers_new(next_collection(), it) });
        made.map(|handle| Self { handle, values: PhantomData }).ok_or(NoMemory)
    }

    /// Starts a timer, which fires at its deadline, or at the clock if the deadline has passed, after all that do not
    /// fire later. Returns its ticket, by which it can be stopped or restarted until it has fired.
    ///
    /// # Errors
    ///
    /// If memory is refused, or there can be no more timers, the value comes back, and nothing has changed.
    ///
    /// # Complexity
    ///
    /// O(1) amortized, with two allocations.
    pub fn start(&mut self, deadline: u64, value: T) -> Result<Ticket, NotTaken<T>> {
        let payload = into_payload(value).map_err(NotTaken)?;
        let mut ticket = ffi::cordyceps_ticket::default();
        // SAFETY: the header's conditions hold, as `Handle` says.
        if unsafe { ffi::cordyceps_timers_start(self.handle.raw(), deadline, payload, &mut ticket) } {
            Ok(Ticket(ticket))
        } else {
            // SAFETY: the payload was made above, and the library has not taken it.
            Err(NotTaken(unsafe { from_payload(payload) }))
        }
    }

    /// Stops a timer and returns it. Returns `None` if the ticket is not of a timer that runs here: it has fired or was
    /// stopped, or it is of another collection.
    ///
    /// # Complexity
    ///
    /// O(1).
    pub fn stop(&mut self, timer: Ticket) -> Option<Fired<T>> {
        let mut out = ffi::cordyceps_fired::default();
        // SAFETY: the header's conditions hold, as `Handle` says.
        let is_stopped = unsafe { ffi::cordyceps_timers_stop(self.handle.raw(), timer.0, &mut out) };
        // SAFETY: a timer with this payload ran here, and runs no more.
        is_stopped.then(|| unsafe { Fired::from_c(out) })
    }

    /// Gives a timer another deadline, as if it were stopped and started again, and keeps its ticket. Returns `false`
    /// if the ticket is not of a timer that runs here, and nothing has changed then.
    ///
    /// # Complexity
    ///
    /// O(1).
    pub fn restart(&mut self, timer: Ticket, deadline: u64) -> bool {
        // SAFETY: the header's conditions hold, as `Handle` says.
        unsafe { ffi::cordyceps_timers_restart(self.handle.raw(), timer.0, deadline) }
    }

    /// Removes the first timer and returns it, if it fires at the time `now` or before. The clock is then the time at
    /// which it fired. Returns `None` if none fires by then; the clock is then `now`, unless it is later.
    ///
    /// # Complexity
    ///
    /// O(1) amortized: a timer is moved at most 64 times before it comes out.
    pub fn pop_due(&mut self, now: u64) -> Option<Fired<T>> {
        let mut out = ffi::cordyceps_fired::default();
        // SAFETY: the header's conditions hold, as `Handle` says.
        let is_due = unsafe { ffi::cordyceps_timers_pop_due(self.handle.raw(), now, &mut out) };
        // SAFETY: a timer with this payload ran here, and runs no more.
        is_due.then(|| unsafe { Fired::from_c(out) })
    }

    /// Returns a time before which no timer fires, or `None` if none runs. Whoever sleeps until then and calls
    /// [`pop_due`](Timers::pop_due) wakes at most 64 times before the first timer fires.
    ///
    /// # Complexity
    ///
    /// O(1).
    pub fn not_before(&self) -> Option<u64> {
        let mut out = 0;
        // SAFETY: the header's conditions hold, as `Handle` says.
        unsafe { ffi::cordyceps_timers_not_before(self.handle.raw(), &mut out) }.then_some(out)
    }

    /// Returns how many timers run.
    ///
    /// # Complexity
    ///
    /// O(1).
    pub fn len(&self) -> usize {
        // SAFETY: the header's conditions hold, as `Handle` says.
        unsafe { ffi::cordyceps_timers_len(self.handle.raw()) }
    }

    /// Returns whether no timer runs.
    ///
    /// # Complexity
    ///
    /// O(1).
    pub fn is_empty(&self) -> bool {
        self.len() == 0
    }
}

impl<T> Fired<T> {
    /// # Safety
    ///
    /// The payload is of `into_payload::<T>`, and its value was not taken before.
    unsafe fn from_c(fired: ffi::cordyceps_fired) -> Self {
        // SAFETY: the caller keeps the same.
        let value = unsafe { from_payload(fired.payload) };
        Self { deadline: fired.deadline, value }
    }
}

impl<T> fmt::Debug for Timers<T> {
    fn fmt(&self, f: &mut fmt::Formatter<'_>) -> fmt::Result {
        f.debug_struct("Timers").field("len", &self.len()).finish_non_exhaustive()
    }
}

impl<T> Drop for Timers<T> {
    /// Drops the values of all timers that run, in the order in which they would fire.
    fn drop(&mut self) {
        drop_each(|| self.pop_due(u64::MAX).is_some());
    }
}
