//! Tickets, which name elements of collections.

use core::fmt;
use core::sync::atomic::{AtomicU32, Ordering};

use crate::ffi;

/// Names an element of the collection that returned it, as long as the element is in it.
///
/// Each call with a ticket checks it. A ticket is stale once its element has left the collection, and stays so: it
/// names no later element. A stale ticket, or one of another collection, is refused, and nothing has changed then. All
/// collections of a program differ in this, up to 2³² of them, after which their numbers begin anew.
///
/// The default is a ticket of no element.
#[derive(Clone, Copy, Default, PartialEq, Eq, Hash)]
pub struct Ticket(pub(crate) ffi::cordyceps_ticket);

impl fmt::Debug for Ticket {
    fn fmt(&self, f: &mut fmt::Formatter<'_>) -> fmt::Result {
        f.debug_struct("Ticket").finish_non_exhaustive()
    }
}

/// Returns the number of a new collection. That tickets of different collections differ is no matter of safety: a
/// ticket that is taken for one of this collection names a value of this collection.
pub(crate) fn next_collection() -> u32 {
    static NEXT: AtomicU32 = AtomicU32::new(0);
    NEXT.fetch_add(1, Ordering::Relaxed)
}
