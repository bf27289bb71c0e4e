//! Priority queues, by keys.

use core::fmt;
use core::marker::PhantomData;
use core::ptr;

use crate::error::{NoMemory, NotTaken};
use crate::ffi;
use crate::handle::{Handle, Raw};
use crate::payload::{drop_each, from_payload, into_payload, value_at};
use crate::ticket::{next_collection, Ticket};

/// A priority queue: the item with the least key comes out first, and items with equal keys in the order of their
/// pushes.
///
/// An item is removed, or gets another key, by its [`Ticket`]. It takes one block of memory of the library, and one for
/// its value.
///
/// # Examples
///
/// ```
/// use cordyceps_c::Queue;
///
/// let mut queue = Queue::new()?;
/// queue.push(2, "second")?;
/// let third = queue.push(3, "third")?;
/// let first = queue.push(9, "first")?;
/// assert!(queue.change(first, 1));
/// assert_eq!(queue.remove(third).unwrap().value, "third");
///
/// assert_eq!(queue.pop().unwrap().value, "first");
/// assert_eq!(queue.pop().unwrap().value, "second");
/// assert!(queue.pop().is_none());
/// # Ok::<(), Box<dyn std::error::Error>>(())
/// ```
pub struct Queue<T> {
    /// Its payloads are those of `into_payload::<T>`, each once.
    handle: Handle<ffi::cordyceps_queue>,
    values: PhantomData<T>,
}

/// An item of a [`Queue`].
#[derive(Clone, Copy, Debug, PartialEq, Eq)]
pub struct Item<T> {
    /// The key that the item was pushed with, or got at last.
    pub key: u64,
    /// The value that was pushed.
    pub value: T,
}

impl Raw for ffi::cordyceps_queue {
    const NOTHING: Self = Self { at: ptr::null_mut() };

    fn is_of_nothing(&self) -> bool {
        self.at.is_null()
    }

    unsafe fn free(this: *mut Self) {
        // SAFETY: the header's conditions hold, as the caller keeps.
        unsafe { ffi::cordyceps_queue_free(this) };
    }
}

impl<T> Queue<T> {
    /// Makes an empty queue.
    ///
    /// # Errors
    ///
    /// [`NoMemory`], if memory is refused.
    ///
    /// # Complexity
    ///
    /// O(1), with one allocation.
    pub fn new() -> Result<Self, NoMemory> {
        // SAFETY: the header's conditions hold, as `Handle` says.
        let made = Handle::made_by(|it| unsafe { ffi::cordyceps_queue_new(next_collection(), it) });
        made.map(|handle| Self { handle, values: PhantomData }).ok_or(NoMemory)
    }

    /// Pushes a value with its key, after all with an equal key. Returns its ticket.
    ///
    /// # Errors
    ///
    /// If memory is refused, or there can be no more items, the value comes back, and nothing has changed.
    ///
    /// # Complexity
    ///
    /// O(1) amortized, with two allocations.
    pub fn push(&mut self, key: u64, value: T) -> Result<Ticket, NotTaken<T>> {
        let payload = into_payload(value).map_err(NotTaken)?;
        let mut ticket = ffi::cordyceps_ticket::default();
        // SAFETY: the header's conditions hold, as `Handle` says.
        if unsafe { ffi::cordyceps_queue_push(self.handle.raw(), key, payload, &mut ticket) } {
            Ok(Ticket(ticket))
        } else {
            // SAFETY: the payload was made above, and the library has not taken it.
            Err(NotTaken(unsafe { from_payload(payload) }))
        }
    }

    /// Removes the first item and returns it, or `None` if the queue is empty.
    ///
    /// # Complexity
    ///
    /// O(log n) amortized.
    pub fn pop(&mut self) -> Option<Item<T>> {
        let mut out = ffi::cordyceps_item::default();
        // SAFETY: the header's conditions hold, as `Handle` says.
        let is_there = unsafe { ffi::cordyceps_queue_pop(self.handle.raw(), &mut out) };
        // SAFETY: an item with this payload was here, and is here no more.
        is_there.then(|| unsafe { Item::from_c(out) })
    }

    /// Returns the first item, or `None` if the queue is empty.
    ///
    /// # Complexity
    ///
    /// That of [`pop`](Queue::pop).
    pub fn front(&self) -> Option<Item<&T>> {
        let mut out = ffi::cordyceps_item::default();
        // SAFETY: the header's conditions hold, as `Handle` says.
        let is_there = unsafe { ffi::cordyceps_queue_front(self.handle.raw(), &mut out) };
        // SAFETY: an item with this payload is here, and stays as long as the queue is borrowed.
        is_there.then(|| Item { key: out.key, value: unsafe { value_at(out.payload) } })
    }

    /// Removes an item and returns it. Returns `None` if the ticket is not of an item of this queue, and nothing has
    /// changed then.
    ///
    /// # Complexity
    ///
    /// O(1).
    pub fn remove(&mut self, item: Ticket) -> Option<Item<T>> {
        let mut out = ffi::cordyceps_item::default();
        // SAFETY: the header's conditions hold, as `Handle` says.
        let is_there = unsafe { ffi::cordyceps_queue_remove(self.handle.raw(), item.0, &mut out) };
        // SAFETY: an item with this payload was here, and is here no more.
        is_there.then(|| unsafe { Item::from_c(out) })
    }

    /// Gives an item another key, as if it were removed and pushed again, and keeps its ticket. Returns `false` if the
    /// ticket is not of an item of this queue, and nothing has changed then.
    ///
    /// # Complexity
    ///
    /// O(1).
    pub fn change(&mut self, item: Ticket, key: u64) -> bool {
        // SAFETY: the header's conditions hold, as `Handle` says.
        unsafe { ffi::cordyceps_queue_change(self.handle.raw(), item.0, key) }
    }

    /// Returns how many items the queue has.
    ///
    /// # Complexity
    ///
    /// O(1).
    pub fn len(&self) -> usize {
        // SAFETY: the header's conditions hold, as `Handle` says.
        unsafe { ffi::cordyceps_queue_len(self.handle.raw()) }
    }

    /// Returns whether the queue has no item.
    ///
    /// # Complexity
    ///
    /// O(1).
    pub fn is_empty(&self) -> bool {
        self.len() == 0
    }
}

impl<T> Item<T> {
    /// # Safety
    ///
    /// The payload is of `into_payload::<T>`, and its value was not taken before.
    unsafe fn from_c(item: ffi::cordyceps_item) -> Self {
        // SAFETY: the header's conditions hold, as the caller keeps.
        let value = unsafe { from_payload(item.payload) };
        Self { key: item.key, value }
    }
}

impl<T> fmt::Debug for Queue<T> {
    fn fmt(&self, f: &mut fmt::Formatter<'_>) -> fmt::Result {
        f.debug_struct("Queue").field("len", &self.len()).finish_non_exhaustive()
    }
}

impl<T> Drop for Queue<T> {
    /// Drops the values of all items, in the order in which they would come out.
    fn drop(&mut self) {
        drop_each(|| self.pop().is_some());
    }
}
