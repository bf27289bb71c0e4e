//! Lists whose elements are reached by their tickets.

use core::fmt;
use core::iter::FusedIterator;
use core::marker::PhantomData;
use core::ptr;

use crate::error::{NoMemory, NotTaken};
use crate::ffi;
use crate::handle::{Handle, Raw};
use crate::payload::{drop_each, from_payload, into_payload, value_at, value_at_mut};
use crate::ticket::{next_collection, Ticket};

/// A doubly linked list, whose elements are reached, moved and removed by their [`Ticket`]s in O(1).
///
/// An element keeps its ticket wherever it is moved in the list. It takes one block of memory of the library, and one
/// for its value.
///
/// # Examples
///
/// ```
/// use cordyceps_c::List;
///
/// // The least recently used is first.
/// let mut pages = List::new()?;
/// let a = pages.push_back("a")?;
/// pages.push_back("b")?;
/// pages.push_back("c")?;
/// assert!(pages.move_to_back(a));
/// assert_eq!(pages.pop_front(), Some("b"));
/// assert_eq!(pages.iter().map(|(_, page)| *page).collect::<String>(), "ca");
///
/// assert_eq!(pages.remove(a), Some("a"));
/// assert_eq!(pages.get(a), None);
/// # Ok::<(), Box<dyn std::error::Error>>(())
/// ```
pub struct List<T> {
    /// Its payloads are those of `into_payload::<T>`, each once.
    handle: Handle<ffi::cordyceps_list>,
    values: PhantomData<T>,
}

/// Visits the elements of a [`List`] with their tickets, from front to back.
pub struct Iter<'a, T> {
    list: &'a List<T>,
    next: Option<Ticket>,
}

impl Raw for ffi::cordyceps_list {
    const NOTHING: Self = Self { at: ptr::null_mut() };

    fn is_of_nothing(&self) -> bool {
        self.at.is_null()
    }

    unsafe fn free(this: *mut Self) {
        // SAFETY: the header's conditions hold, as the caller keeps.
        unsafe { ffi::cordyceps_list_free(this) };
    }
}

impl<T> List<T> {
    /// Makes an empty list.
    ///
    /// # Errors
    ///
    /// [`NoMemory`], if memory is refused.
    ///
    /// # Complexity
    ///
    /// O(1), with one allocation.
    pub fn new() -> Result<Self, NoMemory> {
        // SAFETY: the header's conditions hold, as `Handle` says.
        let made = Handle::made_by(|it| unsafe { ffi::cordyceps_list_new(next_collection(), it) });
        made.map(|handle| Self { handle, values: PhantomData }).ok_or(NoMemory)
    }

    /// Prepends a value. Returns its ticket.
    ///
    /// # Errors
    ///
    /// If memory is refused, or there can be no more elements, the value comes back, and nothing has changed.
    ///
    /// # Complexity
    ///
    /// O(1) amortized, with two allocations.
    pub fn push_front(&mut self, value: T) -> Result<Ticket, NotTaken<T>> {
        // SAFETY: the header's conditions hold, as `Handle` says.
        self.insert_by(value, |list, payload, out| unsafe { ffi::cordyceps_list_push_front(list, payload, out) })
    }

    /// Appends a value. Returns its ticket.
    ///
    /// # Errors
    ///
    /// If memory is refused, or there can be no more elements, the value comes back, and nothing has changed.
    ///
    /// # Complexity
    ///
    /// O(1) amortized, with two allocations.
    pub fn push_back(&mut self, value: T) -> Result<Ticket, NotTaken<T>> {
        // SAFETY: the header's conditions hold, as `Handle` says.
        self.insert_by(value, |list, payload, out| unsafe { ffi::cordyceps_list_push_back(list, payload, out) })
    }

    /// Inserts a value before the element with the ticket `at`. Returns its ticket.
    ///
    /// # Errors
    ///
    /// If `at` is not of an element of this list, memory is refused, or there can be no more elements, the value comes
    /// back, and nothing has changed.
    ///
    /// # Complexity
    ///
    /// O(1) amortized, with two allocations.
    pub fn insert_before(&mut self, at: Ticket, value: T) -> Result<Ticket, NotTaken<T>> {
        // SAFETY: the header's conditions hold, as `Handle` says.
        self.insert_by(value, |list, it, out| unsafe { ffi::cordyceps_list_insert_before(list, at.0, it, out) })
    }

    /// Inserts a value after the element with the ticket `at`. Returns its ticket.
    ///
    /// # Errors
    ///
    /// If `at` is not of an element of this list, memory is refused, or there can be no more elements, the value comes
    /// back, and nothing has changed.
    ///
    /// # Complexity
    ///
    /// O(1) amortized, with two allocations.
    pub fn insert_after(&mut self, at: Ticket, value: T) -> Result<Ticket, NotTaken<T>> {
        // SAFETY: the header's conditions hold, as `Handle` says.
        self.insert_by(value, |list, it, out| unsafe { ffi::cordyceps_list_insert_after(list, at.0, it, out) })
    }

    /// Removes the first element and returns it, or `None` if the list is empty.
    ///
    /// # Complexity
    ///
    /// O(1).
    pub fn pop_front(&mut self) -> Option<T> {
        // SAFETY: the header's conditions hold, as `Handle` says.
        self.remove_by(|list, out| unsafe { ffi::cordyceps_list_pop_front(list, out) })
    }

    /// Removes the last element and returns it, or `None` if the list is empty.
    ///
    /// # Complexity
    ///
    /// O(1).
    pub fn pop_back(&mut self) -> Option<T> {
        // SAFETY: the header's conditions hold, as `Handle` says.
        self.remove_by(|list, out| unsafe { ffi::cordyceps_list_pop_back(list, out) })
    }

    /// Removes the element with the ticket `at` and returns it. Returns `None` if there is none, and nothing has
    /// changed then.
    ///
    /// # Complexity
    ///
    /// O(1).
    pub fn remove(&mut self, at: Ticket) -> Option<T> {
        // SAFETY: the header's conditions hold, as `Handle` says.
        self.remove_by(|list, out| unsafe { ffi::cordyceps_list_remove(list, at.0, out) })
    }

    /// Returns the element with the ticket `at`, or `None` if there is none.
    ///
    /// # Complexity
    ///
    /// O(1).
    pub fn get(&self, at: Ticket) -> Option<&T> {
        // SAFETY: the element has this payload, and stays as long as the list is borrowed.
        self.payload(at).map(|it| unsafe { value_at(it) })
    }

    /// Returns the element with the ticket `at`, to be changed, or `None` if there is none.
    ///
    /// # Complexity
    ///
    /// O(1).
    pub fn get_mut(&mut self, at: Ticket) -> Option<&mut T> {
        // SAFETY: the element has this payload, and stays as long as the list is borrowed, which is mutably.
        self.payload(at).map(|it| unsafe { value_at_mut(it) })
    }

    /// Returns the ticket of the first element, or `None` if the list is empty.
    ///
    /// # Complexity
    ///
    /// O(1).
    pub fn front(&self) -> Option<Ticket> {
        // SAFETY: the header's conditions hold, as `Handle` says.
        self.ticket_by(|list, out| unsafe { ffi::cordyceps_list_front(list, out) })
    }

    /// Returns the ticket of the last element, or `None` if the list is empty.
    ///
    /// # Complexity
    ///
    /// O(1).
    pub fn back(&self) -> Option<Ticket> {
        // SAFETY: the header's conditions hold, as `Handle` says.
        self.ticket_by(|list, out| unsafe { ffi::cordyceps_list_back(list, out) })
    }

    /// Returns the ticket of the element after the one with the ticket `at`. Returns `None` if that is the last, or if
    /// there is none.
    ///
    /// # Complexity
    ///
    /// O(1).
    pub fn next(&self, at: Ticket) -> Option<Ticket> {
        // SAFETY: the header's conditions hold, as `Handle` says.
        self.ticket_by(|list, out| unsafe { ffi::cordyceps_list_next(list, at.0, out) })
    }

    /// Returns the ticket of the element before the one with the ticket `at`. Returns `None` if that is the first, or
    /// if there is none.
    ///
    /// # Complexity
    ///
    /// O(1).
    pub fn prev(&self, at: Ticket) -> Option<Ticket> {
        // SAFETY: the header's conditions hold, as `Handle` says.
        self.ticket_by(|list, out| unsafe { ffi::cordyceps_list_prev(list, at.0, out) })
    }

    /// Moves the element with the ticket `at` to the front. Returns `false` if there is none.
    ///
    /// # Complexity
    ///
    /// O(1).
    pub fn move_to_front(&mut self, at: Ticket) -> bool {
        // SAFETY: the header's conditions hold, as `Handle` says.
        unsafe { ffi::cordyceps_list_move_to_front(self.handle.raw(), at.0) }
    }

    /// Moves the element with the ticket `at` to the back. Returns `false` if there is none.
    ///
    /// # Complexity
    ///
    /// O(1).
    pub fn move_to_back(&mut self, at: Ticket) -> bool {
        // SAFETY: the header's conditions hold, as `Handle` says.
        unsafe { ffi::cordyceps_list_move_to_back(self.handle.raw(), at.0) }
    }

    /// Moves the element with the ticket `at` to right after the one with the ticket `to`. Returns `false` if there are
    /// no two such elements, and nothing has changed then.
    ///
    /// # Complexity
    ///
    /// O(1).
    pub fn move_after(&mut self, at: Ticket, to: Ticket) -> bool {
        // SAFETY: the header's conditions hold, as `Handle` says.
        unsafe { ffi::cordyceps_list_move_after(self.handle.raw(), at.0, to.0) }
    }

    /// Returns how many elements the list has.
    ///
    /// # Complexity
    ///
    /// O(1).
    pub fn len(&self) -> usize {
        // SAFETY: the header's conditions hold, as `Handle` says.
        unsafe { ffi::cordyceps_list_len(self.handle.raw()) }
    }

    /// Returns whether the list has no element.
    ///
    /// # Complexity
    ///
    /// O(1).
    pub fn is_empty(&self) -> bool {
        self.len() == 0
    }

    /// Visits the elements with their tickets, from front to back.
    ///
    /// # Complexity
    ///
    /// O(1) for each element.
    pub fn iter(&self) -> Iter<'_, T> {
        Iter { list: self, next: self.front() }
    }

    /// Inserts a value by a call, which answers whether it took the payload and wrote its ticket.
    fn insert_by(
        &mut self,
        value: T,
        call: impl FnOnce(*mut ffi::cordyceps_list, u64, *mut ffi::cordyceps_ticket) -> bool,
    ) -> Result<Ticket, NotTaken<T>> {
        let payload = into_payload(value).map_err(NotTaken)?;
        let mut ticket = ffi::cordyceps_ticket::default();
        if call(self.handle.raw(), payload, &mut ticket) {
            Ok(Ticket(ticket))
        } else {
            // SAFETY: the payload was made above, and the library has not taken it.
            Err(NotTaken(unsafe { from_payload(payload) }))
        }
    }

    /// Removes an element by a call, which answers whether there was one and wrote its payload.
    fn remove_by(&mut self, call: impl FnOnce(*mut ffi::cordyceps_list, *mut u64) -> bool) -> Option<T> {
        let mut payload = 0;
        // SAFETY: an element with this payload was here, and is here no more.
        call(self.handle.raw(), &mut payload).then(|| unsafe { from_payload(payload) })
    }

    /// Reads a ticket by a call, which answers whether there is one and wrote it.
    fn ticket_by(
        &self,
        call: impl FnOnce(*mut ffi::cordyceps_list, *mut ffi::cordyceps_ticket) -> bool,
    ) -> Option<Ticket> {
        let mut ticket = ffi::cordyceps_ticket::default();
        call(self.handle.raw(), &mut ticket).then_some(Ticket(ticket))
    }

    /// The payload of the element with the ticket `at`.
    fn payload(&self, at: Ticket) -> Option<u64> {
        let mut payload = 0;
        // SAFETY: the header's conditions hold, as `Handle` says.
        unsafe { ffi::cordyceps_list_get(self.handle.raw(), at.0, &mut payload) }.then_some(payload)
    }
}

impl<T: fmt::Debug> fmt::Debug for List<T> {
    fn fmt(&self, f: &mut fmt::Formatter<'_>) -> fmt::Result {
        f.debug_list().entries(self.iter().map(|(_, value)| value)).finish()
    }
}

impl<T> Drop for List<T> {
    /// Drops all elements, from front to back.
    fn drop(&mut self) {
        drop_each(|| self.pop_front().is_some());
    }
}

impl<'a, T> IntoIterator for &'a List<T> {
    type Item = (Ticket, &'a T);
    type IntoIter = Iter<'a, T>;

    fn into_iter(self) -> Iter<'a, T> {
        self.iter()
    }
}

impl<'a, T> Iterator for Iter<'a, T> {
    type Item = (Ticket, &'a T);

    fn next(&mut self) -> Option<Self::Item> {
        let at = self.next?;
        self.next = self.list.next(at);
        self.list.get(at).map(|value| (at, value))
    }
}

impl<T> Clone for Iter<'_, T> {
    fn clone(&self) -> Self {
        Self { list: self.list, next: self.next }
    }
}

impl<T> FusedIterator for Iter<'_, T> {}
