//! The errors that several types share.

use core::fmt;

/// The error of a call to which memory was refused.
#[derive(Clone, Copy, Debug, PartialEq, Eq)]
pub struct NoMemory;

impl fmt::Display for NoMemory {
    fn fmt(&self, f: &mut fmt::Formatter<'_>) -> fmt::Result {
        f.write_str("memory was refused")
    }
}

#[cfg(feature = "std")]
impl std::error::Error for NoMemory {}

/// The error of a call that did not take a value, with the value. The call says why that may be.
#[derive(Clone, Copy, PartialEq, Eq)]
pub struct NotTaken<T>(pub T);

impl<T> NotTaken<T> {
    /// Returns the value that was not taken.
    pub fn into_inner(self) -> T {
        self.0
    }
}

impl<T> fmt::Debug for NotTaken<T> {
    fn fmt(&self, f: &mut fmt::Formatter<'_>) -> fmt::Result {
        f.write_str("NotTaken(..)")
    }
}

impl<T> fmt::Display for NotTaken<T> {
    fn fmt(&self, f: &mut fmt::Formatter<'_>) -> fmt::Result {
        f.write_str("the value was not taken")
    }
}

#[cfg(feature = "std")]
impl<T> std::error::Error for NotTaken<T> {}
