use std::fmt;

use crate::Error;

/// A block of `2^order` frames that a pool handed out. It can't be cloned. Its words are read and written by [`crate::Pool::read_huge`]
/// and [`crate::Pool::write_huge`] of the pool that handed it out; any other refuses it as [`Error::NotHuge`].
///
/// [`crate::Pool::give`] gives it back. One that is dropped stays handed out until its pool is dropped.
///
/// ```compile_fail
/// fn two(huge: compactd::Huge) -> (compactd::Huge, compactd::Huge) {
///     (huge.clone(), huge)
/// }
/// ```
#[derive(Debug, PartialEq, Eq)]
#[must_use = "a block that is dropped stays handed out until its pool is dropped"]
pub struct Huge {
    pub(crate) pool: u64,
    pub(crate) first: u32,
    pub(crate) order: u32,
}

impl Huge {
    /// Its first frame, a multiple of `2^order`.
    pub fn first(&self) -> u32 {
        self.first
    }

    /// Its order: 3 to 9.
    pub fn order(&self) -> u32 {
        self.order
    }

    /// How many frames it has.
    pub fn frames(&self) -> u32 {
        1 << self.order
    }
}

/// A value that a pool refused to take, with the reason. It is still the caller's. Where `?` makes an [`Error`] of it, it is dropped.
#[derive(Debug, PartialEq, Eq)]
pub struct Kept<T> {
    /// Why it was refused.
    pub error: Error,
    /// What was to be taken.
    pub value: T,
}

impl<T> From<Kept<T>> for Error {
    fn from(kept: Kept<T>) -> Error {
        kept.error
    }
}

impl<T> fmt::Display for Kept<T> {
    fn fmt(&self, f: &mut fmt::Formatter<'_>) -> fmt::Result {
        self.error.fmt(f)
    }
}

impl<T: fmt::Debug> std::error::Error for Kept<T> {}
