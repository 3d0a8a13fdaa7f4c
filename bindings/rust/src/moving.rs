use std::fmt;
use std::sync::{Mutex, MutexGuard, PoisonError};

use crate::raw;
use crate::{Address, Error, Pool};

/// A page that is moving, with its words. It can't be cloned. It may be sent to another thread.
///
/// [`Pool::commit`] or [`Pool::put_back`] of its pool ends its move. Where it is dropped instead, the page stays moving: it can't be read,
/// written, shared or unmapped, until [`Pool::put_back_lost`] puts it back or its pool is dropped. A [`MovingGuard`] puts its page back
/// when it is dropped.
///
/// ```compile_fail
/// fn two(page: compactd::Moving) -> (compactd::Moving, compactd::Moving) {
///     (page.clone(), page)
/// }
/// ```
#[derive(Debug, PartialEq, Eq)]
#[must_use = "a page that is dropped stays moving until it is put back"]
pub struct Moving {
    pub(crate) page: MovingPage,
    pub(crate) words: Vec<u64>,
}

impl Moving {
    /// What names the page in its pool.
    pub fn page(&self) -> MovingPage {
        self.page
    }

    /// The number of its isolation: 0, 1, 2 and so on since its pool was opened.
    pub fn serial(&self) -> u64 {
        self.page.serial()
    }

    /// Its words.
    pub fn words(&self) -> &[u64] {
        &self.words
    }
}

/// What names a moving page in its pool, without its words. It stays when the move ends, and names no page then: calls with it are
/// refused as [`Error::Stranger`].
#[derive(Clone, Copy, Debug, PartialEq, Eq)]
pub struct MovingPage {
    pub(crate) pool: u64,
    pub(crate) raw: raw::MovingPage,
}

impl MovingPage {
    /// The number of its isolation: 0, 1, 2 and so on since its pool was opened.
    pub fn serial(&self) -> u64 {
        self.raw.serial
    }

    /// Whether the page was written since it was mapped.
    pub fn is_dirty(&self) -> bool {
        self.raw.flags & 2 != 0
    }
}

/// Where a moving page is.
#[derive(Clone, Copy, Debug, PartialEq, Eq)]
pub struct Move {
    /// The page.
    pub page: MovingPage,
    /// The frame that it leaves.
    pub source: u32,
    /// The frame that it goes to.
    pub target: u32,
    /// The lowest of its addresses.
    pub address: Address,
}

/// A page that is moving in a pool that threads share by a mutex. When it is dropped, also by a panic, it puts the page back.
///
/// Each of its calls locks the mutex, and so does its drop. A thread that holds the lock doesn't drop a guard: it would wait for itself.
///
/// ```
/// # use compactd::{Address, Error, MovingGuard, PageSize, Pool};
/// # use std::sync::Mutex;
/// # fn main() -> Result<(), Error> {
/// # let mut pool = Pool::open(PageSize::Bytes64, 1)?;
/// # pool.map(0, Address::new(0, 0), false)?;
/// pool.begin_round();
/// let pool = Mutex::new(pool);
/// while let Some(page) = MovingGuard::isolate(&pool)? {
///     page.commit()?;
/// }
/// # Ok(())
/// # }
/// ```
#[must_use = "a guard that is dropped puts its page back"]
pub struct MovingGuard<'pool> {
    pool: &'pool Mutex<Pool>,
    moving: Moving,
    has_ended: bool,
}

impl<'pool> MovingGuard<'pool> {
    /// Isolates the next page of the round, as [`Pool::isolate`] does; None where the scanners have met.
    ///
    /// Refused as [`Pool::isolate`] is.
    pub fn isolate(pool: &'pool Mutex<Pool>) -> Result<Option<MovingGuard<'pool>>, Error> {
        let moving = locked(pool).isolate()?;
        Ok(moving.map(|moving| MovingGuard { pool, moving, has_ended: false }))
    }

    /// The number of its isolation: 0, 1, 2 and so on since its pool was opened.
    pub fn serial(&self) -> u64 {
        self.moving.serial()
    }

    /// Its words.
    pub fn words(&self) -> &[u64] {
        &self.moving.words
    }

    /// Ends the move with the words. Returns whether the page was moved to its new frame; else it has a pin and is in its old one.
    ///
    /// Refused as [`Error::Stranger`] where the page isn't moving any more.
    pub fn commit(mut self) -> Result<bool, Error> {
        let answer = locked(self.pool).commit_copy(self.moving.page, &self.moving.words);
        self.has_ended = answer.is_ok();
        answer
    }

    /// Ends the move without the words: the page is in its old frame.
    ///
    /// Refused as [`Error::Stranger`] where the page isn't moving any more.
    pub fn put_back(mut self) -> Result<(), Error> {
        self.has_ended = true;
        locked(self.pool).put_back_lost(self.moving.page)
    }
}

impl Drop for MovingGuard<'_> {
    fn drop(&mut self) {
        if !self.has_ended {
            // Refused where the move ended elsewhere: then there is nothing to put back.
            let _ = locked(self.pool).put_back_lost(self.moving.page);
        }
    }
}

impl fmt::Debug for MovingGuard<'_> {
    fn fmt(&self, f: &mut fmt::Formatter<'_>) -> fmt::Result {
        f.debug_struct("MovingGuard").field("moving", &self.moving).finish_non_exhaustive()
    }
}

/// The pool, alone. A thread that panicked with the lock was between two calls, each of which leaves the pool whole.
pub(crate) fn locked(pool: &Mutex<Pool>) -> MutexGuard<'_, Pool> {
    pool.lock().unwrap_or_else(PoisonError::into_inner)
}
