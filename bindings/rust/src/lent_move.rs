use std::fmt;
use std::ptr;
use std::slice;
use std::sync::Arc;

use crate::memory::Mapping;
use crate::pool::done;
use crate::raw;
use crate::rounds::MET;
use crate::{Error, Kept, Pool};

/// The number where no page of a run can be sent out of it.
const NONE_LEFT: u32 = 55;

/// A call that ends a move whose words are copied.
type Commit = unsafe extern "C" fn(*mut raw::Handle, *mut raw::LentMove, *mut bool) -> u32;

/// A page that is moving, while the words of the frame that it leaves and of the one that it goes to are lent. It may be sent to another
/// thread and copied there, beside calls on the pool.
///
/// [`LentMove::copy`] and then [`Pool::commit_lent`] of its pool end its move, or [`Pool::put_back_lent`] does; of a page of a run
/// [`Pool::commit_and_claim`] does. Where it is dropped instead,
/// the page stays moving and its words stay lent until the pool is dropped.
///
/// Its words can't be written, and a page that isn't copied can't be committed:
///
/// ```compile_fail
/// fn write(page: &mut compactd::LentMove) {
///     page.from()[0] = 5;
/// }
/// ```
///
/// ```compile_fail
/// fn commit(pool: &mut compactd::Pool, page: compactd::LentMove) {
///     let _ = pool.commit_lent(page);
/// }
/// ```
#[must_use = "a page that is dropped stays moving until its pool is dropped"]
pub struct LentMove {
    pool: u64,
    raw: raw::LentMove,
    /// Where the words lie.
    _mapping: Arc<Mapping>,
}

// SAFETY: nobody writes the words of the frame that it leaves, and those of the other are this one's alone, until a pool takes them back.
unsafe impl Send for LentMove {}
unsafe impl Sync for LentMove {}

impl LentMove {
    /// The number of its isolation: 0, 1, 2 and so on since its pool was opened.
    pub fn serial(&self) -> u64 {
        self.raw.serial
    }

    /// The frame that it leaves.
    pub fn source(&self) -> u32 {
        self.raw.source
    }

    /// The frame that it goes to.
    pub fn target(&self) -> u32 {
        self.raw.target
    }

    /// Its words.
    pub fn from(&self) -> &[u64] {
        // SAFETY: so many words are there, in a mapping that this keeps, and nobody writes them.
        unsafe { slice::from_raw_parts(self.raw.from.at, self.raw.from.count) }
    }

    /// Copies its words to the frame that it goes to. That is no call on the pool, so it needs no lock.
    pub fn copy(self) -> CopiedMove {
        let raw::LentMove { from, to, .. } = &self.raw;
        // SAFETY: both frames have as many words, in a mapping that this keeps; nobody writes the first, and the second is this one's alone.
        unsafe { ptr::copy_nonoverlapping(from.at, to.at, to.count) };
        CopiedMove { lent: self }
    }
}

impl fmt::Debug for LentMove {
    fn fmt(&self, f: &mut fmt::Formatter<'_>) -> fmt::Result {
        let raw::LentMove { serial, source, target, .. } = &self.raw;
        f.debug_struct("LentMove").field("serial", serial).field("source", source).field("target", target).finish_non_exhaustive()
    }
}

/// A page that is moving, once its words are copied. [`Pool::commit_lent`] of its pool ends its move, or [`Pool::commit_and_claim`]. Where it
/// is dropped instead, the page stays moving and its words stay lent until the pool is dropped.
#[derive(Debug)]
#[must_use = "a page that is dropped stays moving until its pool is dropped"]
pub struct CopiedMove {
    lent: LentMove,
}

impl CopiedMove {
    /// The number of its isolation: 0, 1, 2 and so on since its pool was opened.
    pub fn serial(&self) -> u64 {
        self.lent.serial()
    }
}

/// Rounds, and runs that are emptied, whose pages are copied without the pool.
impl Pool {
    /// Isolates the next page of the round and lends the words of the frame that it leaves and of the one that it goes to; None where the
    /// scanners have met. Nothing is copied: [`LentMove::copy`] does that, on any thread. Until the move ends, the page is moving for all other
    /// calls, and [`Pool::put_back_lost`] doesn't end it.
    ///
    /// ```
    /// # use compactd::{Address, Error, Memory, PageSize, Pool, PoolSize};
    /// # fn main() -> Result<(), Box<dyn std::error::Error>> {
    /// # let size = PoolSize { blocks: 1, spaces: 1, vpages: 1024 };
    /// # let memory = Memory::of_pool(PageSize::Bytes4096, size.blocks)?;
    /// # let mut pool = Pool::open_in(PageSize::Bytes4096, size, 0, memory)?;
    /// let at = Address::new(0, 9);
    /// pool.map(0, at, false)?;
    /// pool.store(0, at, 5, 7)?;
    /// pool.begin_round();
    /// while let Some(page) = pool.lend_move()? {
    ///     assert_eq!((page.from()[5], pool.load(0, at, 5)), (7, Err(Error::Moving)));
    ///     let page = page.copy();
    ///     assert!(pool.commit_lent(page)?);
    /// }
    /// assert_eq!(pool.load(0, at, 5), Ok(7));
    /// # Ok(())
    /// # }
    /// ```
    ///
    /// Refused as [`Error::JournalFull`] where there aren't two places for its move, or as [`Error::OwnMemory`] where the pool wasn't opened by
    /// [`Pool::open_in`].
    pub fn lend_move(&mut self) -> Result<Option<LentMove>, Error> {
        let mut lent = raw::LentMove::NONE;
        let answer = unsafe { raw::compactd_lend_move(&mut self.raw, &mut lent) };
        self.lent_by(answer, lent)
    }

    /// Isolates the lowest page of a run of `2^order` frames that may go, outside of a round, and lends the words of its frame and of the highest
    /// free one that is in no marked pageblock; None where no page of the run may go, or there is no frame for one. [`Pool::empty_some`] without
    /// moves is made before, so that the frame isn't one of the run. [`Pool::commit_and_claim`] ends the move, or [`Pool::put_back_lent`].
    ///
    /// Refused as [`Error::Range`], as [`Pool::claim`] is; or as [`Pool::lend_move`] is.
    pub fn lend_move_from(&mut self, first: u32, order: u32) -> Result<Option<LentMove>, Error> {
        let mut lent = raw::LentMove::NONE;
        let answer = unsafe { raw::compactd_lend_move_from(&mut self.raw, first, order, &mut lent) };
        self.lent_by(answer, lent)
    }

    fn lent_by(&self, answer: u32, lent: raw::LentMove) -> Result<Option<LentMove>, Error> {
        match (answer, &self.mapping) {
            (MET | NONE_LEFT, _) => Ok(None),
            (0, Some(mapping)) => Ok(Some(LentMove { pool: self.number, raw: lent, _mapping: Arc::clone(mapping) })),
            (answer, _) => Err(done(answer).err().unwrap_or(Error::OwnMemory)),
        }
    }

    /// Takes the words of a move back, and ends it. Returns whether the page was moved to its new frame; else it has a pin and is in its old
    /// one. A page that is refused comes back with the error.
    ///
    /// Refused as [`Error::Stranger`] where the page is another pool's.
    pub fn commit_lent(&mut self, page: CopiedMove) -> Result<bool, Kept<CopiedMove>> {
        self.commit_by(raw::compactd_commit_lent, page)
    }

    /// Takes the words of a move back, and ends it as [`Pool::commit_lent`] does, but that the frame that the page left is claimed.
    ///
    /// Refused as [`Error::Stranger`] where the page is another pool's.
    pub fn commit_and_claim(&mut self, page: CopiedMove) -> Result<bool, Kept<CopiedMove>> {
        self.commit_by(raw::compactd_commit_and_claim, page)
    }

    fn commit_by(&mut self, call: Commit, mut page: CopiedMove) -> Result<bool, Kept<CopiedMove>> {
        let mut moved = false;
        // SAFETY: it is a call of the library, and gets a move of this pool whose words are copied.
        let ended = self.own_lent(&page.lent).and_then(|()| done(unsafe { call(&mut self.raw, &mut page.lent.raw, &mut moved) }));
        match ended {
            Ok(()) => Ok(moved),
            Err(error) => Err(Kept { error, value: page }),
        }
    }

    /// Takes the words of a move back, and ends it without a copy: the page is in its old frame. A page that is refused comes back with the
    /// error.
    ///
    /// Refused as [`Error::Stranger`] where the page is another pool's.
    pub fn put_back_lent(&mut self, mut page: LentMove) -> Result<(), Kept<LentMove>> {
        let ended = self.own_lent(&page).and_then(|()| done(unsafe { raw::compactd_put_back_lent(&mut self.raw, &mut page.raw) }));
        ended.map_err(|error| Kept { error, value: page })
    }

    fn own_lent(&self, page: &LentMove) -> Result<(), Error> {
        if page.pool == self.number {
            Ok(())
        } else {
            Err(Error::Stranger)
        }
    }
}
