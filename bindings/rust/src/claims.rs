use crate::pool::done;
use crate::raw;
use crate::{Error, Huge, Pool};

/// What [`Pool::empty_some`] did.
#[derive(Clone, Copy, Debug, PartialEq, Eq)]
pub struct Step {
    /// How many pages were moved.
    pub moved: u32,
    /// How many frames of the run aren't claimed yet. Where it is 0, [`Pool::take_claimed`] takes the run.
    pub unclaimed: u32,
}

/// Evacuations in steps: [`Pool::claim`]; then [`Pool::empty_some`] until no frame of the run is unclaimed, with other calls between these
/// steps; then [`Pool::take_claimed`]. Or [`Pool::drop_claim`], at any time. [`Pool::empty_on`] empties runs on several threads.
///
/// A claimed frame is empty and kept for a block: no page is mapped, moved or brought there, and [`Pool::take_huge`], [`Pool::evacuate`] and
/// [`Pool::reserve`] pass over each run that has one. After each of these calls the latest round isn't quiet.
impl Pool {
    /// Claims the free frames of the run of `2^order` frames, order 3 to 9, that begins at a frame, and returns how many pages are in the
    /// run.
    ///
    /// ```
    /// # use compactd::{Address, Error, PageSize, Pool, Step};
    /// # fn main() -> Result<(), Error> {
    /// # let mut pool = Pool::open(PageSize::Bytes64, 2)?;
    /// for page in 0..3 {
    ///     pool.map(0, Address::new(0, page), false)?;
    /// }
    /// assert_eq!(pool.claim(0, 9)?, 3);
    /// assert_eq!(pool.map(0, Address::new(0, 3), false)?, 512); // no frame of the run
    /// assert_eq!(pool.empty_some(0, 9, 2)?, Step { moved: 2, unclaimed: 1 });
    /// assert_eq!(pool.empty_some(0, 9, 2)?, Step { moved: 1, unclaimed: 0 });
    /// let huge = pool.take_claimed(0, 9)?;
    /// assert_eq!(huge.frames(), 512);
    /// # pool.give(huge)?;
    /// # Ok(())
    /// # }
    /// ```
    ///
    /// Refused as [`Error::Range`], also where the frame isn't a multiple of `2^order` or the run goes past the pool; or as
    /// [`Error::NoBlock`] where a frame of the run is in a marked pageblock, in a block that is handed out, claimed already, or taken up by
    /// a page that is moving, pinned or unmovable.
    pub fn claim(&mut self, first: u32, order: u32) -> Result<u32, Error> {
        let mut pages = 0;
        done(unsafe { raw::compactd_claim(&mut self.raw, first, order, &mut pages) })?;
        Ok(pages)
    }

    /// Claims the free frames of a run, and moves the next of its pages, so many at most, each by one copy. The lowest page goes to the
    /// highest free frame that is in no marked pageblock, and the frame that it leaves is claimed, and so on. A page that is moving, pinned
    /// or unmovable stays, and a later step may move it. Where `most` is 0, it only claims. A run without a claim may be emptied so too.
    ///
    /// Refused as [`Error::Range`], as [`Pool::claim`] is; or as [`Error::JournalFull`] where there aren't two places for each page that may
    /// go, or for `most` of them where they are more.
    pub fn empty_some(&mut self, first: u32, order: u32, most: u32) -> Result<Step, Error> {
        let (mut moved, mut unclaimed) = (0, 0);
        done(unsafe { raw::compactd_empty_some(&mut self.raw, first, order, most, &mut moved, &mut unclaimed) })?;
        Ok(Step { moved, unclaimed })
    }

    /// Hands out a run of `2^order` frames that are all claimed. Its words are zeros.
    ///
    /// Refused as [`Error::Range`], as [`Pool::claim`] is; as [`Error::JournalFull`]; or as [`Error::NoBlock`] where a frame of it isn't
    /// claimed.
    pub fn take_claimed(&mut self, first: u32, order: u32) -> Result<Huge, Error> {
        done(unsafe { raw::compactd_take_claimed(&mut self.raw, first, order) })?;
        Ok(Huge { pool: self.number, first, order })
    }

    /// Drops the claims of the frames of a run, if it has any: these frames are free.
    ///
    /// Refused as [`Error::Range`], as [`Pool::claim`] is.
    pub fn drop_claim(&mut self, first: u32, order: u32) -> Result<(), Error> {
        done(unsafe { raw::compactd_drop_claim(&mut self.raw, first, order) })
    }
}
