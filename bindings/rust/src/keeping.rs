use crate::pool::done;
use crate::raw;
use crate::{Error, Huge, Pool};

/// The run that [`Pool::reserve`] would pick for one block.
#[derive(Clone, Copy, Debug, PartialEq, Eq)]
pub struct CheapestRun {
    /// Its first frame.
    pub first: u32,
    /// How many pages are in it.
    pub pages: u32,
}

/// What [`Keeper::step`] did.
#[derive(Clone, Copy, Debug, PartialEq, Eq)]
pub struct KeeperStep {
    /// How many pages were moved.
    pub moved: u32,
    /// Whether the step did anything. Else there is no more to do now.
    pub more: bool,
}

/// What [`Keeper::take`] got.
#[derive(Debug, PartialEq, Eq)]
#[must_use = "a block that is dropped stays handed out until its pool is dropped"]
pub struct Taken {
    /// The block that was handed out.
    pub block: Huge,
    /// How many pages were moved for it now: none where it was ready.
    pub moved: u32,
}

/// Blocks of one order that are kept ready in a pool, so that one is there at once. Linux has the thread kcompactd for that; here the caller
/// is that thread, and makes small steps while other calls go on between them.
///
/// A keeper claims the cheapest runs of the pool and empties them. Each of its calls gets the same pool. One that is dropped and wasn't
/// closed leaves its claims to the pool.
///
/// ```
/// # use compactd::{Address, Error, Keeper, KeeperStep, PageSize, Pool};
/// # fn main() -> Result<(), Error> {
/// # let mut pool = Pool::open(PageSize::Bytes64, 2)?;
/// // A page in each of the two pageblocks: none of them is free as a whole.
/// pool.map_at(0, Address::new(0, 0), false, 0)?;
/// pool.map_at(0, Address::new(0, 1), false, 512)?;
/// let mut keeper = Keeper::new(9, 1);
/// while keeper.step(&mut pool, 32)?.more {
///     // Other calls on the pool may come here.
/// }
/// let taken = keeper.take(&mut pool)?;
/// assert_eq!((taken.block.first(), taken.moved), (0, 0));
/// # pool.give(taken.block)?;
/// # Ok(())
/// # }
/// ```
#[derive(Debug)]
pub struct Keeper {
    order: u32,
    /// Of its runs, and places for more.
    firsts: Vec<u32>,
    claimed: usize,
}

impl Keeper {
    /// A keeper of so many blocks of `2^order` frames, order 3 to 9, which has claimed no run yet.
    pub fn new(order: u32, ready: usize) -> Keeper {
        Keeper { order, firsts: vec![0; ready], claimed: 0 }
    }

    /// The first frames of the runs that it has claimed, the one that was claimed first in front.
    pub fn claimed(&self) -> &[u32] {
        &self.firsts[..self.claimed]
    }

    /// Makes a step: goes on with the first of its runs that isn't finished, and moves at most `most` pages out of it. Where all are finished
    /// and it has fewer runs than blocks that are to be ready, it claims the cheapest open run. A page that is moving, pinned or unmovable
    /// stays in its run until a later step may move it. Steps are made until one has no more to do, and again after other calls.
    ///
    /// Refused as [`Error::Range`] where the order is out of its range; as [`Error::Memory`]; or as [`Error::JournalFull`], as
    /// [`Pool::empty_some`] is.
    pub fn step(&mut self, pool: &mut Pool, most: u32) -> Result<KeeperStep, Error> {
        let (firsts, ready) = (self.firsts.as_mut_ptr(), self.firsts.len());
        let (mut moved, mut more) = (0, false);
        done(unsafe { raw::compactd_keep(&mut pool.raw, self.order, most, firsts, ready, &mut self.claimed, &mut moved, &mut more) })?;
        Ok(KeeperStep { moved, more })
    }

    /// Hands out the first of its runs whose frames are all claimed. Where none is so, it hands out a block as [`Pool::reserve`] does.
    ///
    /// Refused as [`Error::Range`] where the order is out of its range; as [`Error::Memory`]; as [`Error::JournalFull`]; or as
    /// [`Error::NoBlock`] where no run is ready and [`Pool::reserve`] is refused so.
    pub fn take(&mut self, pool: &mut Pool) -> Result<Taken, Error> {
        let (firsts, ready) = (self.firsts.as_mut_ptr(), self.firsts.len());
        let (mut first, mut moved) = (0, 0);
        done(unsafe { raw::compactd_take_kept(&mut pool.raw, self.order, firsts, ready, &mut self.claimed, &mut first, &mut moved) })?;
        Ok(Taken { block: Huge { pool: pool.number, first, order: self.order }, moved })
    }

    /// Drops the claims of its runs, whose frames are free then.
    ///
    /// Refused as [`Error::Range`] where the pool is another one and has no such runs.
    pub fn close(&mut self, pool: &mut Pool) -> Result<(), Error> {
        while let Some(&first) = self.claimed().last() {
            pool.drop_claim(first, self.order)?;
            self.claimed -= 1;
        }
        Ok(())
    }
}

impl Pool {
    /// The run that [`Pool::reserve`] would pick for one block of `2^order` frames, order 3 to 9. It changes nothing.
    ///
    /// Refused as [`Error::Range`], or as [`Error::NoBlock`] where no run is open.
    pub fn cheapest_run(&mut self, order: u32) -> Result<CheapestRun, Error> {
        let (mut first, mut pages) = (0, 0);
        done(unsafe { raw::compactd_cheapest_run(&mut self.raw, order, &mut first, &mut pages) })?;
        Ok(CheapestRun { first, pages })
    }
}
