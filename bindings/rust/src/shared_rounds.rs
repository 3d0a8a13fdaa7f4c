use std::iter;
use std::panic;
use std::sync::Mutex;
use std::thread::{self, Builder};

use crate::moving::locked;
use crate::{CopiedMove, Error, Kept, LentMove, Pool, RoundCounts, Stopped};

/// The most threads of [`Pool::round_on`] and [`Pool::empty_on`], and the most moves that one of them has in hand.
const MOST: usize = 64;

/// What [`Pool::round`], [`Pool::round_on`] and [`Pool::empty_on`] did.
#[derive(Clone, Copy, Debug, PartialEq, Eq)]
pub struct Round {
    /// How many pages were isolated, moved and put back.
    pub counts: RoundCounts,
    /// Why there were no more.
    pub stopped: Stopped,
}

/// Rounds and emptied runs of a pool that threads share by a mutex.
impl Pool {
    /// Makes a round in slices on this thread, and lets the mutex go after each so many pages, 1 or more. A `Mutex` most often isn't handed to a
    /// thread that waits, so others may wait until the round has ended.
    ///
    /// ```
    /// # use compactd::{Address, Error, PageSize, Pool, Stopped};
    /// # use std::sync::Mutex;
    /// # fn main() -> Result<(), Error> {
    /// # let mut pool = Pool::open(PageSize::Bytes64, 1)?;
    /// # pool.map(0, Address::new(0, 0), false)?;
    /// let pool = Mutex::new(pool);
    /// let round = Pool::round(&pool, 16)?;
    /// assert_eq!((round.counts.moved, round.stopped), (1, Stopped::Met));
    /// # Ok(())
    /// # }
    /// ```
    ///
    /// Refused as [`Error::Range`].
    pub fn round(pool: &Mutex<Pool>, pages: u32) -> Result<Round, Error> {
        if pages == 0 {
            return Err(Error::Range);
        }
        let mut counts = RoundCounts::default();
        locked(pool).begin_round();
        loop {
            let slice = locked(pool).move_pages(pages);
            counts.isolated += u64::from(slice.moved);
            counts.moved += u64::from(slice.moved);
            if let Some(stopped) = slice.stopped {
                return Ok(Round { counts, stopped });
            }
        }
    }

    /// Makes a round on so many threads, 1 to 64, in a pool of [`Pool::open_in`]: this one, and others that are started for it. Each takes so
    /// many moves, 1 to 64, under one hold of the mutex, copies their pages without it, and ends the moves under its next hold. Until then
    /// the pages are moving for others. Where a thread can't be started, the round goes on with those that run.
    ///
    /// ```
    /// # use compactd::{Address, Memory, PageSize, Pool, PoolSize};
    /// # use std::sync::Mutex;
    /// # fn main() -> Result<(), Box<dyn std::error::Error>> {
    /// # let size = PoolSize { blocks: 1, spaces: 1, vpages: 1024 };
    /// # let mut pool = Pool::open_in(PageSize::Bytes4096, size, 0, Memory::of_pool(PageSize::Bytes4096, size.blocks)?)?;
    /// # pool.map(0, Address::new(0, 0), false)?;
    /// let pool = Mutex::new(pool);
    /// let round = Pool::round_on(&pool, 4, 64)?;
    /// assert_eq!(round.counts.moved, 1);
    /// # Ok(())
    /// # }
    /// ```
    ///
    /// Refused as [`Error::Range`], or as [`Error::OwnMemory`] where the pool wasn't opened by [`Pool::open_in`].
    pub fn round_on(pool: &Mutex<Pool>, threads: usize, pages: usize) -> Result<Round, Error> {
        share(pool, Work::Round, threads, pages)
    }

    /// Empties runs of `2^order` frames, by their first frames, on threads and in a pool as [`Pool::round_on`] has them. First it claims the
    /// free frames of each run, so that no page comes there. Then it moves page after page out of the runs, the first run and the lowest page
    /// first, each to the highest free frame that is in no marked pageblock, and claims the frame that it leaves. A page that is moving, pinned
    /// or unmovable stays. [`Pool::take_claimed`] takes a run whose frames are all claimed; of another one [`Pool::empty_some`] goes on, or
    /// [`Pool::drop_claim`] gives it up.
    ///
    /// ```
    /// # use compactd::{Address, Memory, PageSize, Pool, PoolSize};
    /// # use std::sync::Mutex;
    /// # fn main() -> Result<(), Box<dyn std::error::Error>> {
    /// # let size = PoolSize { blocks: 2, spaces: 1, vpages: 1024 };
    /// # let mut pool = Pool::open_in(PageSize::Bytes4096, size, 0, Memory::of_pool(PageSize::Bytes4096, size.blocks)?)?;
    /// # pool.map(0, Address::new(0, 0), false)?;
    /// let pool = Mutex::new(pool);
    /// let emptied = Pool::empty_on(&pool, &[0], 9, 4, 64)?;
    /// assert_eq!(emptied.counts.moved, 1);
    /// let huge = pool.lock().unwrap().take_claimed(0, 9)?;
    /// # pool.lock().unwrap().give(huge)?;
    /// # Ok(())
    /// # }
    /// ```
    ///
    /// Refused as [`Pool::round_on`] is, and as [`Error::Range`] where no run of this order begins at one of the frames.
    pub fn empty_on(pool: &Mutex<Pool>, firsts: &[u32], order: u32, threads: usize, pages: usize) -> Result<Round, Error> {
        share(pool, Work::Runs { firsts, order }, threads, pages)
    }
}

/// Does work on so many threads.
fn share(pool: &Mutex<Pool>, work: Work, threads: usize, pages: usize) -> Result<Round, Error> {
    let range = 1..=MOST;
    if !range.contains(&threads) || !range.contains(&pages) {
        return Err(Error::Range);
    }
    work.begin(&mut locked(pool))?;
    thread::scope(|scope| {
        let start = |_| Builder::new().spawn_scoped(scope, || Worker::share(pool, work, pages)).ok();
        let others: Vec<_> = (1..threads).map_while(start).collect();
        let mut all = Worker::share(pool, work, pages);
        for other in others {
            all.add(other.join().unwrap_or_else(|cause| panic::resume_unwind(cause)));
        }
        Ok(Round { counts: all.counts, stopped: all.stopped? })
    })
}

/// What threads share: a round, or runs that are emptied, the next one first.
#[derive(Clone, Copy)]
enum Work<'a> {
    Round,
    Runs { firsts: &'a [u32], order: u32 },
}

impl Work<'_> {
    fn begin(self, pool: &mut Pool) -> Result<(), Error> {
        if pool.mapping.is_none() {
            return Err(Error::OwnMemory);
        }
        match self {
            Work::Round => pool.begin_round(),
            Work::Runs { firsts, order } => claim_free(pool, firsts, order)?,
        }
        Ok(())
    }

    fn next(&mut self, pool: &mut Pool) -> Result<Option<LentMove>, Error> {
        let Work::Runs { firsts, order } = self else {
            return pool.lend_move();
        };
        while let Some((first, others)) = firsts.split_first() {
            if let Some(page) = pool.lend_move_from(*first, *order)? {
                return Ok(Some(page));
            }
            *firsts = others;
        }
        Ok(None)
    }

    fn commit(self, pool: &mut Pool, page: CopiedMove) -> Result<bool, Kept<CopiedMove>> {
        match self {
            Work::Round => pool.commit_lent(page),
            Work::Runs { .. } => pool.commit_and_claim(page),
        }
    }

    /// Why there are no more pages, where all are moved.
    fn stopped(self) -> Stopped {
        match self {
            Work::Round => Stopped::Met,
            Work::Runs { .. } => Stopped::NoneLeft,
        }
    }
}

/// Claims the free frames of runs, where a block can begin at each.
fn claim_free(pool: &mut Pool, firsts: &[u32], order: u32) -> Result<(), Error> {
    let frames = 512 * pool.geometry().blocks;
    if !(3..=9).contains(&order) || firsts.iter().any(|first| first % (1 << order) != 0 || *first >= frames) {
        return Err(Error::Range);
    }
    firsts.iter().try_for_each(|first| pool.empty_some(*first, order, 0).map(|_| ()))
}

/// One of the threads: what it did, and why it takes no further move.
struct Worker<'a> {
    work: Work<'a>,
    counts: RoundCounts,
    stopped: Result<Stopped, Error>,
}

impl<'a> Worker<'a> {
    /// Copies pages without the mutex until there are no more, and has no move in hand then.
    fn share(pool: &Mutex<Pool>, work: Work<'a>, pages: usize) -> Worker<'a> {
        let mut worker = Worker { work, counts: RoundCounts::default(), stopped: Ok(work.stopped()) };
        let mut copied = Vec::new();
        loop {
            let lent = worker.exchange(&mut locked(pool), copied, pages);
            if lent.is_empty() {
                return worker;
            }
            copied = lent.into_iter().map(LentMove::copy).collect();
        }
    }

    /// Ends the moves in hand, and takes the next ones.
    fn exchange(&mut self, pool: &mut Pool, copied: Vec<CopiedMove>, pages: usize) -> Vec<LentMove> {
        for page in copied {
            match self.work.commit(pool, page) {
                Ok(true) => self.counts.moved += 1,
                Ok(false) => self.counts.back += 1,
                Err(kept) => self.stopped = Err(kept.error), // another pool is in the mutex
            }
        }
        let lent: Vec<_> = iter::from_fn(|| self.next(pool)).take(pages).collect();
        self.counts.isolated += lent.len() as u64;
        lent
    }

    fn next(&mut self, pool: &mut Pool) -> Option<LentMove> {
        if self.stopped != Ok(self.work.stopped()) {
            return None;
        }
        self.work.next(pool).unwrap_or_else(|error| {
            self.stopped = if error == Error::JournalFull { Ok(Stopped::JournalFull) } else { Err(error) };
            None
        })
    }

    fn add(&mut self, other: Worker) {
        self.counts.isolated += other.counts.isolated;
        self.counts.moved += other.counts.moved;
        self.counts.back += other.counts.back;
        if self.stopped == Ok(self.work.stopped()) {
            self.stopped = other.stopped;
        }
    }
}
