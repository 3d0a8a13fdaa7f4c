use crate::pool::{done, is_done};
use crate::raw;
use crate::{Error, Huge, Kept, Move, Moving, MovingPage, Pool};

/// The number where the scanners have met: the answer of an isolation, and why a slice stopped.
pub(crate) const MET: u32 = 53;

/// What [`Pool::move_pages`] did.
#[derive(Clone, Copy, Debug, PartialEq, Eq)]
pub struct Slice {
    /// How many pages were moved.
    pub moved: u32,
    /// Why there were no more; None where they are as many as were asked for.
    pub stopped: Option<Stopped>,
}

/// What [`Pool::list_moves`] did.
#[derive(Clone, Debug, PartialEq, Eq)]
pub struct ListedMoves {
    /// The moves that it made, the first one in front.
    pub moves: Vec<Move>,
    /// Why there were no more; None where they are as many as were asked for.
    pub stopped: Option<Stopped>,
}

/// Why no further page is moved.
#[derive(Clone, Copy, Debug, PartialEq, Eq, Hash)]
pub enum Stopped {
    /// The scanners of a round have met, or no round was begun.
    Met,
    /// The journal has no room for a further move.
    JournalFull,
    /// No page of the runs is left that can move, or no frame is free for it.
    NoneLeft,
}

/// What [`Pool::reserve`] did.
#[derive(Debug, PartialEq, Eq)]
#[must_use = "blocks that are dropped stay handed out until their pool is dropped"]
pub struct Reserved {
    /// The blocks that were handed out.
    pub blocks: Vec<Huge>,
    /// How many pages were moved for them.
    pub moved: u32,
}

/// Rounds, evacuations and reservations.
impl Pool {
    /// Makes a whole round on this thread: it moves the lowest page that can be moved to the highest free frame, and so on until its two
    /// scanners meet.
    ///
    /// Refused as [`Error::JournalFull`] where the journal had no room for a further move; the pages that were moved until then stay in their
    /// new frames.
    pub fn compact(&mut self) -> Result<(), Error> {
        let mut met = false;
        is_done(unsafe { raw::compactd_compact(&mut self.raw, &mut met) });
        if met {
            Ok(())
        } else {
            Err(Error::JournalFull)
        }
    }

    /// Begins a round whose pages are moved in slices by [`Pool::move_pages`], or carried by [`Pool::isolate`] and [`Pool::commit`], or by
    /// [`Pool::lend_move`] and [`Pool::commit_lent`]. A round that was begun before ends; pages that are moving stay so.
    ///
    /// ```
    /// # use compactd::{Address, Error, PageSize, Pool};
    /// # fn main() -> Result<(), Error> {
    /// # let mut pool = Pool::open(PageSize::Bytes64, 1)?;
    /// pool.map(0, Address::new(0, 0), false)?;
    /// pool.begin_round();
    /// while let Some(page) = pool.isolate()? {
    ///     assert!(pool.commit(page)?);
    /// }
    /// assert_eq!(pool.audit()?.moved, 1);
    /// # Ok(())
    /// # }
    /// ```
    pub fn begin_round(&mut self) {
        is_done(unsafe { raw::compactd_begin_round(&mut self.raw) });
    }

    /// Moves the next pages of the round that was begun last, so many at most, each by one copy from frame to frame. In a pool that threads
    /// share, they make their calls between two slices.
    ///
    /// ```
    /// # use compactd::{Address, Error, PageSize, Pool, Stopped};
    /// # fn main() -> Result<(), Error> {
    /// # let mut pool = Pool::open(PageSize::Bytes64, 1)?;
    /// # for page in 0..40 {
    /// #     pool.map(0, Address::new(0, page), false)?;
    /// # }
    /// pool.begin_round();
    /// let stopped = loop {
    ///     let slice = pool.move_pages(16);
    ///     if let Some(stopped) = slice.stopped {
    ///         break stopped;
    ///     }
    /// };
    /// assert_eq!(stopped, Stopped::Met);
    /// assert_eq!(pool.audit()?.moved, 40);
    /// # Ok(())
    /// # }
    /// ```
    pub fn move_pages(&mut self, most: u32) -> Slice {
        let (mut moved, mut stopped) = (0, 0);
        is_done(unsafe { raw::compactd_move_pages(&mut self.raw, most, &mut moved, &mut stopped) });
        let stopped = match stopped {
            0 => None,
            MET => Some(Stopped::Met),
            _ => Some(Stopped::JournalFull),
        };
        Slice { moved, stopped }
    }

    /// Moves the next pages of the round that was begun last, so many at most, to where [`Pool::move_pages`] moves them, and lists them: who
    /// keeps page tables learns by it which pages a round moved. Each page is copied twice.
    ///
    /// ```
    /// # use compactd::{Address, Error, PageSize, Pool, Stopped};
    /// # fn main() -> Result<(), Error> {
    /// # let mut pool = Pool::open(PageSize::Bytes64, 1)?;
    /// let mut frame = pool.map(0, Address::new(0, 0), false)?;
    /// pool.begin_round();
    /// let listed = pool.list_moves(16);
    /// for at in listed.moves.iter().filter(|at| at.address == Address::new(0, 0)) {
    ///     assert_eq!(at.source, frame);
    ///     frame = at.target;
    /// }
    /// assert_eq!((frame, listed.stopped), (511, Some(Stopped::Met)));
    /// # Ok(())
    /// # }
    /// ```
    pub fn list_moves(&mut self, most: u32) -> ListedMoves {
        let (mut moves, mut words) = (Vec::new(), vec![0; self.page_size().words() as usize]);
        while moves.len() < most as usize {
            match self.move_listed(&mut words, moves.last().map_or(0, |at: &Move| at.source)) {
                Ok(Some(made)) => moves.push(made),
                Ok(None) => return ListedMoves { moves, stopped: Some(Stopped::Met) },
                Err(_) => return ListedMoves { moves, stopped: Some(Stopped::JournalFull) },
            }
        }
        ListedMoves { moves, stopped: None }
    }

    /// Moves the next page of the round, which leaves a frame from `from` on, and returns where it went.
    fn move_listed(&mut self, words: &mut [u64], from: u32) -> Result<Option<Move>, Error> {
        let Some(page) = self.isolate_into(words)? else { return Ok(None) };
        let mut made = self.next_moving(from)?;
        while made.page.serial() != page.serial() {
            made = self.next_moving(made.source + 1)?;
        }
        self.commit_copy(page, words)?;
        Ok(Some(made))
    }

    /// Empties the run of `2^order` frames, order 3 to 9, that begins at a frame, and returns how many pages were moved out of it. All
    /// frames of the run are free then. The lowest page goes to the highest free frame that is outside of the run and in no marked
    /// pageblock, and so on; each page is copied once. Where a page is moved, the latest round isn't quiet any more.
    ///
    /// ```
    /// # use compactd::{Address, Error, PageSize, Pool};
    /// # fn main() -> Result<(), Error> {
    /// # let mut pool = Pool::open(PageSize::Bytes64, 1)?;
    /// pool.map_at(0, Address::new(0, 0), false, 9)?;
    /// pool.map_at(0, Address::new(0, 1), false, 12)?;
    /// assert_eq!(pool.evacuate(8, 3)?, 2);
    /// assert_eq!(pool.free_runs(8)?, 1);
    /// # Ok(())
    /// # }
    /// ```
    ///
    /// Refused as [`Error::Range`], also where the frame isn't a multiple of `2^order` or the run goes past the pool; as [`Error::NoBlock`]
    /// where a frame of the run is in a marked pageblock, in a block that is handed out, claimed, or taken up by a page that is moving, pinned
    /// or unmovable, or where there are fewer frames to go to than pages; or as [`Error::JournalFull`] where there aren't two places for each
    /// page, or fewer isolations are left than pages.
    pub fn evacuate(&mut self, first: u32, order: u32) -> Result<u32, Error> {
        let mut moved = 0;
        done(unsafe { raw::compactd_evacuate(&mut self.raw, first, order, &mut moved) })?;
        Ok(moved)
    }

    /// Hands out `count` blocks of `2^order` frames, order 3 to 9, with the fewest moves that there can be. The open runs with the fewest
    /// pages are emptied for that, the lowest first of equals; a run is open where [`Pool::evacuate`] wouldn't be refused for a frame of it.
    /// Their lowest page goes to the highest free frame that is outside of all of them and in no marked pageblock, and so on; each page is
    /// copied once. Where a page is moved, the latest round isn't quiet any more.
    ///
    /// ```
    /// # use compactd::{Address, Error, PageSize, Pool};
    /// # fn main() -> Result<(), Error> {
    /// # let mut pool = Pool::open(PageSize::Bytes64, 2)?;
    /// for page in 0..3 {
    ///     pool.map(0, Address::new(0, page), false)?;
    /// }
    /// pool.map_at(0, Address::new(0, 9), false, 700)?;
    /// let reserved = pool.reserve(1, 9)?;
    /// assert_eq!((reserved.moved, reserved.blocks[0].first()), (1, 512));
    /// for huge in reserved.blocks {
    ///     pool.give(huge)?;
    /// }
    /// # Ok(())
    /// # }
    /// ```
    ///
    /// Refused as [`Error::Range`]; as [`Error::Memory`] where there isn't enough for a list of the blocks; as [`Error::NoBlock`] where fewer
    /// runs are open, or fewer frames of unmarked pageblocks are free than the blocks have; or as [`Error::JournalFull`] where there aren't
    /// two places for each page and one for each block, or fewer isolations are left than pages.
    pub fn reserve(&mut self, count: usize, order: u32) -> Result<Reserved, Error> {
        let (mut firsts, mut moved) = (vec![0; count], 0);
        done(unsafe { raw::compactd_reserve(&mut self.raw, order, firsts.as_mut_ptr(), count, &mut moved) })?;
        let blocks = firsts.into_iter().map(|first| Huge { pool: self.number, first, order }).collect();
        Ok(Reserved { blocks, moved })
    }

    /// Isolates the next page of the round, which is moving from then on; None where the scanners have met. It allocates the words.
    /// In a pool that threads share, [`MovingGuard::isolate`] is safer: it puts a page back that is dropped.
    ///
    /// Refused as [`Error::JournalFull`] where there aren't two places for its move.
    ///
    /// [`MovingGuard::isolate`]: crate::MovingGuard::isolate
    pub fn isolate(&mut self) -> Result<Option<Moving>, Error> {
        let mut words = vec![0; self.page_size().words() as usize];
        let page = self.isolate_into(&mut words)?;
        Ok(page.map(|page| Moving { page, words }))
    }

    /// Isolates the next page of the round, and copies its words into a buffer of the caller's. It allocates nothing.
    ///
    /// Refused as [`Error::Range`] where the buffer has more or fewer words than a page, else as [`Pool::isolate`] is.
    pub fn isolate_into(&mut self, words: &mut [u64]) -> Result<Option<MovingPage>, Error> {
        let mut page = raw::MovingPage::default();
        match unsafe { raw::compactd_isolate(&mut self.raw, &mut page, words.as_mut_ptr(), words.len()) } {
            MET => Ok(None),
            answer => done(answer).map(|()| Some(MovingPage { pool: self.number, raw: page })),
        }
    }

    /// Isolates the next pages of the round, so many at most, one after the other: under one hold of a lock, where threads share the pool. There
    /// are fewer where the scanners have met or the journal has no room for a further move.
    ///
    /// ```
    /// # use compactd::{Address, Error, PageSize, Pool};
    /// # fn main() -> Result<(), Error> {
    /// # let mut pool = Pool::open(PageSize::Bytes64, 1)?;
    /// # for page in 0..40 {
    /// #     pool.map(0, Address::new(0, page), false)?;
    /// # }
    /// pool.begin_round();
    /// let pages = pool.isolate_many(64)?;
    /// assert_eq!(pages.len(), 40);
    /// assert!(pool.commit_many(pages).iter().all(|moved| *moved == Ok(true)));
    /// # Ok(())
    /// # }
    /// ```
    ///
    /// Refused as [`Pool::isolate`] is, where no page is isolated.
    pub fn isolate_many(&mut self, most: usize) -> Result<Vec<Moving>, Error> {
        let mut pages = Vec::new();
        while pages.len() < most {
            match self.isolate() {
                Ok(Some(page)) => pages.push(page),
                Err(error) if pages.is_empty() => return Err(error),
                Ok(None) | Err(_) => break,
            }
        }
        Ok(pages)
    }

    /// Ends the moves of pages with their words, one after the other, and returns what [`Pool::commit`] returns for each.
    pub fn commit_many(&mut self, pages: Vec<Moving>) -> Vec<Result<bool, Kept<Moving>>> {
        pages.into_iter().map(|page| self.commit(page)).collect()
    }

    /// Ends the move of a page with its words. Returns whether the page was moved to its new frame; else it has a pin and is in its old
    /// one.
    ///
    /// Refused as [`Error::Stranger`] where the page is another pool's, or isn't moving any more.
    pub fn commit(&mut self, moving: Moving) -> Result<bool, Kept<Moving>> {
        self.commit_copy(moving.page, &moving.words).map_err(|error| Kept { error, value: moving })
    }

    /// The same with a copy of the page's words in a buffer of the caller's. The words are compared with those of the page.
    ///
    /// Refused as [`Error::Range`] where the buffer has more or fewer words than a page, or as [`Error::Stranger`], also where the words
    /// differ or are lent.
    pub fn commit_copy(&mut self, page: MovingPage, words: &[u64]) -> Result<bool, Error> {
        self.own_page(page)?;
        let mut moved = false;
        done(unsafe { raw::compactd_commit(&mut self.raw, &page.raw, words.as_ptr(), words.len(), &mut moved) })?;
        Ok(moved)
    }

    /// Ends the move of a page without its words: the page is in its old frame.
    ///
    /// Refused as [`Error::Stranger`] where the page is another pool's, or isn't moving any more.
    pub fn put_back(&mut self, moving: Moving) -> Result<(), Kept<Moving>> {
        self.put_back_lost(moving.page).map_err(|error| Kept { error, value: moving })
    }

    /// Puts a page back whose [`Moving`] was lost. [`Pool::moving_pages`] finds it.
    ///
    /// ```
    /// # use compactd::{Address, Error, PageSize, Pool};
    /// # fn main() -> Result<(), Error> {
    /// # let mut pool = Pool::open(PageSize::Bytes64, 1)?;
    /// # pool.map(0, Address::new(0, 0), false)?;
    /// pool.begin_round();
    /// drop(pool.isolate()?);
    /// for lost in pool.moving_pages() {
    ///     pool.put_back_lost(lost.page)?;
    /// }
    /// assert_eq!(pool.info().moving, 0);
    /// # Ok(())
    /// # }
    /// ```
    ///
    /// Refused as [`Error::Stranger`] where the page is another pool's, isn't moving any more, or has a [`LentMove`](crate::LentMove).
    pub fn put_back_lost(&mut self, page: MovingPage) -> Result<(), Error> {
        self.own_page(page)?;
        done(unsafe { raw::compactd_put_back(&mut self.raw, &page.raw) })
    }

    fn own_page(&self, page: MovingPage) -> Result<(), Error> {
        if page.pool == self.number {
            Ok(())
        } else {
            Err(Error::Stranger)
        }
    }
}
