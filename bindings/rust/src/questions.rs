use crate::pool::{done, is_done};
use crate::raw;
use crate::{Address, Counts, Error, Geometry, Move, MovingPage, Pool, Record, RoundCounts};

/// Where a page is.
#[derive(Clone, Copy, Debug, PartialEq, Eq)]
pub enum Place {
    /// In this frame.
    At {
        /// The frame.
        frame: u32,
        /// Whether no round moves it.
        unmovable: bool,
        /// Whether it was written since it was mapped.
        dirty: bool,
    },
    /// It is moving, under this serial.
    Moving {
        /// The serial.
        serial: u64,
    },
}

/// What a pool knows of a page.
#[derive(Clone, Copy, Debug, PartialEq, Eq)]
pub struct Look {
    /// Where it is.
    pub place: Place,
    /// How many pins it has, 0 to 255.
    pub pins: u32,
    /// How many addresses name it, 1 to 4.
    pub maps: u32,
}

/// Questions. They take `&mut self`, as all calls do: that questions may run side by side is tested of the library, and not proved.
impl Pool {
    /// The counts.
    pub fn info(&mut self) -> Counts {
        let mut counts = Counts::default();
        is_done(unsafe { raw::compactd_info(&mut self.raw, &mut counts) });
        counts
    }

    /// What the pool was opened with.
    pub fn geometry(&mut self) -> Geometry {
        let mut geometry = Geometry::default();
        is_done(unsafe { raw::compactd_describe(&mut self.raw, &mut geometry) });
        geometry
    }

    /// How many free runs of `2^order` frames there are, order 0 to 9, as `/proc/buddyinfo` counts them: runs that are aligned to their size
    /// and lie in no larger free run of the orders up to 9. Frames of marked pageblocks count too.
    ///
    /// Refused as [`Error::Range`].
    pub fn free_runs(&mut self, order: u32) -> Result<u32, Error> {
        let mut runs = 0;
        done(unsafe { raw::compactd_free_runs(&mut self.raw, order, &mut runs) })?;
        Ok(runs)
    }

    /// The fragmentation index of an order, 0 to 9, in thousandths, as Linux has it in `/sys/kernel/debug/extfrag/extfrag_index`: -1000 where
    /// a run of `2^order` frames is free, near 0 where frames are lacking, near 1000 where the free frames are fragmented. `compactd.h` has
    /// the formula.
    ///
    /// Refused as [`Error::Range`].
    pub fn fragmentation(&mut self, order: u32) -> Result<i32, Error> {
        let mut index = 0;
        done(unsafe { raw::compactd_fragmentation(&mut self.raw, order, &mut index) })?;
        Ok(index)
    }

    /// What the pool knows of the page that an address names.
    ///
    /// Refused as [`Error::Range`] or [`Error::Unmapped`].
    pub fn look(&mut self, at: Address) -> Result<Look, Error> {
        let mut info = raw::PageInfo::default();
        done(unsafe { raw::compactd_look(&mut self.raw, at.space, at.vpage, &mut info) })?;
        let place = match info.moving {
            true => Place::Moving { serial: info.serial },
            false => Place::At { frame: info.frame, unmovable: info.flags & 1 != 0, dirty: info.flags & 2 != 0 },
        };
        Ok(Look { place, pins: info.pins, maps: info.maps })
    }

    /// Whether a pageblock is marked.
    ///
    /// Refused as [`Error::Range`].
    pub fn marked(&mut self, block: u32) -> Result<bool, Error> {
        let mut marked = false;
        done(unsafe { raw::compactd_marked(&mut self.raw, block, &mut marked) })?;
        Ok(marked)
    }

    /// Whether the latest round is quiet: it started with no moving page and no obstacle outside marked pageblocks, and only loads, stores
    /// and moves of rounds followed. An obstacle is a page that has a pin or is unmovable, or a block that is handed out. When the scanners
    /// of a quiet round have met and no page is moving, the pool is packed: in the pageblocks that aren't marked, each free frame is below
    /// each page.
    pub fn quiet(&mut self) -> bool {
        let mut quiet = false;
        is_done(unsafe { raw::compactd_quiet(&mut self.raw, &mut quiet) });
        quiet
    }

    /// How many pages rounds isolated since the pool was opened, and how these moves ended.
    ///
    /// Refused as [`Error::PagesMoving`].
    pub fn audit(&mut self) -> Result<RoundCounts, Error> {
        let mut counts = RoundCounts::default();
        done(unsafe { raw::compactd_audit(&mut self.raw, &mut counts) })?;
        Ok(counts)
    }

    /// How many moves have ended since it was opened: those of pages that were moved, and those of pages that were put back. It is told while
    /// pages are moving too.
    pub fn ended(&mut self) -> u64 {
        let mut moves = 0;
        is_done(unsafe { raw::compactd_ended(&mut self.raw, &mut moves) });
        moves
    }

    /// How many records were written since it was opened, and how many places are left. A pool that keeps no records counts them too.
    pub fn journal(&mut self) -> (u64, u64) {
        let (mut records, mut room) = (0, 0);
        is_done(unsafe { raw::compactd_journal(&mut self.raw, &mut records, &mut room) });
        (records, room)
    }

    /// A record of a pool that keeps its journal; 0 is the oldest.
    ///
    /// Refused as [`Error::Range`] where there is no such record, or none is kept.
    pub fn record_at(&mut self, place: usize) -> Result<Record, Error> {
        let mut record = raw::Record::default();
        done(unsafe { raw::compactd_record_at(&mut self.raw, place, &mut record) })?;
        Ok(Record::of(record))
    }

    /// The moving page with the lowest source frame, of those whose source is the frame `from` or a higher one.
    ///
    /// Refused as [`Error::Range`] where `from` is above 16,777,215, or as [`Error::NotMoving`] where there is no such page.
    pub fn next_moving(&mut self, from: u32) -> Result<Move, Error> {
        let (mut page, mut at) = (raw::MovingPage::default(), raw::Move::default());
        done(unsafe { raw::compactd_next_moving(&mut self.raw, from, &mut page, &mut at) })?;
        let page = MovingPage { pool: self.number, raw: page };
        Ok(Move { page, source: at.source, target: at.target, address: Address::new(at.space, at.vpage) })
    }

    /// All moving pages, by their source frames.
    pub fn moving_pages(&mut self) -> Vec<Move> {
        let (mut found, mut from) = (Vec::new(), 0);
        while let Ok(next) = self.next_moving(from) {
            from = next.source + 1;
            found.push(next);
        }
        found
    }
}
