use std::fmt;
use std::ptr::null_mut;
use std::sync::atomic::{AtomicU64, Ordering};
use std::sync::Arc;

use crate::memory::Mapping;
use crate::raw;
use crate::{Error, Huge, Kept};

/// The number that the next pool gets, by which it knows its blocks again.
static NEXT: AtomicU64 = AtomicU64::new(0);

/// How large the pages of a pool are.
#[derive(Clone, Copy, Debug, PartialEq, Eq)]
pub enum PageSize {
    /// 8 words of 64 bits.
    Bytes64,
    /// 512 words of 64 bits.
    Bytes4096,
}

impl PageSize {
    /// How many words of 64 bits a page has.
    pub fn words(self) -> u32 {
        match self {
            PageSize::Bytes64 => 8,
            PageSize::Bytes4096 => 512,
        }
    }
}

/// How large a pool is: how many pageblocks it has, and how many addresses. These are at most 67,108,864 in all, and each takes 4 bytes of
/// memory, whether or not it names a page.
#[derive(Clone, Copy, Debug, PartialEq, Eq)]
pub struct PoolSize {
    /// Pageblocks of 512 frames: 1 to 32,768.
    pub blocks: u32,
    /// Address spaces: 1 to 256.
    pub spaces: u32,
    /// Virtual pages of each space: 1 to 16,777,216.
    pub vpages: u32,
}

/// What names a page: a space, and a virtual page of it. A pool has 8 spaces of 4,096 virtual pages, or those of its [`PoolSize`].
#[derive(Clone, Copy, Debug, PartialEq, Eq, Hash, PartialOrd, Ord)]
pub struct Address {
    /// The space.
    pub space: u32,
    /// The virtual page.
    pub vpage: u32,
}

impl Address {
    /// The address with these numbers. A call that would make one name a page that the pool doesn't have is refused as [`Error::Range`]. Other
    /// calls with it are refused as [`Error::Unmapped`], or as [`Error::Range`] where no pool can have it.
    pub fn new(space: u32, vpage: u32) -> Address {
        Address { space, vpage }
    }
}

/// A pool, which is open until it is dropped.
///
/// A client, 0 to 7, is a number that stands in the record of a call, where a journal is kept, and means nothing else.
///
/// It may be sent to another thread. Threads share one by a `Mutex`, and not without it:
///
/// ```compile_fail
/// fn share<T: Sync>(_: &T) {}
/// fn share_pool(pool: &compactd::Pool) {
///     share(pool);
/// }
/// ```
pub struct Pool {
    pub(crate) raw: raw::Handle,
    pub(crate) number: u64,
    page_size: PageSize,
    /// Where its pages lie, if that is memory of the caller's.
    pub(crate) mapping: Option<Arc<Mapping>>,
}

// The handle is one pointer to memory that the pool owns alone. That it may be used by one thread after the other is proved.
unsafe impl Send for Pool {}

impl fmt::Debug for Pool {
    fn fmt(&self, f: &mut fmt::Formatter<'_>) -> fmt::Result {
        f.debug_struct("Pool").field("page_size", &self.page_size).finish_non_exhaustive()
    }
}

impl Drop for Pool {
    fn drop(&mut self) {
        // SAFETY: the handle is this pool's, and no call on it is running.
        is_done(unsafe { raw::compactd_close(&mut self.raw) });
    }
}

/// Ok, or the error of a refused call.
pub(crate) fn done(answer: u32) -> Result<(), Error> {
    match answer {
        0 => Ok(()),
        number => Err(Error::of(number)),
    }
}

// SAFETY, of each call of this crate on a pool: the handle was zeroed, and is this pool's, which is borrowed alone; each other pointer leads
// to a value of its type, or to as many words as the count says, and no two overlap.
impl Pool {
    /// Opens a pool with 1 to 32,768 pageblocks of 512 frames, and 8 spaces of 4,096 virtual pages. It keeps no records.
    ///
    /// Refused as [`Error::Range`] or [`Error::Memory`].
    pub fn open(page_size: PageSize, blocks: u32) -> Result<Pool, Error> {
        Pool::of(page_size, |raw| unsafe { raw::compactd_open(raw, page_size.words(), blocks) })
    }

    /// Opens a pool that keeps a record of each accepted call, in a journal of 1 to 65,536 places. It has 1 to 8 pageblocks, and 8 spaces of
    /// 4,096 virtual pages. When only the places for the ends of moves are left, calls are refused as [`Error::JournalFull`].
    ///
    /// Refused as [`Error::Range`] or [`Error::Memory`].
    pub fn open_journal(page_size: PageSize, blocks: u32, places: u32) -> Result<Pool, Error> {
        Pool::of(page_size, |raw| unsafe { raw::compactd_open_journal(raw, page_size.words(), blocks, places) })
    }

    /// Opens a pool of any size. With 0 places it keeps no records, as by [`Pool::open`]; with 1 to 65,536 places it keeps a journal, as by
    /// [`Pool::open_journal`].
    ///
    /// ```
    /// # use compactd::{Address, Error, PageSize, Pool, PoolSize};
    /// # fn main() -> Result<(), Error> {
    /// // As many addresses as frames, in two spaces.
    /// let mut pool = Pool::open_sized(PageSize::Bytes64, PoolSize { blocks: 9, spaces: 2, vpages: 2304 }, 0)?;
    /// pool.map(0, Address::new(1, 2303), false)?;
    /// assert_eq!(pool.map(0, Address::new(1, 2304), false), Err(Error::Range));
    /// # Ok(())
    /// # }
    /// ```
    ///
    /// Refused as [`Error::Range`] or [`Error::Memory`].
    pub fn open_sized(page_size: PageSize, size: PoolSize, places: u32) -> Result<Pool, Error> {
        let PoolSize { blocks, spaces, vpages } = size;
        Pool::of(page_size, |raw| unsafe { raw::compactd_open_sized(raw, page_size.words(), blocks, spaces, vpages, places) })
    }

    pub(crate) fn of(page_size: PageSize, open: impl FnOnce(&mut raw::Handle) -> u32) -> Result<Pool, Error> {
        let mut raw = raw::Handle { at: null_mut() };
        done(open(&mut raw))?;
        let number = NEXT.fetch_add(1, Ordering::Relaxed);
        Ok(Pool { raw, number, page_size, mapping: None })
    }

    /// How large its pages are.
    pub fn page_size(&self) -> PageSize {
        self.page_size
    }

    /// Sets whether [`Pool::map`] puts unmovable pages apart from the others: into a pageblock that has one, and else into the emptiest. Any
    /// other page goes into a pageblock that has none, one that isn't whole before one that is, and else into the lowest free frame. So
    /// fewer pageblocks have one. In a pool that was just opened each page goes into the lowest free frame. Pages that are mapped already
    /// stay.
    ///
    /// ```
    /// # use compactd::{Address, Error, PageSize, Pool};
    /// # fn main() -> Result<(), Error> {
    /// # let mut pool = Pool::open(PageSize::Bytes64, 2)?;
    /// pool.set_apart(true);
    /// assert_eq!(pool.map(0, Address::new(0, 0), false)?, 0);
    /// assert_eq!(pool.map(0, Address::new(0, 1), true)?, 512);
    /// # Ok(())
    /// # }
    /// ```
    pub fn set_apart(&mut self, apart: bool) {
        is_done(unsafe { raw::compactd_set_apart(&mut self.raw, apart) });
    }

    /// Makes an address name a fresh page of zeros, and returns its frame: the lowest free one, or as
    /// [`Pool::set_apart`] says where it was called. No round moves an unmovable page.
    ///
    /// Refused as [`Error::Range`], [`Error::JournalFull`], [`Error::Occupied`] or [`Error::NoFrame`].
    pub fn map(&mut self, client: u32, at: Address, unmovable: bool) -> Result<u32, Error> {
        let mut frame = 0;
        done(unsafe { raw::compactd_map(&mut self.raw, client, at.space, at.vpage, unmovable, &mut frame) })?;
        Ok(frame)
    }

    /// Like [`Pool::map`], but in the given frame.
    ///
    /// Refused as [`Pool::map`] is.
    pub fn map_at(&mut self, client: u32, at: Address, unmovable: bool, frame: u32) -> Result<(), Error> {
        done(unsafe { raw::compactd_map_at(&mut self.raw, client, at.space, at.vpage, unmovable, frame) })
    }

    /// Reads a word of a page.
    ///
    /// Refused as [`Error::Range`], [`Error::JournalFull`], [`Error::Unmapped`], [`Error::Moving`] or [`Error::Lent`].
    pub fn load(&mut self, client: u32, at: Address, word: u32) -> Result<u64, Error> {
        let mut value = 0;
        done(unsafe { raw::compactd_load(&mut self.raw, client, at.space, at.vpage, word, &mut value) })?;
        Ok(value)
    }

    /// Writes a word of a page.
    ///
    /// Refused as [`Pool::load`] is.
    pub fn store(&mut self, client: u32, at: Address, word: u32, value: u64) -> Result<(), Error> {
        done(unsafe { raw::compactd_store(&mut self.raw, client, at.space, at.vpage, word, value) })
    }

    /// Makes an alias name the page of an address too. A page has at most 4 addresses.
    ///
    /// Refused as [`Error::Range`], [`Error::JournalFull`], [`Error::Unmapped`], [`Error::Moving`], [`Error::Occupied`] or
    /// [`Error::ShareFull`].
    pub fn share(&mut self, client: u32, at: Address, alias: Address) -> Result<(), Error> {
        done(unsafe { raw::compactd_share(&mut self.raw, client, at.space, at.vpage, alias.space, alias.vpage) })
    }

    /// Makes an address name no page any more. When a page has no address left, it is gone.
    ///
    /// Refused as [`Error::Range`], [`Error::JournalFull`], [`Error::Unmapped`], [`Error::Moving`] or [`Error::Pinned`].
    pub fn unmap(&mut self, client: u32, at: Address) -> Result<(), Error> {
        done(unsafe { raw::compactd_unmap(&mut self.raw, client, at.space, at.vpage) })
    }

    /// Pins a page: while it has a pin, and it may have 255, no round moves it.
    ///
    /// Refused as [`Error::Range`], [`Error::JournalFull`], [`Error::Unmapped`] or [`Error::PinFull`].
    pub fn pin(&mut self, client: u32, at: Address) -> Result<(), Error> {
        done(unsafe { raw::compactd_pin(&mut self.raw, client, at.space, at.vpage) })
    }

    /// Takes a pin off a page.
    ///
    /// Refused as [`Error::Range`], [`Error::JournalFull`], [`Error::Unmapped`], [`Error::NotPinned`], or as [`Error::Lent`] where this is its
    /// last pin and its words are lent.
    pub fn unpin(&mut self, client: u32, at: Address) -> Result<(), Error> {
        done(unsafe { raw::compactd_unpin(&mut self.raw, client, at.space, at.vpage) })
    }

    /// Hands out the lowest block of `2^order` free frames, order 3 to 9. Its words are zeros.
    ///
    /// Refused as [`Error::Range`], [`Error::JournalFull`] or [`Error::NoBlock`].
    pub fn take_huge(&mut self, order: u32) -> Result<Huge, Error> {
        let mut first = 0;
        done(unsafe { raw::compactd_take_order(&mut self.raw, order, &mut first) })?;
        Ok(Huge { pool: self.number, first, order })
    }

    /// Gives a block back to the pool. A refused block comes back with the error.
    ///
    /// Refused as [`Error::NotHuge`] where another pool handed it out, or [`Error::JournalFull`].
    pub fn give(&mut self, huge: Huge) -> Result<(), Kept<Huge>> {
        let given = self.own(&huge).and_then(|()| done(unsafe { raw::compactd_give_order(&mut self.raw, huge.first, huge.order) }));
        given.map_err(|error| Kept { error, value: huge })
    }

    pub(crate) fn own(&self, huge: &Huge) -> Result<(), Error> {
        if huge.pool == self.number {
            Ok(())
        } else {
            Err(Error::NotHuge)
        }
    }

    /// Marks a pageblock: rounds isolate no page of it and move none into it.
    ///
    /// Refused as [`Error::Range`], [`Error::JournalFull`] or [`Error::Marked`].
    pub fn mark(&mut self, block: u32) -> Result<(), Error> {
        done(unsafe { raw::compactd_mark(&mut self.raw, block) })
    }

    /// Takes the mark off a pageblock.
    ///
    /// Refused as [`Error::Range`], [`Error::JournalFull`] or [`Error::NotMarked`].
    pub fn unmark(&mut self, block: u32) -> Result<(), Error> {
        done(unsafe { raw::compactd_unmark(&mut self.raw, block) })
    }

    /// Reads words of a page from word `from`, as that many calls of [`Pool::load`] would.
    ///
    /// Refused as [`Error::Range`], also where they go past the page, [`Error::JournalFull`], [`Error::Unmapped`], [`Error::Moving`] or
    /// [`Error::Lent`].
    pub fn read(&mut self, client: u32, at: Address, from: u32, values: &mut [u64]) -> Result<(), Error> {
        let (words, count) = (values.as_mut_ptr(), values.len());
        done(unsafe { raw::compactd_read(&mut self.raw, client, at.space, at.vpage, from, words, count) })
    }

    /// Writes words of a page from word `from`, as that many calls of [`Pool::store`] would.
    ///
    /// Refused as [`Pool::read`] is.
    pub fn write(&mut self, client: u32, at: Address, from: u32, values: &[u64]) -> Result<(), Error> {
        let (words, count) = (values.as_ptr(), values.len());
        done(unsafe { raw::compactd_write(&mut self.raw, client, at.space, at.vpage, from, words, count) })
    }

    /// Reads words of a block from word `from`. [`Pool::words_of`] says how many it has.
    ///
    /// Refused as [`Error::NotHuge`] where another pool handed it out, or as [`Error::Range`] where they go past the block.
    pub fn read_huge(&mut self, huge: &Huge, from: usize, values: &mut [u64]) -> Result<(), Error> {
        self.own(huge)?;
        let (words, count) = (values.as_mut_ptr(), values.len());
        done(unsafe { raw::compactd_read_block(&mut self.raw, huge.first, huge.order, from, words, count) })
    }

    /// Writes words of a block from word `from`.
    ///
    /// Refused as [`Pool::read_huge`] is.
    pub fn write_huge(&mut self, huge: &Huge, from: usize, values: &[u64]) -> Result<(), Error> {
        self.own(huge)?;
        let (words, count) = (values.as_ptr(), values.len());
        done(unsafe { raw::compactd_write_block(&mut self.raw, huge.first, huge.order, from, words, count) })
    }

    /// How many words a block has.
    pub fn words_of(&self, huge: &Huge) -> usize {
        huge.frames() as usize * self.page_size.words() as usize
    }
}

/// A call on an open pool that isn't refused.
pub(crate) fn is_done(answer: u32) {
    debug_assert_eq!(answer, 0, "the call is never refused where the pool is open");
}

/// The version of the library.
pub fn version() -> u32 {
    // SAFETY: the call takes nothing.
    unsafe { raw::compactd_version() }
}
