use std::ffi::{c_int, c_void};
use std::fmt;
use std::io;
use std::mem;
use std::ops::{Deref, DerefMut};
use std::ptr::{null_mut, NonNull};
use std::slice;
use std::sync::Arc;

use crate::pool::done;
use crate::raw;
use crate::{Address, Error, Huge, Kept, PageSize, Place, Pool, PoolSize};

/// Bytes of the pages that x86-64 has.
const HUGE_PAGE: usize = 2 << 20;
const SMALL_PAGE: usize = 4096;

// Linux on x86-64.
const READ_AND_WRITE: c_int = 3;
const PRIVATE_AND_ANONYMOUS: c_int = 0x22;
const DONT_NEED: c_int = 4;
const HUGE_PAGES: c_int = 14;

extern "C" {
    fn mmap(at: *mut c_void, bytes: usize, access: c_int, kind: c_int, file: c_int, from: i64) -> *mut c_void;
    fn munmap(at: *mut c_void, bytes: usize) -> c_int;
    fn madvise(at: *mut c_void, bytes: usize, advice: c_int) -> c_int;
}

/// Memory for a pool: a mapping that begins at a huge page of the processor, and may consist of such pages. When it is dropped, it is
/// unmapped. [`Pool::open_in`] takes it, and [`Pool::close_in`] gives it back.
#[derive(Debug)]
pub struct Memory {
    mapping: Arc<Mapping>,
    /// Whether its words are known to be 0, as where no pool has had it.
    is_blank: bool,
}

impl Memory {
    /// Maps so many words, 1 or more. A pool needs those of its pages: 512 times its pageblocks times the words of a page, as
    /// [`Memory::of_pool`] maps them.
    ///
    /// It fails where the system has no such memory.
    pub fn map(words: usize) -> io::Result<Memory> {
        Ok(Memory { mapping: Arc::new(Mapping::new(words)?), is_blank: true })
    }

    /// As much as a pool needs with pages of this size and so many pageblocks.
    ///
    /// It fails where the system has no such memory.
    pub fn of_pool(page_size: PageSize, blocks: u32) -> io::Result<Memory> {
        Memory::map(blocks as usize * 512 * page_size.words() as usize)
    }

    /// How many words it has.
    pub fn words(&self) -> usize {
        self.mapping.words
    }
}

/// What was mapped. A pool that lies in it keeps it, and so does each [`BlockWords`], [`PageWords`] and `LentMove` of that pool: it is unmapped
/// after all of them.
#[derive(Debug)]
pub(crate) struct Mapping {
    at: NonNull<u64>,
    words: usize,
}

// SAFETY: it has no pointer but that of the mapping, which no other thread unmaps, and lends no words by itself.
unsafe impl Send for Mapping {}
unsafe impl Sync for Mapping {}

impl Mapping {
    fn new(words: usize) -> io::Result<Mapping> {
        let bytes = bytes_of(words).filter(|bytes| *bytes > 0).ok_or(io::ErrorKind::InvalidInput)?;
        let whole = bytes.checked_add(HUGE_PAGE).ok_or(io::ErrorKind::OutOfMemory)?;
        // SAFETY: the system picks where it maps this, and nothing else lies there.
        let mapped = unsafe { mmap(null_mut(), whole, READ_AND_WRITE, PRIVATE_AND_ANONYMOUS, -1, 0) };
        if mapped as isize == -1 {
            return Err(io::Error::last_os_error());
        }
        let after = mapped as usize % HUGE_PAGE;
        let before = HUGE_PAGE - after; // a part of it is more than is needed, and goes back
        let at = mapped.cast::<u8>().wrapping_add(before);
        // SAFETY: what is unmapped, and advised, is a part of what was mapped just now. That no advice is taken is no error.
        unsafe {
            munmap(mapped, before);
            if after > 0 {
                munmap(at.wrapping_add(bytes).cast(), after);
            }
            madvise(at.cast(), bytes, HUGE_PAGES);
        }
        let at = NonNull::new(at.cast()).ok_or(io::ErrorKind::OutOfMemory)?;
        Ok(Mapping { at, words })
    }
}

impl Drop for Mapping {
    fn drop(&mut self) {
        // SAFETY: it was mapped with as many bytes, and all that used it is gone.
        unsafe { munmap(self.at.as_ptr().cast(), bytes_of(self.words).unwrap_or(0)) };
    }
}

/// The bytes of so many words, in whole pages.
fn bytes_of(words: usize) -> Option<usize> {
    Some(words.checked_mul(8)?.checked_add(SMALL_PAGE - 1)? / SMALL_PAGE * SMALL_PAGE)
}

/// Words that a pool lent, and the mapping where they lie. There are none once the pool has taken them back.
struct Lent {
    words: raw::Words,
    _mapping: Arc<Mapping>,
}

// SAFETY: the words are this one's alone until a pool takes them back.
unsafe impl Send for Lent {}
unsafe impl Sync for Lent {}

impl Lent {
    fn is_over(&self) -> bool {
        self.words.at.is_null()
    }

    fn slice(&self) -> &[u64] {
        if self.is_over() {
            return &[];
        }
        // SAFETY: so many words are there, in a mapping that this keeps, and are this one's alone.
        unsafe { slice::from_raw_parts(self.words.at, self.words.count) }
    }

    fn slice_mut(&mut self) -> &mut [u64] {
        if self.is_over() {
            return &mut [];
        }
        // SAFETY: as above.
        unsafe { slice::from_raw_parts_mut(self.words.at, self.words.count) }
    }

    fn bytes_mut(&mut self) -> &mut [u8] {
        let words = self.slice_mut();
        // SAFETY: each word has 8 bytes, and any bytes are words.
        unsafe { slice::from_raw_parts_mut(words.as_mut_ptr().cast(), words.len() * 8) }
    }
}

/// The words of a block while they are lent, as a slice. They may be used beside calls on the pool, and by other threads.
///
/// [`Pool::return_words`] of the pool that lent them takes them back. Where this is dropped instead, they stay lent until the pool is
/// dropped.
///
/// ```compile_fail
/// fn two(words: compactd::BlockWords) -> (compactd::BlockWords, compactd::BlockWords) {
///     (words.clone(), words)
/// }
/// ```
#[must_use = "words that are dropped stay lent until their pool is dropped"]
pub struct BlockWords {
    lent: Lent,
    huge: Huge,
}

impl BlockWords {
    /// The block.
    pub fn huge(&self) -> &Huge {
        &self.huge
    }

    /// The bytes of the words, as for reading a file into them.
    pub fn bytes_mut(&mut self) -> &mut [u8] {
        self.lent.bytes_mut()
    }

    /// Gives the system the memory back that the words take up: that of the pages of 4 KiB that lie in them as a whole. The words of these
    /// pages are 0 then, and the system finds memory for a page when it is next used.
    ///
    /// It fails where the system doesn't take it.
    pub fn release(&mut self) -> io::Result<()> {
        let words = &self.lent.words;
        let before = words.at.cast::<u8>().align_offset(SMALL_PAGE);
        let whole = (words.count * 8).saturating_sub(before) / SMALL_PAGE * SMALL_PAGE;
        if whole == 0 {
            return Ok(());
        }
        // SAFETY: these pages lie in the words, which are this one's alone.
        match unsafe { madvise(words.at.cast::<u8>().wrapping_add(before).cast(), whole, DONT_NEED) } {
            0 => Ok(()),
            _ => Err(io::Error::last_os_error()),
        }
    }
}

impl Deref for BlockWords {
    type Target = [u64];

    fn deref(&self) -> &[u64] {
        self.lent.slice()
    }
}

impl DerefMut for BlockWords {
    fn deref_mut(&mut self) -> &mut [u64] {
        self.lent.slice_mut()
    }
}

impl fmt::Debug for BlockWords {
    fn fmt(&self, f: &mut fmt::Formatter<'_>) -> fmt::Result {
        f.debug_struct("BlockWords").field("huge", &self.huge).finish_non_exhaustive()
    }
}

/// The words of a page that is pinned, while they are lent, as a slice. They may be used beside calls on the pool, and by other threads, or by
/// the kernel, which may read a file straight into them.
///
/// [`Pool::unpin_words`] of the pool that lent them takes them back and the pin off. Where this is dropped instead, the page stays pinned and
/// its words stay lent until the pool is dropped.
///
/// ```compile_fail
/// fn two(words: compactd::PageWords) -> (compactd::PageWords, compactd::PageWords) {
///     (words.clone(), words)
/// }
/// ```
#[must_use = "words that are dropped stay lent until their pool is dropped"]
pub struct PageWords {
    lent: Lent,
    client: u32,
    address: Address,
}

impl PageWords {
    /// The address by which the page was pinned.
    pub fn address(&self) -> Address {
        self.address
    }

    /// The bytes of the words, as for reading a file into them.
    pub fn bytes_mut(&mut self) -> &mut [u8] {
        self.lent.bytes_mut()
    }
}

impl Deref for PageWords {
    type Target = [u64];

    fn deref(&self) -> &[u64] {
        self.lent.slice()
    }
}

impl DerefMut for PageWords {
    fn deref_mut(&mut self) -> &mut [u64] {
        self.lent.slice_mut()
    }
}

impl fmt::Debug for PageWords {
    fn fmt(&self, f: &mut fmt::Formatter<'_>) -> fmt::Result {
        f.debug_struct("PageWords").field("address", &self.address).finish_non_exhaustive()
    }
}

/// Pools in memory that was mapped, and the words of their blocks and pages.
impl Pool {
    /// Opens a pool of any size, as [`Pool::open_sized`] does, whose pages lie in memory that was mapped. The words of its blocks are lent by
    /// [`Pool::block_words`], and those of its pages by [`Pool::pin_words`]. Memory that is refused comes back with the error.
    ///
    /// ```
    /// # use compactd::{Memory, PageSize, Pool, PoolSize};
    /// # fn main() -> Result<(), Box<dyn std::error::Error>> {
    /// let size = PoolSize { blocks: 2, spaces: 1, vpages: 1024 };
    /// let memory = Memory::of_pool(PageSize::Bytes4096, size.blocks)?;
    /// let mut pool = Pool::open_in(PageSize::Bytes4096, size, 0, memory)?;
    ///
    /// let huge = pool.take_huge(9)?;
    /// let mut words = pool.block_words(huge)?;
    /// words[511] = 7;
    /// words[512..1024].fill(8);
    /// let huge = pool.return_words(words)?;
    /// pool.give(huge)?;
    /// let memory = pool.close_in()?;
    /// # drop(memory);
    /// # Ok(())
    /// # }
    /// ```
    ///
    /// Refused as [`Error::Range`], also where the memory has more or fewer words than the pages; or as [`Error::Memory`].
    pub fn open_in(page_size: PageSize, size: PoolSize, places: u32, memory: Memory) -> Result<Pool, Kept<Memory>> {
        let PoolSize { blocks, spaces, vpages } = size;
        let mut words = raw::Words { at: memory.mapping.at.as_ptr(), count: memory.mapping.words };
        let opened = Pool::of(page_size, |raw| unsafe {
            raw::compactd_open_in(raw, page_size.words(), blocks, spaces, vpages, places, &mut words, memory.is_blank)
        });
        match opened {
            Ok(mut pool) => {
                pool.mapping = Some(memory.mapping);
                Ok(pool)
            }
            // After a refusal for want of memory no clause says that the words are still 0.
            Err(error) => Err(Kept { error, value: Memory { is_blank: memory.is_blank && error != Error::Memory, ..memory } }),
        }
    }

    /// Closes a pool that was opened by [`Pool::open_in`], and returns its memory, which another pool may be opened in. A pool that is refused
    /// comes back with the error.
    ///
    /// Refused as [`Error::OwnMemory`] where it was opened by another call, or as [`Error::Lent`] where words of a block, of a page or of a
    /// move are lent.
    pub fn close_in(mut self) -> Result<Memory, Kept<Pool>> {
        let Some(mapping) = self.mapping.take() else {
            return Err(Kept { error: Error::OwnMemory, value: self });
        };
        let mut words = raw::Words::NONE;
        match done(unsafe { raw::compactd_close_in(&mut self.raw, &mut words) }) {
            Ok(()) => {
                mem::forget(self); // it is closed already
                Ok(Memory { mapping, is_blank: false })
            }
            Err(error) => {
                self.mapping = Some(mapping);
                Err(Kept { error, value: self })
            }
        }
    }

    /// Lends the words of a block. A block that is refused comes back with the error.
    ///
    /// Refused as [`Error::NotHuge`] where another pool handed it out, or as [`Error::OwnMemory`] where the pool wasn't opened by
    /// [`Pool::open_in`].
    pub fn block_words(&mut self, huge: Huge) -> Result<BlockWords, Kept<Huge>> {
        let mut words = raw::Words::NONE;
        let lent =
            self.own(&huge).and_then(|()| done(unsafe { raw::compactd_block_words(&mut self.raw, huge.first, huge.order, &mut words) }));
        match (lent, &self.mapping) {
            (Ok(()), Some(mapping)) => Ok(BlockWords { lent: Lent { words, _mapping: Arc::clone(mapping) }, huge }),
            (answer, _) => Err(Kept { error: answer.err().unwrap_or(Error::OwnMemory), value: huge }),
        }
    }

    /// Takes the words of a block back, and returns the block, which has the words that were left there. Words that are refused come back with
    /// the error.
    ///
    /// Refused as [`Error::NotHuge`] where another pool lent them.
    pub fn return_words(&mut self, mut words: BlockWords) -> Result<Huge, Kept<BlockWords>> {
        let (first, order) = (words.huge.first, words.huge.order);
        let returned = self
            .own(&words.huge)
            .and_then(|()| done(unsafe { raw::compactd_return_block(&mut self.raw, first, order, &mut words.lent.words) }));
        match returned {
            Ok(()) => Ok(words.huge),
            Err(error) => Err(Kept { error, value: words }),
        }
    }

    /// Pins a page and lends its words. Until they come back, loads, stores, reads and writes of the page are refused as [`Error::Lent`], at each
    /// of its addresses, and no call takes its last pin off. Where lending is refused, the page has no more pins than before.
    ///
    /// ```
    /// # use compactd::{Address, Error, Memory, PageSize, Pool, PoolSize};
    /// # fn main() -> Result<(), Box<dyn std::error::Error>> {
    /// # let size = PoolSize { blocks: 1, spaces: 1, vpages: 1024 };
    /// # let memory = Memory::of_pool(PageSize::Bytes4096, size.blocks)?;
    /// # let mut pool = Pool::open_in(PageSize::Bytes4096, size, 0, memory)?;
    /// let at = Address::new(0, 9);
    /// pool.map(0, at, false)?;
    /// let mut words = pool.pin_words(0, at)?;
    /// words.fill(7);
    /// assert_eq!(pool.load(0, at, 5), Err(Error::Lent));
    /// pool.unpin_words(words)?;
    /// assert_eq!(pool.load(0, at, 5), Ok(7));
    /// # Ok(())
    /// # }
    /// ```
    ///
    /// Refused as [`Pool::pin`] is; then as [`Error::Moving`], as [`Error::Lent`] where they are lent already, or as [`Error::OwnMemory`] where the
    /// pool wasn't opened by [`Pool::open_in`]. Where the journal has no place for taking the pin off again, it stays, and this is refused as
    /// [`Error::JournalFull`].
    pub fn pin_words(&mut self, client: u32, at: Address) -> Result<PageWords, Error> {
        self.pin(client, at)?;
        let mut words = raw::Words::NONE;
        let lent = done(unsafe { raw::compactd_page_words(&mut self.raw, at.space, at.vpage, &mut words) });
        match (lent, &self.mapping) {
            (Ok(()), Some(mapping)) => Ok(PageWords { lent: Lent { words, _mapping: Arc::clone(mapping) }, client, address: at }),
            (answer, _) => {
                self.unpin(client, at)?;
                Err(answer.err().unwrap_or(Error::OwnMemory))
            }
        }
    }

    /// Takes the words of a page back, and a pin off it. The page has the words that were left there, as if the client who pinned it had stored
    /// each of them. Words that are refused come back with the error.
    ///
    /// Refused as [`Error::Unmapped`] where the address by which the page was pinned doesn't name it any more, or another pool lent the words; or as
    /// [`Error::JournalFull`]: where the journal had room for the words alone, they are back, this is empty, and the pin stays.
    pub fn unpin_words(&mut self, mut words: PageWords) -> Result<(), Kept<PageWords>> {
        let returned = if words.lent.is_over() { Ok(()) } else { self.return_page(&mut words) };
        let ended = returned.and_then(|()| self.unpin(words.client, words.address));
        ended.map_err(|error| Kept { error, value: words })
    }

    fn return_page(&mut self, words: &mut PageWords) -> Result<(), Error> {
        let Address { space, vpage } = words.address;
        if self.words_at(words.address)? != words.lent.words.at {
            return Err(Error::Unmapped);
        }
        done(unsafe { raw::compactd_return_page(&mut self.raw, words.client, space, vpage, &mut words.lent.words) })
    }

    /// Where the words of the page of an address lie: a page whose words are lent has a pin, so it stays there.
    fn words_at(&mut self, at: Address) -> Result<*mut u64, Error> {
        match (self.look(at)?.place, &self.mapping) {
            (Place::At { frame, .. }, Some(mapping)) => {
                Ok(mapping.at.as_ptr().wrapping_add(frame as usize * self.page_size().words() as usize))
            }
            _ => Err(Error::Unmapped),
        }
    }
}
