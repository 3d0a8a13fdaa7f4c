//! The buffers of a database: pages of 4 KiB of a pool that lies in memory of its own, into which the kernel reads a file without a copy. The
//! file has 16 MiB. All of it is read in random order. Then half of the buffers are given up, wherever they lie, and 4,096 pages are fetched,
//! half of which have to be read again. A buffer is pinned from when it is fetched until 8 others were, and its words are lent meanwhile. A
//! thread keeps two huge blocks ready: it moves the buffers that have no pin. Each 256 pages a block is taken for a scan, and given back. Each
//! word tells its place in the file. How long a read takes, and how many pages moved, goes to standard error. `c/examples/database.c` does
//! the same in C.

use std::error::Error;
use std::fs::{remove_file, File, OpenOptions};
use std::io::{self, Write};
use std::os::unix::fs::{FileExt, OpenOptionsExt};
use std::sync::{Condvar, Mutex, MutexGuard, PoisonError};
use std::time::Instant;
use std::{env, process, thread};

use compactd::{Address, Keeper, Memory, PageSize, PageWords, Pool, PoolSize};

const SIZE: PoolSize = PoolSize { blocks: 8, spaces: 1, vpages: PAGES };
const PAGES: u32 = 8 * 512; // of the pool, and of the file
const CACHED: usize = PAGES as usize / 2;
const PAGE_WORDS: usize = 512;
const PINNED: usize = 8;
const SCAN_EACH: usize = 256;
const ORDER: u32 = 9;
const O_DIRECT: i32 = 0x4000;

type Answer<T> = Result<T, Box<dyn Error>>;

/// Numbers that come by chance, and are the same in each run.
struct Chance(u32);

impl Chance {
    fn below(&mut self, count: usize) -> usize {
        self.0 = self.0.wrapping_mul(1_664_525).wrapping_add(1_013_904_223);
        (self.0 >> 8) as usize % count
    }
}

/// A file in a temporary folder, which has no name any more. Reads of it go past the cache of the system, where that can be.
struct Pages {
    file: File,
    direct: Option<File>,
    reads: u32,
    reading: f64, // ns
}

impl Pages {
    fn write() -> Answer<Pages> {
        let name = env::temp_dir().join(format!("compactd-{}", process::id()));
        let mut file = OpenOptions::new().read(true).write(true).create_new(true).open(&name)?;
        let words: Vec<u8> = (0..u64::from(PAGES) * PAGE_WORDS as u64).flat_map(u64::to_ne_bytes).collect();
        let written = file.write_all(&words).and_then(|()| file.sync_all());
        let direct = OpenOptions::new().read(true).custom_flags(O_DIRECT).open(&name).ok();
        remove_file(&name)?;
        written?;
        Ok(Pages { file, direct, reads: 0, reading: 0.0 })
    }

    /// Reads pages, one after the other, into words of the pool.
    fn read(&mut self, page: u32, into: &mut [u8]) -> io::Result<()> {
        let (begun, from) = (Instant::now(), u64::from(page) * PAGE_WORDS as u64 * 8);
        match &self.direct {
            Some(direct) if direct.read_exact_at(into, from).is_ok() => {}
            _ => self.file.read_exact_at(into, from)?,
        }
        self.reading += begun.elapsed().as_nanos() as f64;
        self.reads += 1;
        Ok(())
    }
}

fn have_words(words: &[u64], page: u32) -> bool {
    (u64::from(page) * PAGE_WORDS as u64..).zip(words).all(|(wanted, word)| wanted == *word)
}

/// What threads share: each call on the pool is made under the lock.
struct Service {
    pool: Pool,
    keeper: Keeper,
    moved: u64,
    is_over: bool,
}

struct Shared {
    service: Mutex<Service>,
    changed: Condvar, // there may be more for the keeper to do
}

impl Shared {
    fn lock(&self) -> MutexGuard<'_, Service> {
        self.service.lock().unwrap_or_else(PoisonError::into_inner)
    }

    /// What the keeper's thread does.
    fn keep(&self) -> Result<(), compactd::Error> {
        let mut held = self.lock();
        while !held.is_over {
            let Service { pool, keeper, moved, .. } = &mut *held;
            let step = keeper.step(pool, 16)?;
            *moved += u64::from(step.moved);
            if !step.more {
                held = self.changed.wait(held).unwrap_or_else(PoisonError::into_inner);
            }
            drop(held); // so that the reader may have it
            held = self.lock();
        }
        Ok(())
    }

    fn wake_keeper(&self, is_end: bool) {
        self.lock().is_over = is_end;
        self.changed.notify_one();
    }
}

/// The buffers.
struct Buffers<'a> {
    shared: &'a Shared,
    file: Pages,
    chance: Chance,
    cached: Vec<u32>, // the pages of the file that have a buffer, in no order
    pinned: [Option<PageWords>; PINNED],
    read_again: u32,
    scans: u32,
    is_well: bool,
}

impl Buffers<'_> {
    fn unpin(&mut self, at: usize) -> Answer<()> {
        Ok(self.pinned[at].take().map_or(Ok(()), |words| self.shared.lock().pool.unpin_words(words))?)
    }

    fn unpin_all(&mut self) -> Answer<()> {
        (0..PINNED).try_for_each(|at| self.unpin(at))
    }

    fn is_pinned(&self, page: u32) -> bool {
        self.pinned.iter().flatten().any(|words| words.address().vpage == page)
    }

    /// Pins a buffer in this place of the pinned ones.
    fn pin(&mut self, page: u32, at: usize) -> Answer<PageWords> {
        self.unpin(at)?;
        Ok(self.shared.lock().pool.pin_words(0, Address::new(0, page))?)
    }

    fn keep_pinned(&mut self, words: PageWords, at: usize) {
        self.is_well &= have_words(&words, words.address().vpage);
        self.pinned[at] = Some(words);
    }

    /// A page of the file gets a buffer, and the kernel reads the page straight into it.
    fn read(&mut self, page: u32, at: usize) -> Answer<()> {
        self.shared.lock().pool.map(0, Address::new(0, page), false)?;
        self.cached.push(page);
        let mut words = self.pin(page, at)?;
        self.file.read(page, words.bytes_mut())?;
        self.keep_pinned(words, at);
        Ok(())
    }

    /// Gives up a buffer that isn't pinned.
    fn give_up(&mut self) -> Answer<()> {
        let at = loop {
            let at = self.chance.below(self.cached.len());
            if !self.is_pinned(self.cached[at]) {
                break at;
            }
        };
        let page = self.cached.swap_remove(at);
        Ok(self.shared.lock().pool.unmap(0, Address::new(0, page))?)
    }

    /// Reads the whole file in random order, and gives up half of the buffers.
    fn fill(&mut self) -> Answer<()> {
        let mut order: Vec<u32> = (0..PAGES).collect();
        for at in 0..order.len() {
            let other = self.chance.below(at + 1);
            order.swap(at, other);
        }
        for (at, page) in order.into_iter().enumerate() {
            self.read(page, at % PINNED)?;
        }
        self.unpin_all()?;
        while self.cached.len() > CACHED {
            self.give_up()?;
        }
        Ok(())
    }

    /// Pins a page of the file, which takes the buffer of another page where it has none.
    fn fetch(&mut self, page: u32, at: usize) -> Answer<()> {
        if self.is_pinned(page) {
            return Ok(());
        }
        if self.cached.contains(&page) {
            let words = self.pin(page, at)?;
            self.keep_pinned(words, at);
            return Ok(());
        }
        self.read_again += 1;
        self.give_up()?;
        self.read(page, at)
    }

    /// Reads as many pages of the file as a huge block has, one after the other, by one call.
    fn scan(&mut self) -> Answer<()> {
        let page = self.chance.below(SIZE.blocks as usize) as u32 * 512;
        self.unpin_all()?;
        let mut words = {
            let Service { pool, keeper, moved, .. } = &mut *self.shared.lock();
            let taken = keeper.take(pool)?;
            *moved += u64::from(taken.moved);
            pool.block_words(taken.block)?
        };
        self.file.read(page, words.bytes_mut())?;
        self.is_well &= have_words(&words, page);
        self.scans += 1;
        let pool = &mut self.shared.lock().pool;
        let block = pool.return_words(words)?;
        Ok(pool.give(block)?)
    }

    fn serve(&mut self) -> Answer<()> {
        for made in 1..=PAGES as usize {
            let page = self.chance.below(PAGES as usize) as u32;
            self.fetch(page, made % PINNED)?;
            if made % SCAN_EACH == 0 {
                self.scan()?;
            }
            self.shared.wake_keeper(false);
        }
        self.unpin_all()
    }
}

/// Serves while the keeper moves buffers that have no pin.
fn serve_beside_keeper(buffers: &mut Buffers) -> Answer<()> {
    let shared = buffers.shared;
    thread::scope(|threads| {
        let keeper = threads.spawn(|| shared.keep());
        let served = buffers.serve();
        shared.wake_keeper(true);
        keeper.join().map_err(|_| "the keeper panicked")??;
        served
    })
}

fn yes_or_no(is_so: bool) -> &'static str {
    if is_so {
        "yes"
    } else {
        "no"
    }
}

fn run(shared: &Shared) -> Answer<()> {
    let (file, chance, pinned) = (Pages::write()?, Chance(1), Default::default());
    let mut buffers = Buffers { shared, file, chance, cached: vec![], pinned, read_again: 0, scans: 0, is_well: true };
    buffers.fill()?;
    println!("{PAGES} pages were read into the pool, {} buffers are left", buffers.cached.len());
    serve_beside_keeper(&mut buffers)?;
    let Buffers { file, read_again, scans, is_well, .. } = buffers;
    println!("{PAGES} pages were fetched, {read_again} of them from the file, and {scans} blocks were read by scans");
    println!("each word is at its place: {}", yes_or_no(is_well));
    eprintln!("a read takes {:.0} ns, {} pages moved", file.reading / f64::from(file.reads), shared.lock().moved);
    Ok(())
}

fn main() -> Answer<()> {
    let pool = Pool::open_in(PageSize::Bytes4096, SIZE, 0, Memory::of_pool(PageSize::Bytes4096, SIZE.blocks)?)?;
    let service = Mutex::new(Service { pool, keeper: Keeper::new(ORDER, 2), moved: 0, is_over: false });
    let shared = Shared { service, changed: Condvar::new() };
    run(&shared)?;
    let Service { mut pool, mut keeper, .. } = shared.service.into_inner()?;
    keeper.close(&mut pool)?;
    println!("the memory came back: {}", yes_or_no(pool.close_in()?.words() == PAGES as usize * PAGE_WORDS));
    Ok(())
}
