//! A host whose memory is 64 MiB that it mapped: 32 pageblocks of 512 pages of 4 KiB. It fills all of it with pages, and frees three of four,
//! wherever they lie. Then it takes as many huge blocks as there can be, for which the pages that are left move together. It gives the
//! memory of half of the blocks back to the system, and writes the others as slices. Each page and each block keeps its words. How much memory
//! is resident, and how long a read takes, goes to standard error. `c/examples/host.c` does the same in C.

use std::error::Error;
use std::fs;
use std::time::Instant;

use compactd::{Address, BlockWords, Huge, Memory, PageSize, Pool, PoolSize, Reserved};

const PAGE_WORDS: usize = 512;
const SIZE: PoolSize = PoolSize { blocks: 32, spaces: 1, vpages: PAGES };
const PAGES: u32 = 32 * 512;
const KEPT: u32 = PAGES / 4;
const ORDER: u32 = 9;
const READS: u32 = 200_000;

type Answer<T> = Result<T, Box<dyn Error>>;

/// Numbers that come by chance, and are the same in each run.
struct Chance(u32);

impl Chance {
    fn below(&mut self, count: u32) -> usize {
        self.0 = self.0.wrapping_mul(1_664_525).wrapping_add(1_013_904_223);
        ((self.0 >> 8) % count) as usize
    }
}

/// The word at a place of a page or a block.
fn word_of(number: u32, place: usize) -> u64 {
    (u64::from(number) << 32) + place as u64
}

fn have_words(words: &[u64], number: u32) -> bool {
    words.iter().enumerate().all(|(place, word)| *word == word_of(number, place))
}

fn write_words(words: &mut [u64], number: u32) {
    words.iter_mut().enumerate().for_each(|(place, word)| *word = word_of(number, place));
}

// The pages.

fn fill(pool: &mut Pool) -> Answer<()> {
    let mut words = [0; PAGE_WORDS];
    for page in 0..PAGES {
        write_words(&mut words, page);
        pool.map(0, Address::new(0, page), false)?;
        pool.write(0, Address::new(0, page), 0, &words)?;
    }
    Ok(())
}

/// Unmaps three of four pages, and returns the others.
fn free_pages(pool: &mut Pool, chance: &mut Chance) -> Answer<Vec<u32>> {
    let mut pages: Vec<u32> = (0..PAGES).collect();
    while pages.len() > KEPT as usize {
        let at = chance.below(pages.len() as u32);
        pool.unmap(0, Address::new(0, pages.swap_remove(at)))?;
    }
    Ok(pages)
}

fn are_well(pool: &mut Pool, pages: &[u32]) -> Answer<bool> {
    let mut words = [0; PAGE_WORDS];
    let mut are_well = true;
    for &page in pages {
        pool.read(0, Address::new(0, page), 0, &mut words)?;
        are_well &= have_words(&words, page);
    }
    Ok(are_well)
}

// The blocks.

/// As many blocks as there can be.
fn take_blocks(pool: &mut Pool) -> Answer<Reserved> {
    Ok((1..=SIZE.blocks as usize).rev().find_map(|count| pool.reserve(count, ORDER).ok()).ok_or("there is no block")?)
}

/// Borrows the words of each block.
fn lent(pool: &mut Pool, blocks: Vec<Huge>) -> Answer<Vec<BlockWords>> {
    blocks.into_iter().map(|block| Ok(pool.block_words(block)?)).collect()
}

fn return_all(pool: &mut Pool, blocks: Vec<BlockWords>) -> Answer<()> {
    for words in blocks {
        let _stays_handed_out = pool.return_words(words)?;
    }
    Ok(())
}

// What goes to standard error.

/// How many MiB are resident, and how many of the process lie in huge pages of the processor.
fn tell_memory(when: &str) -> Answer<()> {
    let (counts, maps) = (fs::read_to_string("/proc/self/statm")?, fs::read_to_string("/proc/self/smaps")?);
    let resident: u64 = counts.split(' ').nth(1).ok_or("statm has no second number")?.parse()?;
    let of_line = |line: &str| line.strip_prefix("AnonHugePages:")?.trim().strip_suffix(" kB")?.parse::<u64>().ok();
    let huge: u64 = maps.lines().filter_map(of_line).sum();
    eprintln!("{when}: {} MiB are resident, {} MiB lie in huge pages", resident / 256, huge / 1024);
    Ok(())
}

/// Random words of pages by calls, and of blocks by slices.
fn time_reads(pool: &mut Pool, pages: &[u32], blocks: &[BlockWords], chance: &mut Chance) -> Answer<()> {
    let (begun, mut sum) = (Instant::now(), 0u64);
    for _ in 0..READS {
        let page = pages[chance.below(KEPT)];
        sum = sum.wrapping_add(pool.load(0, Address::new(0, page), chance.below(PAGE_WORDS as u32) as u32)?);
    }
    let by_call = begun.elapsed().as_nanos() as f64;
    let begun = Instant::now();
    for _ in 0..READS {
        let block = &blocks[chance.below(blocks.len() as u32)];
        sum = sum.wrapping_add(block[chance.below(block.len() as u32)]);
    }
    let by_slice = begun.elapsed().as_nanos() as f64;
    let reads = f64::from(READS);
    let (by_call, by_slice) = (by_call / reads, by_slice / reads);
    eprintln!("a read takes {by_call:.1} ns in a page by a call, and {by_slice:.1} ns in a block by the slice ({})", sum & 1);
    Ok(())
}

fn yes_or_no(is_so: bool) -> &'static str {
    if is_so {
        "yes"
    } else {
        "no"
    }
}

/// What the host does with a pool that is full of pages.
fn run(pool: &mut Pool) -> Answer<()> {
    let mut chance = Chance(1);
    let pages = free_pages(pool, &mut chance)?;
    let counts = pool.info();
    println!("{} of {PAGES} pages are left, {} pageblocks are free as a whole", counts.pages, counts.whole);
    tell_memory("before")?;
    let taken = take_blocks(pool)?;
    println!("{} huge blocks were taken, for which {} pages moved", taken.blocks.len(), taken.moved);

    let mut released = lent(pool, taken.blocks)?;
    let mut written = released.split_off(released.len() / 2);
    released.iter_mut().try_for_each(BlockWords::release)?;
    (0..).zip(&mut written).for_each(|(number, words)| write_words(words, number));
    println!("the memory of {} blocks is the system's, {} are written", released.len(), written.len());
    tell_memory("after")?;
    time_reads(pool, &pages, &written, &mut chance)?;

    println!("each page has its words: {}", yes_or_no(are_well(pool, &pages)?));
    let are_zeros = released.iter().all(|words| words.iter().all(|word| *word == 0));
    let are_written = (0..).zip(&written).all(|(number, words)| have_words(words, number));
    println!("each block has its words: {}", yes_or_no(are_zeros && are_written));
    return_all(pool, released)?;
    return_all(pool, written)
}

fn main() -> Answer<()> {
    let memory = Memory::of_pool(PageSize::Bytes4096, SIZE.blocks)?;
    let mut pool = Pool::open_in(PageSize::Bytes4096, SIZE, 0, memory)?;
    fill(&mut pool)?;
    run(&mut pool)?;
    let memory = pool.close_in()?;
    println!("the memory came back: {}", yes_or_no(memory.words() == PAGES as usize * PAGE_WORDS));
    Ok(())
}
