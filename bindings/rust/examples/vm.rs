//! Guests of a virtual machine monitor want huge pages, while the host has small pages all over its memory. Without a round no guest
//! gets one. After a round each does, writes all of its memory and reads it again, and the host's pages have the words that they had.
//! `c/examples/vm.cpp` does the same in C++.

use compactd::{Address, Error, Huge, PageSize, Pool};

const BLOCKS: u32 = 8;
const FRAMES: u32 = 512 * BLOCKS;
/// Which frames the host's pages are in: the first of each so many.
const APART: usize = 8;
/// The words of a huge page.
const HUGE_WORDS: usize = 512 * 512;
const GUESTS: u64 = 3;
const HUGE_PAGES: usize = 2;
const HOST: u32 = 0;

fn frames_of_host() -> impl Iterator<Item = u32> {
    (0..FRAMES).step_by(APART)
}

/// A pool with the host's pages.
fn fragmented() -> Result<Pool, Error> {
    let mut pool = Pool::open(PageSize::Bytes4096, BLOCKS)?;
    for frame in frames_of_host() {
        pool.map_at(HOST, Address::new(0, frame), false, frame)?;
        pool.store(HOST, Address::new(0, frame), 511, u64::from(frame) + 1)?;
    }
    Ok(pool)
}

fn host_has_its_words(pool: &mut Pool) -> Result<bool, Error> {
    for frame in frames_of_host() {
        if pool.load(HOST, Address::new(0, frame), 511)? != u64::from(frame) + 1 {
            return Ok(false);
        }
    }
    Ok(true)
}

/// A guest with its memory.
struct Guest {
    number: u64,
    memory: Vec<Huge>,
}

impl Guest {
    /// A guest with as many huge pages as it gets, and at most those that it wants.
    fn start(pool: &mut Pool, number: u64) -> Result<Guest, Error> {
        let mut memory = Vec::new();
        while memory.len() < HUGE_PAGES {
            match pool.take_huge(9) {
                Ok(huge) => memory.push(huge),
                Err(Error::NoBlock) => break,
                Err(error) => return Err(error),
            }
        }
        Ok(Guest { number, memory })
    }

    /// The words that it writes into a huge page of its memory: each word is another one.
    fn words(&self, page: usize) -> Vec<u64> {
        let first = (self.number << 32) + (page * HUGE_WORDS) as u64;
        (first..).take(HUGE_WORDS).collect()
    }

    fn write(&self, pool: &mut Pool) -> Result<(), Error> {
        for (page, huge) in self.memory.iter().enumerate() {
            pool.write_huge(huge, 0, &self.words(page))?;
        }
        Ok(())
    }

    fn has_its_words(&self, pool: &mut Pool) -> Result<bool, Error> {
        let mut found = vec![0; HUGE_WORDS];
        for (page, huge) in self.memory.iter().enumerate() {
            pool.read_huge(huge, 0, &mut found)?;
            if found != self.words(page) {
                return Ok(false);
            }
        }
        Ok(true)
    }

    /// Gives its memory back.
    fn end(self, pool: &mut Pool) -> Result<(), Error> {
        for huge in self.memory {
            pool.give(huge)?;
        }
        Ok(())
    }
}

fn start_guests(pool: &mut Pool) -> Result<Vec<Guest>, Error> {
    let mut guests = Vec::new();
    for number in 1..=GUESTS {
        let guest = Guest::start(pool, number)?;
        guest.write(pool)?;
        guests.push(guest);
    }
    Ok(guests)
}

/// Tells what each guest has, once all have written, so that none has written into the memory of another.
fn tell_guests(pool: &mut Pool, guests: &[Guest]) -> Result<(), Error> {
    for guest in guests {
        let (number, pages) = (guest.number, guest.memory.len());
        let words = match guest.has_its_words(pool)? {
            true if pages == 0 => "",
            true => ", and each word that it wrote",
            false => ", and not the words that it wrote",
        };
        println!("  guest {number} has {pages} huge pages{words}");
    }
    Ok(())
}

fn end_guests(pool: &mut Pool, guests: Vec<Guest>) -> Result<(), Error> {
    guests.into_iter().try_for_each(|guest| guest.end(pool))
}

fn run(how: &str, mut pool: Pool) -> Result<(), Error> {
    println!("{how}: {} pageblocks free as a whole", pool.info().whole);
    let guests = start_guests(&mut pool)?;
    tell_guests(&mut pool, &guests)?;
    let words = if host_has_its_words(&mut pool)? { "their words" } else { "other words" };
    println!("  the host's pages have {words}");
    end_guests(&mut pool, guests)?;
    println!("  without the guests: {} pageblocks free as a whole", pool.info().whole);
    Ok(())
}

fn main() -> Result<(), Error> {
    run("without a round", fragmented()?)?;
    let mut pool = fragmented()?;
    pool.compact()?;
    run("with a round", pool)
}
