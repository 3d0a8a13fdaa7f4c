//! Calls a second, from Rust, by the crate `compactd`: the rows of `bench/c_calls.c` on pages of 64 bytes, with a journal. For each row it
//! prints what was called, a tab, and how many millions a second: the best of many runs, each on a fresh pool of 4,096 frames.

use std::time::{Duration, Instant};

use compactd::{Address, Error, Huge, PageSize, Pool};

const CALLS: u32 = 60_000; // for whose records a journal has places
const PLACES: u32 = 65_536;
const RUNS: u32 = 40;
const PAGES: u32 = 1024;

fn page(i: u32) -> Address {
    Address::new(0, i * 37 % PAGES)
}

fn open() -> Result<Pool, Error> {
    Pool::open_journal(PageSize::Bytes64, 8, PLACES)
}

/// A pool with 1,024 pages.
fn filled() -> Result<Pool, Error> {
    let mut pool = open()?;
    (0..PAGES).try_for_each(|page| pool.map(0, Address::new(0, page), false).map(drop))?;
    Ok(pool)
}

/// A pool in which every fourth of 4,096 pages is there.
fn scattered() -> Result<Pool, Error> {
    let mut pool = open()?;
    (0..4096).try_for_each(|page| pool.map(0, Address::new(0, page), false).map(drop))?;
    (0..4096).filter(|page| page % 4 != 0).try_for_each(|page| pool.unmap(0, Address::new(0, page)))?;
    Ok(pool)
}

/// How long work on a pool takes.
fn timed(mut pool: Pool, work: impl FnOnce(&mut Pool) -> Result<(), Error>) -> Result<Duration, Error> {
    let begun = Instant::now();
    work(&mut pool)?;
    Ok(begun.elapsed())
}

fn tell(what: &str, count: u32, mut run: impl FnMut() -> Result<Duration, Error>) -> Result<(), Error> {
    let times: Vec<Duration> = (0..RUNS).map(|_| run()).collect::<Result<_, _>>()?;
    let best = times.into_iter().min().map_or(f64::INFINITY, |time| time.as_secs_f64());
    println!("{what}\t{:.2}", f64::from(count) / best / 1e6);
    Ok(())
}

fn measure(what: &str, call: impl Fn(&mut Pool, u32) -> Result<(), Error>) -> Result<(), Error> {
    tell(what, CALLS, || timed(filled()?, |pool| (0..CALLS).try_for_each(|i| call(pool, i))))
}

fn map_or_unmap(pool: &mut Pool, i: u32) -> Result<(), Error> {
    match i % 2 {
        0 => pool.map(0, Address::new(1, i % 4096), false).map(drop),
        _ => pool.unmap(0, Address::new(1, (i - 1) % 4096)),
    }
}

fn take_and_give(pool: &mut Pool) -> Result<(), Error> {
    let huge: Huge = pool.take_huge(9)?;
    Ok(pool.give(huge)?)
}

fn main() -> Result<(), Error> {
    measure("load", |pool, i| pool.load(0, page(i), i % 8).map(drop))?;
    measure("store", |pool, i| pool.store(0, page(i), i % 8, u64::from(i)))?;
    measure("map or unmap", map_or_unmap)?;
    measure("look", |pool, i| pool.look(page(i)).map(drop))?;
    tell("take or give a pageblock", CALLS, || timed(filled()?, |pool| (0..CALLS / 2).try_for_each(|_| take_and_give(pool))))?;
    tell("page of a round", 768, || timed(scattered()?, Pool::compact))
}
