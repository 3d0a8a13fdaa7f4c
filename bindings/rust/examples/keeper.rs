//! A client maps and unmaps pages all the time, and now and then it wants a block of 512 frames. First each block is reserved when it is
//! wanted. Then a thread keeps two blocks ready: it moves 32 pages at most each time that it has the lock, and sleeps while there is no
//! more to do. The pages keep their words. How long a request takes goes to standard error. `c/examples/keeper.cpp` does the same in C++.

use compactd::{Address, Error, Huge, Keeper, PageSize, Pool};
use std::sync::{Condvar, Mutex};
use std::time::Instant;

const ADDRESSES: usize = 8 * 4096;
const PAGES: usize = ADDRESSES / 5 * 4;
const REQUESTS: usize = 200;

struct Service {
    pool: Pool,
    keeper: Keeper,
    addresses: Vec<u32>, // first those of pages
    held: Vec<Huge>,
    random: u64,
    is_over: bool,
    is_well: bool,
}

impl Service {
    fn open(kept: usize) -> Result<Service, Error> {
        let (pool, keeper, addresses) = (Pool::open(PageSize::Bytes4096, 64)?, Keeper::new(9, kept), (0..).take(ADDRESSES).collect());
        let mut service = Service { pool, keeper, addresses, held: vec![], random: 1, is_over: false, is_well: true };
        (0..ADDRESSES).try_for_each(|place| service.map(place))?;
        for place in (PAGES..ADDRESSES).rev() {
            let other = service.below(place + 1);
            service.unmap(other, place)?;
        }
        Ok(service)
    }

    fn below(&mut self, limit: usize) -> usize {
        self.random = self.random.wrapping_mul(6_364_136_223_846_793_005).wrapping_add(1);
        (self.random >> 33) as usize % limit
    }

    fn at(&self, place: usize) -> (Address, u64) {
        (Address::new(self.addresses[place] % 8, self.addresses[place] / 8), u64::from(self.addresses[place]) + 1)
    }

    fn map(&mut self, place: usize) -> Result<(), Error> {
        let (address, word) = self.at(place);
        self.pool.map(0, address, false)?;
        self.pool.store(0, address, 511, word)
    }

    fn unmap(&mut self, place: usize, other: usize) -> Result<(), Error> {
        let (address, word) = self.at(place);
        self.is_well &= self.pool.load(0, address, 511)? == word;
        self.addresses.swap(place, other);
        self.pool.unmap(0, address)
    }

    /// An address gets no page any more, and another one gets one.
    fn turn(&mut self) -> Result<(), Error> {
        let (place, other) = (self.below(PAGES), PAGES + self.below(ADDRESSES - PAGES));
        self.unmap(place, other)?;
        self.map(place)
    }

    /// Gets a block. The oldest of more than eight goes back.
    fn ask(&mut self) -> Result<(), Error> {
        self.held.push(self.keeper.take(&mut self.pool)?.block);
        let oldest = (self.held.len() > 8).then(|| self.held.remove(0));
        Ok(oldest.map_or(Ok(()), |block| self.pool.give(block))?)
    }

    /// Gives everything back, and tells what came of it.
    fn end(mut self, how: &str, mut times: Vec<f64>) -> Result<(), Error> {
        self.keeper.close(&mut self.pool)?;
        self.held.drain(..).try_for_each(|block| self.pool.give(block))?;
        (0..PAGES).try_for_each(|place| self.unmap(place, place))?;
        let told = if self.is_well && self.pool.info().whole == 64 { "and each word as it was" } else { "not well" };
        println!("{how}: {} blocks, {told}", times.len());
        times.sort_by(f64::total_cmp);
        eprintln!("{how}: median {:.0} us, 99th percentile {:.0} us", times[REQUESTS / 2], times[REQUESTS / 100 * 99]);
        Ok(())
    }
}

/// What the keeper's thread does.
fn keep(service: &Mutex<Service>, changed: &Condvar) -> Result<(), Error> {
    let mut held = service.lock().unwrap();
    while !held.is_over {
        let Service { pool, keeper, .. } = &mut *held;
        if !keeper.step(pool, 32)?.more {
            held = changed.wait(held).unwrap();
        }
        drop(held); // so that others may have it
        held = service.lock().unwrap();
    }
    Ok(())
}

/// 200 turns and a request, and how many microseconds that took.
fn serve(service: &Mutex<Service>, changed: &Condvar) -> Result<f64, Error> {
    (0..200).try_for_each(|_| service.lock().unwrap().turn())?;
    let begun = Instant::now();
    service.lock().unwrap().ask()?;
    changed.notify_one();
    Ok(begun.elapsed().as_secs_f64() * 1e6)
}

fn main() -> Result<(), Error> {
    for (how, kept) in [("reserved when they are wanted", 0), ("kept ready", 2)] {
        let (service, changed) = (Mutex::new(Service::open(kept)?), Condvar::new());
        let times = std::thread::scope(|threads| {
            let keeper = threads.spawn(|| keep(&service, &changed));
            let times = (0..REQUESTS).map(|_| serve(&service, &changed)).collect();
            service.lock().unwrap().is_over = true;
            changed.notify_one();
            keeper.join().unwrap().and(times)
        })?;
        service.into_inner().unwrap().end(how, times)?;
    }
    Ok(())
}
