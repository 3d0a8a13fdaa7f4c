//! The buffers of a database. Each page is a buffer with a balance in its first word. Four threads transfer money between buffers: they
//! pin both, so that these stay where they are, read and write them, and take the pins off. Beside them rounds move pages, which further
//! threads carry. The threads share the pool by a mutex. A buffer that is moving is tried again. The sum of all balances stays.
//! `c/examples/buffers.c` does the same in C.

use std::sync::mpsc::{sync_channel, Receiver, RecvError, SyncSender};
use std::sync::{Arc, Mutex};
use std::thread::{self, ScopedJoinHandle};

use compactd::{Address, Error, MovingGuard, PageSize, Pool};

const BLOCKS: u32 = 4;
const BUFFERS: u32 = 1024;
const BALANCE: u64 = 100;
const CLIENTS: u32 = 4;
const TRANSFERS: u32 = 5000;
const ROUNDS: u32 = 20;
/// The threads that carry the pages of a round, and how many pages may wait for them.
const CARRIERS: usize = 2;
const WAITING: usize = 8;
/// The pages that are there in each round besides the buffers, and the client that maps them.
const OTHERS: u32 = 100;
const OTHER_CLIENT: u32 = 7;

type Threads<'scope> = Vec<ScopedJoinHandle<'scope, Result<(), Error>>>;

// The buffers.

/// Every second page is a buffer, so that no pageblock is free as a whole.
fn buffer(number: u32) -> Address {
    Address::new(0, 2 * number)
}

fn between(number: u32) -> Address {
    Address::new(0, 2 * number + 1)
}

fn open_buffers() -> Result<Pool, Error> {
    let mut pool = Pool::open(PageSize::Bytes4096, BLOCKS)?;
    for number in 0..BUFFERS {
        pool.map(0, buffer(number), false)?;
        pool.map(0, between(number), false)?;
        pool.store(0, buffer(number), 0, BALANCE)?;
    }
    for number in 0..BUFFERS {
        pool.unmap(0, between(number))?;
    }
    Ok(pool)
}

/// The sum of all balances, while no page is moving.
fn sum(pool: &mut Pool) -> Result<u64, Error> {
    (0..BUFFERS).try_fold(0u64, |sum, number| Ok(sum.wrapping_add(pool.load(0, buffer(number), 0)?)))
}

fn tell(when: &str, pool: &mut Pool) -> Result<(), Error> {
    let (counts, sum) = (pool.info(), sum(pool)?);
    let (pages, moving, whole) = (counts.pages, counts.moving, counts.whole);
    println!("{when}: {pages} buffers, {moving} moving, {whole} pageblocks free as a whole, sum {sum}");
    Ok(())
}

// The clients.

/// Makes calls on the pool while no other thread does.
fn with<T>(pool: &Mutex<Pool>, calls: impl FnOnce(&mut Pool) -> T) -> T {
    calls(&mut pool.lock().expect("no thread panics in a call on the pool"))
}

/// Adds an amount to the balance of a buffer.
fn add(pool: &mut Pool, client: u32, at: Address, amount: u64) -> Result<(), Error> {
    let mut words = [0];
    pool.read(client, at, 0, &mut words)?;
    pool.write(client, at, 0, &[words[0].wrapping_add(amount)])
}

/// The same of a buffer that is pinned. While its page is moving, the others have the pool: it is soon put back.
fn add_to_pinned(pool: &Mutex<Pool>, client: u32, at: Address, amount: u64) -> Result<(), Error> {
    loop {
        match with(pool, |pool| add(pool, client, at, amount)) {
            Err(Error::Moving) => thread::yield_now(),
            answer => return answer,
        }
    }
}

fn pin(pool: &mut Pool, client: u32, from: Address, to: Address) -> Result<(), Error> {
    pool.pin(client, from)?;
    pool.pin(client, to)
}

fn unpin(pool: &mut Pool, client: u32, from: Address, to: Address) -> Result<(), Error> {
    pool.unpin(client, from)?;
    pool.unpin(client, to)
}

fn transfer(pool: &Mutex<Pool>, client: u32, from: Address, to: Address, amount: u64) -> Result<(), Error> {
    with(pool, |pool| pin(pool, client, from, to))?;
    add_to_pinned(pool, client, from, amount.wrapping_neg())?;
    add_to_pinned(pool, client, to, amount)?;
    with(pool, |pool| unpin(pool, client, from, to))
}

/// Buffers that come by chance, and are the same in each run.
struct Chance(u32);

impl Chance {
    fn buffer(&mut self) -> Address {
        self.0 = self.0.wrapping_mul(1_664_525).wrapping_add(1_013_904_223);
        buffer((self.0 >> 8) % BUFFERS)
    }
}

fn run_client(pool: &Mutex<Pool>, client: u32) -> Result<(), Error> {
    let mut chance = Chance(client + 1);
    for amount in 0..TRANSFERS {
        transfer(pool, client, chance.buffer(), chance.buffer(), u64::from(amount))?;
    }
    Ok(())
}

/// Waits for threads, and answers the first error of one.
fn join_all(threads: Threads) -> Result<(), Error> {
    let ended: Vec<_> = threads.into_iter().map(|thread| thread.join().expect("no thread panics")).collect();
    ended.into_iter().collect()
}

// Rounds.

/// Isolates each page of a round and hands it over. Where all carriers have ended, one of them has the error, and the page is put back.
fn isolate_all<'pool>(pool: &'pool Mutex<Pool>, to: SyncSender<MovingGuard<'pool>>) -> Result<(), Error> {
    while let Some(page) = MovingGuard::isolate(pool)? {
        if to.send(page).is_err() {
            break;
        }
    }
    Ok(())
}

fn next<'pool>(waiting: &Mutex<Receiver<MovingGuard<'pool>>>) -> Result<MovingGuard<'pool>, RecvError> {
    waiting.lock().expect("no thread panics here").recv()
}

/// Brings pages to the pool until there are none and the round has ended. A page that is pinned goes back into its frame.
fn carry(waiting: &Mutex<Receiver<MovingGuard>>) -> Result<(), Error> {
    while let Ok(page) = next(waiting) {
        page.commit()?;
    }
    Ok(())
}

/// Makes a round: this thread isolates its pages, and others carry them.
fn make_round(pool: &Mutex<Pool>) -> Result<(), Error> {
    with(pool, Pool::begin_round);
    thread::scope(|threads| {
        let (to, waiting) = sync_channel(WAITING);
        // The carriers alone have this end, so that no page is handed over once all of them have ended.
        let shared = Arc::new(Mutex::new(waiting));
        let ends = vec![shared; CARRIERS];
        let carriers = ends.into_iter().map(|waiting| threads.spawn(move || carry(&waiting))).collect();
        isolate_all(pool, to).and(join_all(carriers))
    })
}

fn other(number: u32) -> Address {
    Address::new(1, number)
}

fn map_others(pool: &Mutex<Pool>) -> Result<(), Error> {
    (0..OTHERS).try_for_each(|number| with(pool, |pool| pool.map(OTHER_CLIENT, other(number), false)).map(drop))
}

fn unmap_others(pool: &Mutex<Pool>) -> Result<(), Error> {
    (0..OTHERS).try_for_each(|number| with(pool, |pool| pool.unmap(OTHER_CLIENT, other(number))))
}

/// Makes rounds. Before each one pages are mapped and after it they are unmapped, so that each has pages to move.
fn run_rounds(pool: &Mutex<Pool>) -> Result<(), Error> {
    for _ in 0..ROUNDS {
        map_others(pool)?;
        make_round(pool)?;
        unmap_others(pool)?;
    }
    Ok(())
}

fn run_both(pool: &Mutex<Pool>) -> Result<(), Error> {
    thread::scope(|threads| {
        let clients = (0..CLIENTS).map(|client| threads.spawn(move || run_client(pool, client))).collect();
        run_rounds(pool).and(join_all(clients))
    })
}

fn take_huge_pages(pool: &mut Pool) -> usize {
    std::iter::from_fn(|| pool.take_huge(9).ok()).count()
}

fn main() -> Result<(), Error> {
    let mut pool = open_buffers()?;
    tell("before", &mut pool)?;
    let pool = Mutex::new(pool);
    run_both(&pool)?;
    println!("{} transfers beside {ROUNDS} rounds: no call was refused", CLIENTS * TRANSFERS);

    // Nobody has a pin now, so one more round packs the buffers.
    make_round(&pool)?;
    let mut pool = pool.into_inner().expect("no thread panicked");
    tell("after them and one more round", &mut pool)?;
    let counts = pool.audit()?;
    let is_so = if counts.moved + counts.back == counts.isolated { "yes" } else { "no" };
    println!("each page that was taken in a round was moved or put back: {is_so}");
    println!("{} huge pages taken", take_huge_pages(&mut pool));
    Ok(())
}
