//! Rounds and emptied runs of a pool that threads share by a mutex.

use std::sync::atomic::{AtomicBool, Ordering};
use std::sync::Mutex;
use std::thread;

use compactd::{Address, Error, Memory, PageSize, Place, Pool, PoolSize, Stopped};

const SIZE: PoolSize = PoolSize { blocks: 2, spaces: 1, vpages: 1024 };
const PAGES: u32 = 500;

fn at(page: u32) -> Address {
    Address::new(0, page)
}

/// A pool with so many pages, whose last word is their number.
fn filled(page_size: PageSize, places: u32, pages: u32) -> Pool {
    let memory = Memory::of_pool(page_size, SIZE.blocks).expect("a little memory can be mapped");
    let mut pool = Pool::open_in(page_size, SIZE, places, memory).expect("a pool of two pageblocks can be opened");
    for page in 0..pages {
        pool.map(0, at(page), false).unwrap();
        pool.store(0, at(page), page_size.words() - 1, page.into()).unwrap();
    }
    pool
}

fn frame(pool: &mut Pool, page: u32) -> Option<u32> {
    match pool.look(at(page)).unwrap().place {
        Place::At { frame, .. } => Some(frame),
        _ => None,
    }
}

#[test]
fn rounds_leave_each_page_where_one_thread_does() {
    for page_size in [PageSize::Bytes64, PageSize::Bytes4096] {
        let mut alone = filled(page_size, 0, PAGES);
        alone.compact().unwrap();
        let rounds: [&dyn Fn(&Mutex<Pool>) -> _; 5] = [
            &|pool| Pool::round(pool, 1),
            &|pool| Pool::round(pool, 900),
            &|pool| Pool::round_on(pool, 1, 1),
            &|pool| Pool::round_on(pool, 4, 8),
            &|pool| Pool::round_on(pool, 64, 64),
        ];
        for round in rounds {
            let pool = Mutex::new(filled(page_size, 0, PAGES));
            let told = round(&pool).unwrap();
            let mut pool = pool.into_inner().unwrap();
            assert_eq!((told.counts, told.stopped, told.counts.moved), (pool.audit().unwrap(), Stopped::Met, 500));
            for page in 0..PAGES {
                assert_eq!(pool.load(0, at(page), page_size.words() - 1), Ok(page.into()));
                assert_eq!(frame(&mut pool, page), frame(&mut alone, page));
            }
            assert!(pool.close_in().is_ok());
        }
    }
}

#[test]
fn runs_are_emptied_as_by_one_thread() {
    let firsts = [256, 0];
    for page_size in [PageSize::Bytes64, PageSize::Bytes4096] {
        let mut alone = filled(page_size, 0, PAGES);
        alone.pin(0, at(300)).unwrap();
        for (most, first) in [(0, 256), (0, 0), (64, 256), (64, 0)] {
            alone.empty_some(first, 6, most).unwrap();
        }
        for (threads, pages) in [(1, 5), (2, 16), (4, 64)] {
            let pool = Mutex::new(filled(page_size, 0, PAGES));
            pool.lock().unwrap().pin(0, at(300)).unwrap();
            let told = Pool::empty_on(&pool, &firsts, 6, threads, pages).unwrap();
            let mut pool = pool.into_inner().unwrap();
            assert_eq!((told.counts, told.stopped, told.counts.moved), (pool.audit().unwrap(), Stopped::NoneLeft, 127));
            for page in 0..PAGES {
                assert_eq!(pool.load(0, at(page), page_size.words() - 1), Ok(page.into()));
                assert_eq!(frame(&mut pool, page), frame(&mut alone, page));
            }
            assert_eq!(pool.take_claimed(256, 6), Err(Error::NoBlock));
            let huge = pool.take_claimed(0, 6).unwrap();
            pool.give(huge).unwrap();
        }
    }
}

#[test]
fn emptied_runs_are_refused() {
    let pool = Mutex::new(filled(PageSize::Bytes64, 0, 1));
    for (firsts, order, threads, pages) in
        [([0], 6, 0, 1), ([0], 6, 1, 65), ([0], 2, 1, 1), ([0], 10, 1, 1), ([32], 6, 1, 1), ([1024], 6, 1, 1)]
    {
        assert_eq!(Pool::empty_on(&pool, &firsts, order, threads, pages), Err(Error::Range));
    }
    let own = Mutex::new(Pool::open(PageSize::Bytes64, 1).unwrap());
    assert_eq!(Pool::empty_on(&own, &[0], 9, 2, 8), Err(Error::OwnMemory));
    assert_eq!((own.lock().unwrap().info().held, pool.lock().unwrap().info().held), (0, 0));
    assert_eq!(Pool::empty_on(&pool, &[], 9, 2, 8).unwrap().counts.isolated, 0);
}

#[test]
fn rounds_are_refused() {
    let pool = Mutex::new(filled(PageSize::Bytes64, 0, 1));
    assert_eq!(Pool::round(&pool, 0), Err(Error::Range));
    for (threads, pages) in [(0, 1), (65, 1), (1, 0), (1, 65)] {
        assert_eq!(Pool::round_on(&pool, threads, pages), Err(Error::Range));
    }
    let own = Mutex::new(Pool::open(PageSize::Bytes64, 1).unwrap());
    assert_eq!(Pool::round_on(&own, 2, 8), Err(Error::OwnMemory));
    assert_eq!(pool.lock().unwrap().audit().unwrap().isolated, 0);
}

#[test]
fn rounds_end_where_the_journal_is_full() {
    for is_on_threads in [false, true] {
        let pool = Mutex::new(filled(PageSize::Bytes64, 26, 10)); // with room for three moves
        let told = if is_on_threads { Pool::round_on(&pool, 2, 2) } else { Pool::round(&pool, 2) }.unwrap();
        let counts = pool.into_inner().unwrap().audit().unwrap();
        assert_eq!((told.counts, told.stopped, counts.moved), (counts, Stopped::JournalFull, 3));
    }
}

/// A client adds to a word of pages and pins one of them now and then, which may be moving.
fn serve(pool: &Mutex<Pool>, is_over: &AtomicBool) -> Vec<u64> {
    let (mut added, mut pinned) = (vec![0; PAGES as usize], None);
    for turn in (0..20_000).take_while(|_| !is_over.load(Ordering::Relaxed)) {
        let mut pool = pool.lock().unwrap();
        let page = turn * 7919 % PAGES;
        match pool.load(1, at(page), 0) {
            Ok(value) => {
                assert_eq!(value, added[page as usize]);
                added[page as usize] += u64::from(turn);
                pool.store(1, at(page), 0, added[page as usize]).unwrap();
            }
            Err(error) => assert_eq!(error, Error::Moving),
        }
        pinned = match pinned {
            Some(page) if turn % 8 == 0 => pool.unpin(1, at(page)).map(|()| None).unwrap(),
            None if turn % 8 == 0 => pool.pin(1, at(page)).map(|()| Some(page)).unwrap(),
            same => same,
        };
        drop(pool);
        thread::yield_now();
    }
    added
}

#[test]
fn rounds_go_on_beside_a_client() {
    let (pool, is_over) = (Mutex::new(filled(PageSize::Bytes4096, 0, PAGES)), AtomicBool::new(false));
    let (counts, added) = thread::scope(|scope| {
        let client = scope.spawn(|| serve(&pool, &is_over));
        let rounds = [0, 1, 2, 3].map(|turn| match turn {
            2 => Pool::empty_on(&pool, &[960], 6, 3, 8).unwrap().counts,
            _ => Pool::round_on(&pool, 3, 8).unwrap().counts,
        });
        is_over.store(true, Ordering::Relaxed);
        (rounds, client.join().unwrap())
    });
    let mut pool = pool.into_inner().unwrap();
    let all = pool.audit().unwrap();
    assert_eq!(counts.iter().map(|counts| counts.isolated).sum::<u64>(), all.isolated);
    assert_eq!(counts.iter().map(|counts| counts.moved + counts.back).sum::<u64>(), all.isolated);
    for page in 0..PAGES {
        assert_eq!((pool.load(0, at(page), 0), pool.load(0, at(page), 511)), (Ok(added[page as usize]), Ok(page.into())));
    }
}
