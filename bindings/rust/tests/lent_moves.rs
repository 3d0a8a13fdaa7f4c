//! Moves whose words are lent.

use std::thread;

use compactd::{Address, Error, Kept, LentMove, Memory, PageSize, Place, Pool, PoolSize, Record};

const SIZE: PoolSize = PoolSize { blocks: 2, spaces: 1, vpages: 1024 };
const AT: Address = Address { space: 0, vpage: 0 };

fn pool(page_size: PageSize, places: u32) -> Pool {
    let memory = Memory::of_pool(page_size, SIZE.blocks).expect("a little memory can be mapped");
    Pool::open_in(page_size, SIZE, places, memory).expect("a pool of two pageblocks can be opened")
}

/// A pool with so many pages, whose last word is their number, and a round that has begun.
fn with_round(page_size: PageSize, pages: u32) -> Pool {
    let mut pool = pool(page_size, 0);
    for page in 0..pages {
        pool.map(0, Address::new(0, page), false).unwrap();
        pool.store(0, Address::new(0, page), page_size.words() - 1, page.into()).unwrap();
    }
    pool.begin_round();
    pool
}

fn lent(pool: &mut Pool) -> LentMove {
    pool.lend_move().unwrap().expect("the scanners haven't met")
}

fn frame(pool: &mut Pool, page: u32) -> Option<u32> {
    match pool.look(Address::new(0, page)).unwrap().place {
        Place::At { frame, .. } => Some(frame),
        _ => None,
    }
}

#[test]
fn lends_no_move_where_there_is_none() {
    let mut own = Pool::open(PageSize::Bytes64, 1).unwrap();
    own.map(0, AT, false).unwrap();
    own.begin_round();
    assert_eq!(own.lend_move().unwrap_err(), Error::OwnMemory);
    assert!(pool(PageSize::Bytes64, 0).lend_move().unwrap().is_none());
    assert!(with_round(PageSize::Bytes64, 0).lend_move().unwrap().is_none());
    let mut full = pool(PageSize::Bytes64, 2);
    full.map(0, AT, false).unwrap();
    full.begin_round();
    assert_eq!(full.lend_move().unwrap_err(), Error::JournalFull);
}

#[test]
fn moves_a_page_that_is_copied() {
    for page_size in [PageSize::Bytes64, PageSize::Bytes4096] {
        let mut pool = with_round(page_size, 1);
        let page = lent(&mut pool);
        let last = page_size.words() as usize - 1;
        assert_eq!((page.serial(), page.source(), page.target(), page.from().len(), page.from()[last]), (0, 0, 1023, last + 1, 0));
        assert_eq!((pool.load(0, AT, 0), pool.info().moving, frame(&mut pool, 0)), (Err(Error::Moving), 1, None));
        let found = pool.moving_pages();
        assert_eq!((found.len(), pool.put_back_lost(found[0].page)), (1, Err(Error::Stranger)));
        let page = page.copy();
        assert_eq!((page.serial(), pool.commit_lent(page).unwrap(), frame(&mut pool, 0)), (0, true, Some(1023)));
        assert!(pool.lend_move().unwrap().is_none() && pool.close_in().is_ok());
    }
}

#[test]
fn leaves_a_page_that_is_pinned_or_put_back() {
    let mut pool = pool(PageSize::Bytes64, 20);
    for page in 0..2 {
        pool.map(0, Address::new(0, page), false).unwrap();
    }
    pool.begin_round();
    let (first, second) = (lent(&mut pool), lent(&mut pool));
    pool.pin(0, Address::new(0, 1)).unwrap();
    pool.put_back_lent(first).unwrap();
    assert!(!pool.commit_lent(second.copy()).unwrap());
    assert_eq!((frame(&mut pool, 0), frame(&mut pool, 1), pool.audit().unwrap().back), (Some(0), Some(1), 2));
    let ends = [5, 6].map(|at| pool.record_at(at).unwrap());
    assert_eq!(ends, [Record::Back { serial: 0, had_pin: false }, Record::Back { serial: 1, had_pin: true }]);
}

#[test]
fn claims_the_frame_that_a_page_of_a_run_left() {
    let mut pool = with_round(PageSize::Bytes64, 2);
    assert_eq!(pool.empty_some(0, 3, 0).unwrap().unclaimed, 2);
    let page = pool.lend_move_from(0, 3).unwrap().expect("a page is there");
    assert_eq!((page.source(), page.target()), (0, 1023));
    assert_eq!((pool.commit_and_claim(page.copy()).unwrap(), frame(&mut pool, 0), pool.info().held), (true, Some(1023), 7));
    let page = pool.lend_move_from(0, 3).unwrap().expect("a page is there");
    pool.pin(0, Address::new(0, 1)).unwrap();
    assert_eq!((pool.commit_and_claim(page.copy()).unwrap(), frame(&mut pool, 1), pool.info().held), (false, Some(1), 7));
    assert!(pool.lend_move_from(0, 3).unwrap().is_none());
    assert_eq!(pool.lend_move_from(4, 3).unwrap_err(), Error::Range);
    assert_eq!(Pool::open(PageSize::Bytes64, 1).unwrap().lend_move_from(0, 3).unwrap_err(), Error::OwnMemory);
}

#[test]
fn keeps_a_move_of_another_pool() {
    let (mut pool, mut other) = (with_round(PageSize::Bytes64, 1), with_round(PageSize::Bytes64, 1));
    let (page, of_other) = (lent(&mut pool), lent(&mut other));
    let Err(Kept { error, value: page }) = other.put_back_lent(page) else { panic!("another pool put it back") };
    assert_eq!(error, Error::Stranger);
    let Err(Kept { error, value: page }) = other.commit_lent(page.copy()) else { panic!("another pool committed it") };
    assert_eq!((error, pool.commit_lent(page).unwrap()), (Error::Stranger, true));
    other.put_back_lent(of_other).unwrap();
    assert!(pool.close_in().is_ok() && other.close_in().is_ok());
}

#[test]
fn stays_open_while_a_move_is_lent() {
    let mut pool = with_round(PageSize::Bytes64, 2);
    let page = lent(&mut pool);
    drop(lent(&mut pool));
    let Err(Kept { error, value: mut pool }) = pool.close_in() else { panic!("it is closed while words are lent") };
    assert_eq!((error, pool.info().moving), (Error::Lent, 2)); // the page that was dropped stays moving
    drop(pool);
    assert_eq!(page.from(), [0; 8]);
    let page = thread::spawn(|| page.copy()).join().unwrap();
    assert_eq!(with_round(PageSize::Bytes64, 1).commit_lent(page).unwrap_err().error, Error::Stranger);
}
