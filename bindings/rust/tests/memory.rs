//! Pools in memory that was mapped, and words of blocks and pages that are lent.

use std::thread;

use compactd::{Address, BlockWords, Error, Kept, Memory, PageSize, PageWords, Place, Pool, PoolSize, Record};

const SIZE: PoolSize = PoolSize { blocks: 2, spaces: 1, vpages: 1024 };
const AT: Address = Address { space: 0, vpage: 0 };

fn memory(page_size: PageSize) -> Memory {
    Memory::of_pool(page_size, SIZE.blocks).expect("a little memory can be mapped")
}

fn pool(page_size: PageSize) -> Pool {
    Pool::open_in(page_size, SIZE, 0, memory(page_size)).expect("a pool of two pageblocks can be opened")
}

/// The words of a block of so many frames.
fn lent(pool: &mut Pool, order: u32) -> BlockWords {
    let huge = pool.take_huge(order).expect("a block is free");
    pool.block_words(huge).expect("its words aren't lent")
}

#[test]
fn maps_no_memory_without_words() {
    assert!(Memory::map(0).is_err() && Memory::map(usize::MAX).is_err() && Memory::map(1 << 60).is_err());
    assert_eq!(Memory::map(1).unwrap().words(), 1);
}

#[test]
fn keeps_memory_that_is_refused() {
    let sizes = [PoolSize { blocks: 1, ..SIZE }, PoolSize { blocks: 3, ..SIZE }, PoolSize { vpages: 0, ..SIZE }];
    let mut memory = memory(PageSize::Bytes64);
    for size in sizes {
        let Err(Kept { error, value }) = Pool::open_in(PageSize::Bytes64, size, 0, memory) else { panic!("{size:?} is opened") };
        assert_eq!((error, value.words()), (Error::Range, 8192));
        memory = value;
    }
    assert!(Pool::open_in(PageSize::Bytes64, SIZE, 9, memory).is_ok());
}

#[test]
fn gives_its_memory_to_another_pool() {
    let mut first = pool(PageSize::Bytes64);
    first.map(0, AT, false).unwrap();
    first.store(0, AT, 7, 5).unwrap();
    let huge = first.take_huge(9).unwrap();
    let mut second = Pool::open_in(PageSize::Bytes64, SIZE, 0, first.close_in().unwrap()).unwrap();
    second.map(0, AT, false).unwrap();
    assert_eq!(second.load(0, AT, 7), Ok(0));
    assert_eq!(second.block_words(huge).unwrap_err().error, Error::NotHuge);
}

#[test]
fn lends_no_words_of_its_own_memory() {
    let mut pool = Pool::open(PageSize::Bytes64, 1).unwrap();
    let huge = pool.take_huge(3).unwrap();
    let Err(Kept { error, value: huge }) = pool.block_words(huge) else { panic!("it lends words of its own") };
    assert_eq!((error, huge.frames()), (Error::OwnMemory, 8));
    let Err(Kept { error, value: mut pool }) = pool.close_in() else { panic!("it has memory of its own") };
    assert_eq!((error, pool.give(huge)), (Error::OwnMemory, Ok(())));
}

#[test]
fn has_the_words_that_were_left() {
    let mut pool = pool(PageSize::Bytes4096);
    pool.map(0, AT, false).unwrap();
    let mut words = lent(&mut pool, 9);
    assert_eq!((words.len(), words.huge().first(), words.iter().all(|word| *word == 0)), (512 * 512, 512, true));
    words[511] = 7;
    words[512..].fill(8);
    pool.compact().unwrap();
    assert_eq!(pool.look(AT).unwrap().place, Place::At { frame: 511, unmovable: false, dirty: false });
    let huge = pool.return_words(words).unwrap();
    let mut found = [0; 2];
    pool.read_huge(&huge, 511, &mut found).unwrap();
    assert_eq!(found, [7, 8]);
    pool.write_huge(&huge, 511, &[9]).unwrap();
    let words = pool.block_words(huge).unwrap();
    assert_eq!(words[510..513], [0, 9, 8]);
    let huge = pool.return_words(words).unwrap();
    assert_eq!(pool.give(huge), Ok(()));
    assert!(lent(&mut pool, 9).iter().all(|word| *word == 0));
}

#[test]
fn keeps_the_words_of_another_pool() {
    let (mut pool, mut other) = (pool(PageSize::Bytes64), pool(PageSize::Bytes64));
    let (mut words, _others) = (lent(&mut pool, 9), lent(&mut other, 9));
    words[0] = 5;
    let Err(Kept { error, value: words }) = other.return_words(words) else { panic!("another pool took the words") };
    assert_eq!((error, words[0]), (Error::NotHuge, 5));
    let huge = pool.return_words(words).unwrap();
    let Err(Kept { error, value: huge }) = other.block_words(huge) else { panic!("another pool lent the words") };
    assert_eq!((error, pool.give(huge)), (Error::NotHuge, Ok(())));
}

#[test]
fn stays_open_while_words_are_lent() {
    let mut pool = pool(PageSize::Bytes64);
    let words = lent(&mut pool, 5);
    let Err(Kept { error, value: mut pool }) = pool.close_in() else { panic!("it is closed while words are lent") };
    assert_eq!((error, pool.info().huge), (Error::Lent, 1));
    let _huge = pool.return_words(words).unwrap();
    assert_eq!(pool.close_in().unwrap().words(), 8192);
}

#[test]
fn keeps_its_words_once_the_pool_is_gone() {
    let mut pool = pool(PageSize::Bytes64);
    let (mut words, dropped) = (lent(&mut pool, 9), lent(&mut pool, 3));
    drop(dropped);
    assert_eq!(pool.take_huge(9), Err(Error::NoBlock)); // the words that were dropped stay lent
    drop(pool);
    words.fill(6);
    assert!(words.iter().all(|word| *word == 6));
    assert_eq!(self::pool(PageSize::Bytes64).return_words(words).unwrap_err().error, Error::NotHuge);
}

#[test]
fn releases_whole_pages() {
    let mut pool = pool(PageSize::Bytes64);
    let (mut large, mut small) = (lent(&mut pool, 9), lent(&mut pool, 3));
    for words in [&mut large, &mut small] {
        words.fill(6);
        words.release().unwrap();
    }
    assert!(large.iter().all(|word| *word == 0) && small.iter().all(|word| *word == 6));
    large[0] = 1;
    let huge = pool.return_words(large).unwrap();
    let mut found = [7; 2];
    pool.read_huge(&huge, 0, &mut found).unwrap();
    assert_eq!(found, [1, 0]);
}

#[test]
fn lends_words_to_threads() {
    let mut pool = pool(PageSize::Bytes4096);
    for page in 0..100 {
        pool.map(0, Address::new(0, page), false).unwrap();
    }
    let mut words = lent(&mut pool, 9);
    thread::scope(|threads| {
        for (number, part) in (1..).zip(words.chunks_mut(64 * 1024)) {
            threads.spawn(move || part.fill(number));
        }
        pool.compact().unwrap();
    });
    let words = thread::spawn(move || words).join().unwrap();
    assert_eq!([0, 65_535, 65_536, 262_143].map(|at| words[at]), [1, 1, 2, 4]);
    let _huge = pool.return_words(words).unwrap();
}

// Pages.

const ALIAS: Address = Address { space: 0, vpage: 7 };
const SEVENS: u64 = u64::MAX / 255 * 7; // a 7 in each byte

/// A pool with a page, and the words of that.
fn with_page(page_size: PageSize, places: u32) -> (Pool, PageWords) {
    let mut pool = Pool::open_in(page_size, SIZE, places, memory(page_size)).unwrap();
    pool.map(0, AT, false).unwrap();
    let words = pool.pin_words(3, AT).unwrap();
    (pool, words)
}

#[test]
fn pins_no_words_that_it_cant_lend() {
    let mut own = Pool::open(PageSize::Bytes64, 1).unwrap();
    assert_eq!(own.pin_words(0, AT).unwrap_err(), Error::Unmapped);
    own.map(0, AT, false).unwrap();
    assert_eq!(own.pin_words(0, AT).unwrap_err(), Error::OwnMemory);
    assert_eq!((own.pin_words(8, AT).unwrap_err(), own.look(AT).unwrap().pins), (Error::Range, 0));
    let (mut pool, _words) = with_page(PageSize::Bytes64, 0);
    pool.share(0, AT, ALIAS).unwrap();
    assert_eq!((pool.pin_words(0, ALIAS).unwrap_err(), pool.look(AT).unwrap().pins), (Error::Lent, 1));
    let other = Address::new(0, 1);
    pool.map(0, other, false).unwrap();
    pool.begin_round();
    let page = pool.isolate().unwrap().unwrap();
    assert_eq!((pool.pin_words(0, other).unwrap_err(), pool.commit(page)), (Error::Moving, Ok(true)));
}

#[test]
fn has_the_words_of_a_page_that_were_left() {
    let (mut pool, mut words) = with_page(PageSize::Bytes4096, 600);
    assert_eq!((words.len(), words.address(), words.iter().all(|word| *word == 0)), (512, AT, true));
    words.bytes_mut()[4080..].fill(7);
    assert_eq!((pool.load(0, AT, 0), pool.store(0, AT, 0, 1), pool.unpin(0, AT)), (Err(Error::Lent), Err(Error::Lent), Err(Error::Lent)));
    pool.compact().unwrap();
    let Err(Kept { error, value: mut pool }) = pool.close_in() else { panic!("it is closed while words are lent") };
    assert_eq!((error, words[511]), (Error::Lent, SEVENS));
    pool.unpin_words(words).unwrap();
    let mut found = [0; 3];
    pool.read(0, AT, 509, &mut found).unwrap();
    let look = pool.look(AT).unwrap();
    assert_eq!((found, look.pins, look.place), ([0, SEVENS, SEVENS], 0, Place::At { frame: 0, unmovable: false, dirty: true }));
    assert_eq!(pool.record_at(513).unwrap(), Record::Store { client: 3, address: AT, word: 511, value: SEVENS });
}

#[test]
fn keeps_the_words_of_another_page() {
    let (mut pool, mut words) = with_page(PageSize::Bytes64, 0);
    words[0] = 5;
    let (mut other, _others) = with_page(PageSize::Bytes64, 0);
    let Err(Kept { error, value: words }) = other.unpin_words(words) else { panic!("another pool took the words") };
    assert_eq!((error, words[0]), (Error::Unmapped, 5));
    pool.share(0, AT, ALIAS).unwrap();
    pool.unmap(0, AT).unwrap();
    let Err(Kept { error, value: words }) = pool.unpin_words(words) else { panic!("no page is there") };
    assert_eq!(error, Error::Unmapped);
    pool.map(0, AT, false).unwrap();
    pool.pin(0, AT).unwrap();
    let Err(Kept { error, value: words }) = pool.unpin_words(words) else { panic!("another page is there") };
    assert_eq!((error, pool.load(0, AT, 0)), (Error::Unmapped, Ok(0)));
    pool.unpin(0, AT).unwrap();
    pool.unmap(0, AT).unwrap();
    pool.share(0, ALIAS, AT).unwrap();
    pool.unpin_words(words).unwrap();
    assert_eq!(pool.load(0, ALIAS, 0), Ok(5));
}

#[test]
fn keeps_a_pin_that_a_full_journal_has_no_place_for() {
    let (mut pool, mut words) = with_page(PageSize::Bytes64, 10);
    words[7] = 6;
    let Err(Kept { error, value: words }) = pool.unpin_words(words) else { panic!("there is a place more") };
    assert_eq!((error, words.len(), pool.look(AT).unwrap().pins), (Error::JournalFull, 0, 1));
    assert_eq!(pool.unpin_words(words).unwrap_err().error, Error::JournalFull);
    assert!(pool.close_in().is_ok());
    let (mut pool, words) = with_page(PageSize::Bytes64, 9);
    let Err(Kept { error, value: words }) = pool.unpin_words(words) else { panic!("there are no places") };
    assert_eq!((error, words.len()), (Error::JournalFull, 8));
}

#[test]
fn keeps_words_of_a_page_once_the_pool_is_gone() {
    let (mut pool, words) = with_page(PageSize::Bytes64, 0);
    drop(words);
    assert_eq!((pool.load(0, AT, 0), pool.look(AT).unwrap().pins), (Err(Error::Lent), 1));
    let (pool, mut words) = with_page(PageSize::Bytes64, 0);
    drop(pool);
    words.fill(6);
    assert!(thread::spawn(move || words.iter().all(|word| *word == 6)).join().unwrap());
}
