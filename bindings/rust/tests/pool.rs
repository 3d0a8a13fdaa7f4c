//! What the types of this crate add to the library's calls.

use std::sync::Mutex;

use compactd::{Address, CheapestRun, Error, Keeper, KeeperStep, Kept, MovingGuard, PageRequest, PageSize, Place, Pool, PoolSize, Record};
use compactd::{Reserved, Slice, Step, Stopped, Taken};

fn pool() -> Pool {
    Pool::open(PageSize::Bytes64, 1).expect("a pool of one pageblock can be opened")
}

const AT: Address = Address { space: 0, vpage: 0 };

#[test]
fn refuses_numbers_out_of_their_ranges() {
    assert_eq!([0, 32_769].map(|blocks| Pool::open(PageSize::Bytes64, blocks).err()), [Some(Error::Range); 2]);
    assert_eq!(Pool::open_journal(PageSize::Bytes64, 9, 1).err(), Some(Error::Range));
    assert_eq!(Pool::open_journal(PageSize::Bytes4096, 1, 65_537).err(), Some(Error::Range));
    let mut pool = pool();
    assert_eq!(pool.map(8, AT, false), Err(Error::Range));
    assert_eq!(pool.map(0, Address::new(8, 0), false), Err(Error::Range));
    assert_eq!(pool.take_huge(10), Err(Error::Range));
    assert_eq!(pool.marked(1), Err(Error::Range));
}

#[test]
fn refuses_sizes_out_of_range() {
    let least = PoolSize { blocks: 1, spaces: 1, vpages: 1 };
    let sizes = [
        PoolSize { blocks: 0, ..least },
        PoolSize { blocks: 32_769, ..least },
        PoolSize { spaces: 0, ..least },
        PoolSize { spaces: 257, ..least },
        PoolSize { vpages: 0, ..least },
        PoolSize { vpages: 16_777_217, ..least },
        PoolSize { spaces: 256, vpages: 262_145, ..least },
        PoolSize { spaces: 256, vpages: 16_777_216, ..least },
    ];
    for size in sizes {
        assert_eq!(Pool::open_sized(PageSize::Bytes64, size, 0).err(), Some(Error::Range), "{size:?}");
    }
    assert_eq!(Pool::open_sized(PageSize::Bytes64, least, 65_537).err(), Some(Error::Range));
}

#[test]
fn has_the_addresses_that_it_is_opened_with() {
    let last = Address::new(18, 5002);
    let mut pool = Pool::open_sized(PageSize::Bytes4096, PoolSize { blocks: 9, spaces: 19, vpages: 5003 }, 6).unwrap();
    let geometry = pool.geometry();
    assert_eq!((geometry.blocks, geometry.spaces, geometry.vpages, geometry.places), (9, 19, 5003, 6));
    pool.map(0, last, false).unwrap();
    for past in [Address::new(19, 0), Address::new(0, 5003)] {
        assert_eq!([pool.map(0, past, false).err(), pool.share(0, last, past).err()], [Some(Error::Range); 2]);
        assert_eq!([pool.load(0, past, 0).err(), pool.look(past).err(), pool.unmap(0, past).err()], [Some(Error::Unmapped); 3]);
    }
    let far = [Address::new(256, 0), Address::new(0, 16_777_216)];
    assert_eq!(far.map(|far| pool.look(far)), [Err(Error::Range); 2]);
    pool.share(0, last, AT).unwrap();
    assert_eq!(pool.record_at(1), Ok(Record::Share { client: 0, address: last, alias: AT }));
    pool.compact().unwrap();
    assert_eq!(pool.look(last).unwrap().place, Place::At { frame: 4607, unmovable: false, dirty: false });
}

#[test]
fn maps_many_pages_though_some_are_refused() {
    let mut pool = pool();
    let mut pages =
        [(0, false), (0, false), (256, false), (1, true)].map(|(space, unmovable)| PageRequest::new(Address::new(space, 5), unmovable));
    assert_eq!(pool.map_many(0, &mut pages), Err(Error::Occupied));
    assert_eq!(pages.map(|page| page.answer()), [Ok(0), Err(Error::Occupied), Err(Error::Range), Ok(1)]);
    assert_eq!(pool.look(pages[3].address()).unwrap().place, Place::At { frame: 1, unmovable: true, dirty: false });
    assert_eq!(pool.unmap_many(0, &mut pages), Err(Error::Unmapped));
    assert_eq!(pages.map(|page| page.answer().err()), [None, Some(Error::Unmapped), Some(Error::Range), None]);
    assert_eq!((pool.info().pages, pool.map_many(0, &mut [])), (0, Ok(())));
}

#[test]
fn keeps_the_huge_page_of_another_pool() {
    let (mut pool, mut other) = (pool(), pool());
    let huge = pool.take_huge(9).unwrap();
    let Err(Kept { error, value: huge }) = other.give(huge) else { panic!("another pool took the block") };
    assert_eq!(error, Error::NotHuge);
    assert_eq!(other.write_huge(&huge, 0, &[1]), Err(Error::NotHuge));
    assert_eq!(pool.write_huge(&huge, pool.words_of(&huge) - 1, &[1, 2]), Err(Error::Range));
    assert_eq!(pool.write_huge(&huge, 4095, &[1]), Ok(()));
    assert_eq!(pool.give(huge), Ok(()));
    assert_eq!(pool.info().free, 512);
}

#[test]
fn keeps_the_moving_page_of_another_pool() {
    let (mut pool, mut other) = (pool(), pool());
    pool.map(0, AT, false).unwrap();
    pool.begin_round();
    let page = pool.isolate().unwrap().unwrap();
    assert_eq!(pool.look(AT).unwrap().place, Place::Moving { serial: page.serial() });
    assert_eq!(pool.load(0, AT, 0), Err(Error::Moving));
    let Err(Kept { error, value: page }) = other.commit(page) else { panic!("another pool took the page") };
    assert_eq!(error, Error::Stranger);
    pool.put_back(page).unwrap();
    assert_eq!(pool.look(AT).unwrap().place, Place::At { frame: 0, unmovable: false, dirty: false });
}

#[test]
fn goes_while_a_page_is_moving() {
    let (mut gone, mut pool) = (pool(), pool());
    gone.map(0, AT, false).unwrap();
    gone.begin_round();
    let page = gone.isolate().unwrap().unwrap();
    drop(gone);
    let Err(Kept { error, value: page }) = pool.commit(page) else { panic!("another pool took the page") };
    assert_eq!((error, page.words()), (Error::Stranger, &[0; 8][..]));
}

#[test]
fn finds_a_lost_page_and_puts_it_back() {
    let (mut pool, mut other) = (pool(), pool());
    pool.map_at(0, AT, false, 3).unwrap();
    pool.map_at(0, Address::new(0, 1), false, 7).unwrap();
    pool.store(0, Address::new(0, 1), 0, 1).unwrap();
    pool.begin_round();
    drop(pool.isolate().unwrap());
    drop(pool.isolate().unwrap());
    assert_eq!((pool.isolate(), pool.info().moving, pool.audit()), (Ok(None), 2, Err(Error::PagesMoving)));
    pool.compact().unwrap();
    assert_eq!(pool.unmap(0, AT), Err(Error::Moving));
    let lost = pool.moving_pages();
    assert_eq!(lost.iter().map(|it| (it.source, it.target, it.address.vpage)).collect::<Vec<_>>(), [(3, 511, 0), (7, 510, 1)]);
    assert_eq!(lost.iter().map(|it| (it.page.serial(), it.page.is_dirty())).collect::<Vec<_>>(), [(0, false), (1, true)]);
    assert_eq!(pool.next_moving(4).map(|it| it.page), Ok(lost[1].page));
    assert_eq!((pool.next_moving(8).err(), pool.next_moving(1 << 24).err()), (Some(Error::NotMoving), Some(Error::Range)));
    assert_eq!(other.put_back_lost(lost[0].page), Err(Error::Stranger));
    assert_eq!(pool.put_back_lost(lost[0].page), Ok(()));
    assert_eq!(pool.put_back_lost(lost[0].page), Err(Error::Stranger));
    assert_eq!(pool.put_back_lost(lost[1].page), Ok(()));
    assert_eq!((pool.ended(), pool.unmap(0, AT), pool.audit().unwrap().back, pool.moving_pages()), (2, Ok(()), 2, vec![]));
}

#[test]
fn moves_pages_with_a_buffer_of_the_caller() {
    let mut pool = pool();
    pool.map(0, AT, false).unwrap();
    pool.store(0, AT, 7, 6).unwrap();
    pool.begin_round();
    let mut words = [0; 8];
    assert_eq!(pool.isolate_into(&mut words[1..]), Err(Error::Range));
    let page = pool.isolate_into(&mut words).unwrap().unwrap();
    assert_eq!(words, [0, 0, 0, 0, 0, 0, 0, 6]);
    assert_eq!(pool.commit_copy(page, &[0; 8]), Err(Error::Stranger));
    assert_eq!(pool.commit_copy(page, &[]), Err(Error::Range));
    assert_eq!(pool.commit_copy(page, &words), Ok(true));
    assert_eq!(pool.commit_copy(page, &words), Err(Error::Stranger));
    assert_eq!(pool.isolate_into(&mut words), Ok(None));
}

#[test]
fn moves_pages_in_slices() {
    let mut pool = Pool::open_journal(PageSize::Bytes64, 1, 11).unwrap();
    assert_eq!(pool.move_pages(1), Slice { moved: 0, stopped: Some(Stopped::Met) });
    for page in 0..5 {
        pool.map(0, Address::new(0, page), false).unwrap();
    }
    pool.begin_round();
    assert_eq!(pool.move_pages(0), Slice { moved: 0, stopped: None });
    assert_eq!(pool.move_pages(2), Slice { moved: 2, stopped: None });
    assert_eq!(pool.look(Address::new(0, 1)).unwrap().place, Place::At { frame: 510, unmovable: false, dirty: false });
    assert_eq!(pool.move_pages(u32::MAX), Slice { moved: 1, stopped: Some(Stopped::JournalFull) });
    assert_eq!((pool.audit().unwrap().moved, pool.journal(), pool.quiet()), (3, (11, 0), true));
}

#[test]
fn empties_a_run() {
    let mut pool = Pool::open_journal(PageSize::Bytes64, 1, 12).unwrap();
    for page in 0..3 {
        pool.map_at(0, Address::new(0, page), false, 6 + page).unwrap();
    }
    pool.store(0, Address::new(0, 1), 7, 5).unwrap();
    assert_eq!([(0, 10), (4, 3), (512, 3)].map(|(first, order)| pool.evacuate(first, order)), [Err(Error::Range); 3]);
    pool.pin(0, Address::new(0, 1)).unwrap();
    assert_eq!((pool.evacuate(0, 3), pool.evacuate(8, 3), pool.evacuate(8, 3)), (Err(Error::NoBlock), Ok(1), Ok(0)));
    pool.unpin(0, Address::new(0, 1)).unwrap();
    assert_eq!(pool.evacuate(0, 9), Err(Error::NoBlock));
    assert_eq!((pool.journal(), pool.evacuate(0, 3)), ((8, 4), Ok(2)));
    let places = [0, 1, 2].map(|page| pool.look(Address::new(0, page)).unwrap().place);
    assert_eq!(places, [(510, false), (509, true), (511, false)].map(|(frame, dirty)| Place::At { frame, unmovable: false, dirty }));
    assert_eq!((pool.evacuate(504, 3), pool.journal(), pool.free_runs(8)), (Err(Error::JournalFull), (12, 0), Ok(1)));
}

#[test]
fn empties_a_claimed_run_in_steps() {
    let mut pool = Pool::open_journal(PageSize::Bytes64, 1, 12).unwrap();
    for page in 0..3 {
        pool.map_at(0, Address::new(0, page), false, 9 + page).unwrap();
    }
    assert_eq!([(0, 10), (4, 3), (512, 3)].map(|(first, order)| pool.claim(first, order)), [Err(Error::Range); 3]);
    assert_eq!([pool.claim(8, 3), pool.claim(8, 3), pool.evacuate(0, 4)], [Ok(3), Err(Error::NoBlock), Err(Error::NoBlock)]);
    pool.pin(0, Address::new(0, 1)).unwrap();
    assert_eq!(pool.empty_some(8, 3, 2), Ok(Step { moved: 2, unclaimed: 1 }));
    assert_eq!(pool.take_claimed(8, 3), Err(Error::NoBlock));
    pool.unpin(0, Address::new(0, 1)).unwrap();
    assert_eq!(pool.empty_some(8, 3, 2), Ok(Step { moved: 1, unclaimed: 0 }));
    let places = [0, 1, 2].map(|page| pool.look(Address::new(0, page)).unwrap().place);
    assert_eq!(places, [511, 509, 510].map(|frame| Place::At { frame, unmovable: false, dirty: false }));
    let huge = pool.take_claimed(8, 3).unwrap();
    assert_eq!((pool.journal(), pool.info().held, huge.first(), huge.order()), ((12, 0), 8, 8, 3));
    assert_eq!([pool.drop_claim(8, 3), pool.drop_claim(8, 2)], [Ok(()), Err(Error::Range)]);
    assert_eq!(pool.info().held, 8);
}

#[test]
fn maps_unmovable_pages_apart() {
    let mut pool = Pool::open(PageSize::Bytes64, 2).unwrap();
    let frames = [(true, false), (true, true), (false, true)].map(|(apart, unmovable)| {
        pool.set_apart(apart);
        let page = pool.info().pages;
        pool.map(0, Address::new(0, page), unmovable)
    });
    assert_eq!(frames, [Ok(0), Ok(512), Ok(1)]);
}

#[test]
fn reserves_the_cheapest_runs() {
    let mut pool = Pool::open_journal(PageSize::Bytes64, 1, 7).unwrap();
    for (page, frame) in [(0, 1), (1, 2), (2, 300)] {
        pool.map_at(0, Address::new(0, page), false, frame).unwrap();
    }
    let refused = [(1, 2), (1, 10), (1, 9), (3, 7)].map(|(count, order)| pool.reserve(count, order).unwrap_err());
    assert_eq!(refused, [Error::Range, Error::Range, Error::NoBlock, Error::JournalFull]);
    assert_eq!(pool.reserve(0, 8), Ok(Reserved { blocks: vec![], moved: 0 }));
    let Reserved { blocks, moved } = pool.reserve(1, 8).unwrap();
    assert_eq!((blocks.len(), blocks[0].first(), blocks[0].order(), moved), (1, 256, 8, 1));
    assert_eq!(pool.look(Address::new(0, 2)).unwrap().place, Place::At { frame: 255, unmovable: false, dirty: false });
    assert_eq!((pool.journal(), pool.info().held), ((6, 1), 256));
}

#[test]
fn keeps_blocks_ready() {
    let mut pool = Pool::open(PageSize::Bytes64, 2).unwrap();
    for (page, frame) in [0, 9, 512, 513, 514].into_iter().enumerate() {
        pool.map_at(0, Address::new(0, page as u32), false, frame).unwrap();
    }
    assert_eq!([pool.cheapest_run(9), pool.cheapest_run(2)], [Ok(CheapestRun { first: 0, pages: 2 }), Err(Error::Range)]);
    let mut keeper = Keeper::new(9, 1);
    let steps = [1, 1, 1, 1].map(|most| keeper.step(&mut pool, most).unwrap());
    let wanted = [(0, true), (1, true), (1, true), (0, false)].map(|(moved, more)| KeeperStep { moved, more });
    assert_eq!((steps, keeper.claimed(), pool.info().held), (wanted, &[0][..], 512));
    let Taken { block, moved } = keeper.take(&mut pool).unwrap();
    assert_eq!((block.first(), block.order(), moved, keeper.claimed()), (0, 9, 0, &[][..]));
    assert_eq!(keeper.take(&mut pool), Err(Error::NoBlock));
    pool.give(block).unwrap();
    assert_eq!(keeper.step(&mut pool, 1), Ok(KeeperStep { moved: 0, more: true }));
    keeper.close(&mut pool).unwrap();
    assert_eq!((keeper.claimed(), pool.info().held), (&[][..], 0));
    assert_eq!(keeper.take(&mut pool).map(|taken| taken.moved), Ok(0));
    assert_eq!(Keeper::new(10, 1).step(&mut pool, 1), Err(Error::Range));
    assert_eq!(Keeper::new(3, 0).step(&mut pool, 1), Ok(KeeperStep { moved: 0, more: false }));
}

#[test]
fn moves_slices_beside_other_threads() {
    let mut pool = pool();
    for page in 0..100 {
        pool.map(0, Address::new(0, page), false).unwrap();
    }
    let pool = Mutex::new(pool);
    pool.lock().unwrap().begin_round();
    let moved: u32 = std::thread::scope(|threads| {
        let slices = [1, 2, 3].map(|most| threads.spawn(move_all(&pool, most)));
        slices.into_iter().map(|it| it.join().unwrap()).sum()
    });
    let mut pool = pool.into_inner().unwrap();
    assert_eq!((moved, pool.audit().unwrap().moved, pool.info().moving), (100, 100, 0));
    assert!((0..100).all(|page| pool.load(0, Address::new(0, page), 0) == Ok(0)));
}

/// Moves so many pages under each hold of the lock until there are no more, and counts them.
fn move_all(pool: &Mutex<Pool>, most: u32) -> impl FnOnce() -> u32 + Send + '_ {
    move || {
        let mut moved = 0;
        loop {
            let slice = pool.lock().unwrap().move_pages(most);
            moved += slice.moved;
            if slice.stopped.is_some() {
                break moved;
            }
        }
    }
}

/// A pool with a page in its frame 0 and a round that has begun.
fn shared() -> Mutex<Pool> {
    let mut pool = pool();
    pool.map(0, AT, false).unwrap();
    pool.begin_round();
    Mutex::new(pool)
}

#[test]
fn puts_back_the_page_of_a_guard_that_is_dropped() {
    let pool = shared();
    drop(MovingGuard::isolate(&pool).unwrap().unwrap());
    assert_eq!(pool.lock().unwrap().look(AT).unwrap().place, Place::At { frame: 0, unmovable: false, dirty: false });
    pool.lock().unwrap().begin_round();
    let guard = MovingGuard::isolate(&pool).unwrap().unwrap();
    assert_eq!((guard.serial(), guard.words()), (1, &[0; 8][..]));
    assert_eq!(guard.commit(), Ok(true));
    assert!(MovingGuard::isolate(&pool).unwrap().is_none());
    let counts = pool.lock().unwrap().audit().unwrap();
    assert_eq!((counts.isolated, counts.moved, counts.back), (2, 1, 1));
}

#[test]
fn puts_back_the_page_of_a_thread_that_panics() {
    let pool = shared();
    let ended = std::thread::scope(|threads| {
        let carrier = threads.spawn(|| {
            let _guard = MovingGuard::isolate(&pool).unwrap().unwrap();
            panic!("the carrier fails");
        });
        carrier.join()
    });
    assert!(ended.is_err());
    assert_eq!(pool.lock().unwrap().audit().unwrap().back, 1);
}

#[test]
fn refuses_a_guard_whose_page_another_has_put_back() {
    let pool = shared();
    let guard = MovingGuard::isolate(&pool).unwrap().unwrap();
    let found = pool.lock().unwrap().moving_pages();
    assert_eq!(pool.lock().unwrap().put_back_lost(found[0].page), Ok(()));
    assert_eq!(guard.put_back(), Err(Error::Stranger));
    pool.lock().unwrap().begin_round();
    let guard = MovingGuard::isolate(&pool).unwrap().unwrap();
    let found = pool.lock().unwrap().moving_pages();
    assert_eq!(pool.lock().unwrap().put_back_lost(found[0].page), Ok(()));
    assert_eq!(guard.commit(), Err(Error::Stranger));
    assert_eq!(pool.lock().unwrap().audit().unwrap().back, 2);
}

#[test]
fn describes_itself() {
    let mut pool = Pool::open_journal(PageSize::Bytes4096, 3, 77).unwrap();
    let geometry = pool.geometry();
    assert_eq!((geometry.page_words, geometry.blocks, geometry.places), (512, 3, 77));
    assert_eq!((geometry.spaces, geometry.vpages), (8, 4096));
    assert_eq!(self::pool().geometry().places, 0);
}

#[test]
fn counts_free_runs() {
    let mut pool = pool();
    pool.map_at(0, AT, false, 510).unwrap();
    // 511 is a run of order 0, 508 of order 1, and so on down to 0, of order 8.
    let runs: Vec<_> = (0..10).map(|order| pool.free_runs(order)).collect();
    assert_eq!((&runs[..9], runs[9]), (&[Ok(1); 9][..], Ok(0)));
    assert_eq!((pool.fragmentation(8), pool.fragmentation(9)), (Ok(-1000), Ok(1000 - (1000 + 511 * 1000 / 512) / 9)));
    assert_eq!((pool.free_runs(10), pool.fragmentation(10)), (Err(Error::Range), Err(Error::Range)));
}

#[test]
fn refuses_words_whose_end_wraps() {
    let mut pool = pool();
    let huge = pool.take_huge(3).unwrap();
    assert_eq!(pool.read_huge(&huge, usize::MAX, &mut [0, 0]), Err(Error::Range));
    assert_eq!(pool.write_huge(&huge, usize::MAX, &[0]), Err(Error::Range));
    assert_eq!(pool.read_huge(&huge, 64, &mut []), Ok(()));
    assert_eq!(pool.read(0, AT, u32::MAX, &mut [0, 0]), Err(Error::Range));
}

#[test]
fn carries_pages_on_other_threads() {
    let mut pool = pool();
    for page in 0..100 {
        pool.map(0, Address::new(0, page), false).unwrap();
        pool.store(0, Address::new(0, page), 7, u64::from(page)).unwrap();
    }
    let pool = Mutex::new(pool);
    pool.lock().unwrap().begin_round();
    std::thread::scope(|threads| {
        for _ in 0..4 {
            threads.spawn(|| loop {
                let Some(page) = pool.lock().unwrap().isolate().unwrap() else { break };
                assert!(pool.lock().unwrap().commit(page).unwrap());
            });
        }
    });
    let mut pool = pool.into_inner().unwrap();
    assert_eq!(pool.audit().unwrap().moved, 100);
    assert!(pool.quiet());
    assert!((0..100).all(|page| pool.load(0, Address::new(0, page), 7) == Ok(u64::from(page))));
}

#[test]
fn reads_and_writes_words() {
    let mut pool = pool();
    pool.map(0, AT, false).unwrap();
    pool.write(0, AT, 6, &[1, 2]).unwrap();
    let mut words = [9; 8];
    pool.read(0, AT, 0, &mut words).unwrap();
    assert_eq!(words, [0, 0, 0, 0, 0, 0, 1, 2]);
    assert_eq!(pool.read(0, AT, 1, &mut words), Err(Error::Range));
    assert_eq!(pool.read(0, AT, 0, &mut []), Ok(()));
    assert_eq!(pool.write(0, AT, 0, &[]), Ok(()));
}

#[test]
fn tells_its_journal() {
    let mut pool = Pool::open_journal(PageSize::Bytes64, 1, 3).unwrap();
    pool.map(1, AT, false).unwrap();
    pool.store(2, AT, 3, 4).unwrap();
    assert_eq!(pool.journal(), (2, 1));
    assert!(matches!(pool.record_at(0), Ok(Record::Map { client: 1, address: AT, .. })));
    assert_eq!(pool.record_at(1), Ok(Record::Store { client: 2, address: AT, word: 3, value: 4 }));
    assert_eq!(pool.record_at(2), Err(Error::Range));
    assert_eq!(pool.compact(), Err(Error::JournalFull));
}

#[test]
fn tells_errors() {
    let error = pool().unmap(0, AT).unwrap_err();
    assert_eq!((error.number(), error.to_string().as_str()), (3, "the address names no page"));
    let told: Box<dyn std::error::Error> = Box::new(error);
    assert_eq!(told.to_string(), "the address names no page");
    assert_eq!((Error::PagesMoving.number(), Error::Other(99).number()), (16, 99));
    assert_eq!(Error::Other(99).to_string(), "unknown refusal 99");
}

#[test]
fn carries_pages_together() {
    let mut pool = pool();
    for page in 0..3 {
        pool.map(0, Address::new(0, page), false).unwrap();
    }
    assert_eq!(pool.isolate_many(2).unwrap(), []); // no round was begun
    pool.begin_round();
    let mut pages = pool.isolate_many(2).unwrap();
    assert_eq!((pages.len(), pool.isolate_many(0), pool.info().moving), (2, Ok(vec![]), 2));
    pool.pin(0, AT).unwrap();
    pages.extend(pool.isolate_many(9).unwrap());
    pool.put_back_lost(pages[1].page()).unwrap();
    let answers = pool.commit_many(pages);
    assert_eq!((answers.len(), &answers[0], &answers[2]), (3, &Ok(false), &Ok(true)));
    assert_eq!(answers[1].as_ref().unwrap_err().error, Error::Stranger);

    let mut kept = Pool::open_journal(PageSize::Bytes64, 1, 5).unwrap();
    kept.map(0, AT, false).unwrap();
    kept.map(0, Address::new(0, 1), false).unwrap();
    kept.begin_round();
    let pages = kept.isolate_many(2).unwrap();
    assert_eq!((pages.len(), kept.isolate_many(2)), (1, Err(Error::JournalFull)));
    assert_eq!(kept.commit_many(pages), [Ok(true)]);
}
