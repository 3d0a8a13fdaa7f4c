//! Opens a pool, maps and stores, compacts, takes a huge page and uses its memory: as `c/examples/first.c` does.

use compactd::{Address, PageSize, Pool};

fn main() -> Result<(), Box<dyn std::error::Error>> {
    let mut pool = Pool::open(PageSize::Bytes4096, 2)?;
    let (low, high) = (Address::new(0, 0), Address::new(0, 1));

    // One page in each of the two pageblocks, so that none of them is free as a whole.
    pool.map_at(0, low, false, 0)?;
    pool.map_at(0, high, false, 512)?;
    pool.store(0, low, 3, 7)?;
    if let Err(error) = pool.take_huge(9) {
        println!("a huge page is refused as {}: {error}", error.number());
    }

    pool.compact()?;
    let huge = pool.take_huge(9)?;
    println!("a huge page from frame {} on", huge.first());

    let mut words = [5, 6];
    pool.write_huge(&huge, 1000, &words)?;
    words = [0, 0];
    pool.read_huge(&huge, 1000, &mut words)?;
    println!("its words 1000 and 1001 are {} and {}", words[0], words[1]);
    println!("word 3 of the page is {}", pool.load(0, low, 3)?);
    Ok(())
}
