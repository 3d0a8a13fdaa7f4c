//! A page pool that makes huge pages by moving pages, over `libcompactd`, whose calls are proved.
//!
//! A [`Pool`] is a row of frames, 512 in each of its pageblocks. A frame holds a page or is free, and an [`Address`] names a page.
//! When free frames are scattered, [`Pool::compact`] moves pages together, and [`Pool::take_huge`] hands out a block of free frames,
//! whose words are then the caller's to use.
//!
//! ```
//! use compactd::{Address, PageSize, Pool};
//!
//! # fn main() -> Result<(), compactd::Error> {
//! let mut pool = Pool::open(PageSize::Bytes4096, 2)?;
//! // A page in each of the two pageblocks: none of them is free as a whole.
//! let (low, high) = (Address::new(0, 0), Address::new(0, 1));
//! pool.map_at(0, low, false, 0)?;
//! pool.map_at(0, high, false, 512)?;
//! pool.store(0, low, 3, 7)?;
//! assert_eq!(pool.take_huge(9), Err(compactd::Error::NoBlock));
//!
//! pool.compact()?;
//! let huge = pool.take_huge(9)?;
//! pool.write_huge(&huge, 0, &[1, 2, 3])?;
//! assert_eq!(pool.load(0, low, 3)?, 7);
//! pool.give(huge)?;
//! # Ok(())
//! # }
//! ```
//!
//! # Memory
//!
//! A pool has memory of the library's, or lies in a [`Memory`], which is mapped in huge pages of the processor. Then [`Pool::block_words`]
//! lends the words of a block as a slice, and [`Pool::pin_words`] those of a page, which has a pin meanwhile. Nothing is copied.
//! [`Pool::lend_move`] lends the words of both frames of a page that is moving.
//!
//! # What is proved
//!
//! Each function of the library is proved to meet its contract: when it is refused and with which number, what it answers, and what it
//! leaves. This crate, which calls them, isn't proved, nor is the compiler that builds it. It is small, and safe by its types: a handle
//! is made zeroed and is private, each call borrows the pool alone, and lengths come from slices. Words that are lent have one owner, who
//! returns them to their pool, and to their block or page. So the library gets what its contracts ask for.
//!
//! # Threads
//!
//! A `Pool` may be sent to another thread. Threads that share one keep it in a `Mutex`. A [`MovingGuard`] is a page of such a pool that is
//! moving; it puts the page back when it is dropped. [`Pool::round`] makes a round in slices, and [`Pool::round_on`] one on several threads,
//! which copy pages without the lock. [`Pool::empty_on`] empties runs of frames so.

#![deny(missing_docs, unsafe_op_in_unsafe_fn)]

mod claims;
mod error;
mod huge;
mod keeping;
mod lent_move;
mod many;
mod memory;
mod moving;
mod pool;
mod questions;
mod raw;
mod record;
mod rounds;
mod shared_rounds;

pub use claims::Step;
pub use error::Error;
pub use huge::{Huge, Kept};
pub use keeping::{CheapestRun, Keeper, KeeperStep, Taken};
pub use lent_move::{CopiedMove, LentMove};
pub use memory::{BlockWords, Memory, PageWords};
pub use moving::{Move, Moving, MovingGuard, MovingPage};
pub use pool::{version, Address, PageSize, Pool, PoolSize};
pub use questions::{Look, Place};
pub use raw::{Counts, Geometry, PageRequest, RoundCounts};
pub use record::Record;
pub use rounds::{ListedMoves, Reserved, Slice, Stopped};
pub use shared_rounds::Round;
