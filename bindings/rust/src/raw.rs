//! The calls of the library as C has them.

use std::ffi::c_void;
use std::ptr::null_mut;

#[repr(C)]
pub struct Handle {
    pub at: *mut c_void,
}

/// Words in memory: where they begin and how many there are.
#[repr(C)]
pub struct Words {
    pub at: *mut u64,
    pub count: usize,
}

impl Words {
    pub const NONE: Words = Words { at: null_mut(), count: 0 };
}

/// The counts of a pool.
#[repr(C)]
#[derive(Clone, Copy, Debug, Default, PartialEq, Eq)]
pub struct Counts {
    /// Free frames.
    pub free: u32,
    /// Pages in use, moving pages included.
    pub pages: u32,
    /// Moving pages.
    pub moving: u32,
    /// Blocks that are handed out.
    pub huge: u32,
    /// Pageblocks whose 512 frames are all free.
    pub whole: u32,
    /// Frames of the blocks that are handed out, and claimed frames.
    pub held: u32,
    reserved: [u64; 2],
}

/// What a pool was opened with.
#[repr(C)]
#[derive(Clone, Copy, Debug, Default, PartialEq, Eq)]
pub struct Geometry {
    /// Words of a page: 8 or 512.
    pub page_words: u32,
    /// Pageblocks: 1 to 32,768.
    pub blocks: u32,
    /// Places of its journal, used or not; 0 where it keeps none.
    pub places: u64,
    /// Address spaces: 1 to 256.
    pub spaces: u32,
    /// Virtual pages of each space: 1 to 16,777,216.
    pub vpages: u32,
    reserved: u64,
}

#[repr(C)]
#[derive(Clone, Copy, Default)]
pub struct PageInfo {
    pub serial: u64,
    pub frame: u32,
    pub flags: u32,
    pub pins: u32,
    pub maps: u32,
    pub moving: bool,
    reserved: [u64; 2],
}

/// How many pages rounds isolated since the pool was opened, and how each of these moves ended.
#[repr(C)]
#[derive(Clone, Copy, Debug, Default, PartialEq, Eq)]
pub struct RoundCounts {
    /// Pages that were isolated.
    pub isolated: u64,
    /// Pages that were moved.
    pub moved: u64,
    /// Pages that were put back.
    pub back: u64,
    reserved: [u64; 2],
}

#[repr(C)]
#[derive(Clone, Copy, Debug, Default, PartialEq, Eq)]
pub struct MovingPage {
    pub serial: u64,
    pub number: u32,
    pub flags: u32,
    reserved: [u64; 2],
}

/// The move of a page whose words are lent.
#[repr(C)]
pub struct LentMove {
    pub serial: u64,
    pub page: u32,
    pub source: u32,
    pub target: u32,
    reserved: u32,
    pub from: Words,
    pub to: Words,
}

impl LentMove {
    pub const NONE: LentMove = LentMove { serial: 0, page: 0, source: 0, target: 0, reserved: 0, from: Words::NONE, to: Words::NONE };
}

/// A page that [`crate::Pool::map_many`] is to map or [`crate::Pool::unmap_many`] to unmap, and what came of it.
#[repr(C)]
#[derive(Clone, Copy, Debug, PartialEq, Eq)]
pub struct PageRequest {
    pub(crate) space: u32,
    pub(crate) vpage: u32,
    pub(crate) unmovable: u32,
    pub(crate) frame: u32,
    pub(crate) status: u32,
}

#[repr(C)]
#[derive(Clone, Copy, Default)]
pub struct Move {
    pub source: u32,
    pub target: u32,
    pub space: u32,
    pub vpage: u32,
    reserved: [u64; 2],
}

#[repr(C)]
#[derive(Clone, Copy, Default)]
pub struct Record {
    pub kind: u32,
    pub client: u32,
    pub space: u32,
    pub vpage: u32,
    pub number: u64,
    pub other: u64,
    pub value: u64,
    reserved: [u64; 2],
}

extern "C" {
    pub fn compactd_open(pool: *mut Handle, page_words: u32, blocks: u32) -> u32;
    pub fn compactd_open_journal(pool: *mut Handle, page_words: u32, blocks: u32, places: u32) -> u32;
    pub fn compactd_open_sized(pool: *mut Handle, page_words: u32, blocks: u32, spaces: u32, vpages: u32, places: u32) -> u32;
    pub fn compactd_open_in(
        pool: *mut Handle,
        page_words: u32,
        blocks: u32,
        spaces: u32,
        vpages: u32,
        places: u32,
        memory: *mut Words,
        is_blank: bool,
    ) -> u32;
    pub fn compactd_close(pool: *mut Handle) -> u32;
    pub fn compactd_close_in(pool: *mut Handle, memory: *mut Words) -> u32;
    pub fn compactd_set_apart(pool: *mut Handle, apart: bool) -> u32;
    pub fn compactd_map(pool: *mut Handle, client: u32, space: u32, vpage: u32, unmovable: bool, frame: *mut u32) -> u32;
    pub fn compactd_map_at(pool: *mut Handle, client: u32, space: u32, vpage: u32, unmovable: bool, frame: u32) -> u32;
    pub fn compactd_load(pool: *mut Handle, client: u32, space: u32, vpage: u32, word: u32, value: *mut u64) -> u32;
    pub fn compactd_store(pool: *mut Handle, client: u32, space: u32, vpage: u32, word: u32, value: u64) -> u32;
    pub fn compactd_share(pool: *mut Handle, client: u32, space: u32, vpage: u32, alias_space: u32, alias_vpage: u32) -> u32;
    pub fn compactd_unmap(pool: *mut Handle, client: u32, space: u32, vpage: u32) -> u32;
    pub fn compactd_map_many(pool: *mut Handle, client: u32, requests: *mut PageRequest, count: usize) -> u32;
    pub fn compactd_unmap_many(pool: *mut Handle, client: u32, requests: *mut PageRequest, count: usize) -> u32;
    pub fn compactd_pin(pool: *mut Handle, client: u32, space: u32, vpage: u32) -> u32;
    pub fn compactd_unpin(pool: *mut Handle, client: u32, space: u32, vpage: u32) -> u32;
    pub fn compactd_take_order(pool: *mut Handle, order: u32, first: *mut u32) -> u32;
    pub fn compactd_give_order(pool: *mut Handle, first: u32, order: u32) -> u32;
    pub fn compactd_mark(pool: *mut Handle, block: u32) -> u32;
    pub fn compactd_unmark(pool: *mut Handle, block: u32) -> u32;
    pub fn compactd_read(pool: *mut Handle, client: u32, space: u32, vpage: u32, from: u32, values: *mut u64, count: usize) -> u32;
    pub fn compactd_write(pool: *mut Handle, client: u32, space: u32, vpage: u32, from: u32, values: *const u64, count: usize) -> u32;
    pub fn compactd_read_block(pool: *mut Handle, first: u32, order: u32, from: usize, values: *mut u64, count: usize) -> u32;
    pub fn compactd_write_block(pool: *mut Handle, first: u32, order: u32, from: usize, values: *const u64, count: usize) -> u32;
    pub fn compactd_block_words(pool: *mut Handle, first: u32, order: u32, words: *mut Words) -> u32;
    pub fn compactd_return_block(pool: *mut Handle, first: u32, order: u32, words: *mut Words) -> u32;
    pub fn compactd_page_words(pool: *mut Handle, space: u32, vpage: u32, words: *mut Words) -> u32;
    pub fn compactd_return_page(pool: *mut Handle, client: u32, space: u32, vpage: u32, words: *mut Words) -> u32;
    pub fn compactd_info(pool: *mut Handle, counts: *mut Counts) -> u32;
    pub fn compactd_describe(pool: *mut Handle, geometry: *mut Geometry) -> u32;
    pub fn compactd_free_runs(pool: *mut Handle, order: u32, runs: *mut u32) -> u32;
    pub fn compactd_fragmentation(pool: *mut Handle, order: u32, index: *mut i32) -> u32;
    pub fn compactd_look(pool: *mut Handle, space: u32, vpage: u32, info: *mut PageInfo) -> u32;
    pub fn compactd_marked(pool: *mut Handle, block: u32, marked: *mut bool) -> u32;
    pub fn compactd_quiet(pool: *mut Handle, quiet: *mut bool) -> u32;
    pub fn compactd_audit(pool: *mut Handle, counts: *mut RoundCounts) -> u32;
    pub fn compactd_ended(pool: *mut Handle, ended: *mut u64) -> u32;
    pub fn compactd_compact(pool: *mut Handle, met: *mut bool) -> u32;
    pub fn compactd_begin_round(pool: *mut Handle) -> u32;
    pub fn compactd_move_pages(pool: *mut Handle, most: u32, moved: *mut u32, stopped: *mut u32) -> u32;
    pub fn compactd_isolate(pool: *mut Handle, page: *mut MovingPage, words: *mut u64, count: usize) -> u32;
    pub fn compactd_commit(pool: *mut Handle, page: *const MovingPage, words: *const u64, count: usize, moved: *mut bool) -> u32;
    pub fn compactd_put_back(pool: *mut Handle, page: *const MovingPage) -> u32;
    pub fn compactd_lend_move(pool: *mut Handle, page: *mut LentMove) -> u32;
    pub fn compactd_commit_lent(pool: *mut Handle, page: *mut LentMove, moved: *mut bool) -> u32;
    pub fn compactd_put_back_lent(pool: *mut Handle, page: *mut LentMove) -> u32;
    pub fn compactd_evacuate(pool: *mut Handle, first: u32, order: u32, moved: *mut u32) -> u32;
    pub fn compactd_claim(pool: *mut Handle, first: u32, order: u32, pages: *mut u32) -> u32;
    pub fn compactd_empty_some(pool: *mut Handle, first: u32, order: u32, most: u32, moved: *mut u32, unclaimed: *mut u32) -> u32;
    pub fn compactd_lend_move_from(pool: *mut Handle, first: u32, order: u32, page: *mut LentMove) -> u32;
    pub fn compactd_commit_and_claim(pool: *mut Handle, page: *mut LentMove, moved: *mut bool) -> u32;
    pub fn compactd_take_claimed(pool: *mut Handle, first: u32, order: u32) -> u32;
    pub fn compactd_drop_claim(pool: *mut Handle, first: u32, order: u32) -> u32;
    pub fn compactd_reserve(pool: *mut Handle, order: u32, firsts: *mut u32, count: usize, moved: *mut u32) -> u32;
    pub fn compactd_cheapest_run(pool: *mut Handle, order: u32, first: *mut u32, pages: *mut u32) -> u32;
    pub fn compactd_keep(
        pool: *mut Handle,
        order: u32,
        most: u32,
        firsts: *mut u32,
        ready: usize,
        count: *mut usize,
        moved: *mut u32,
        more: *mut bool,
    ) -> u32;
    pub fn compactd_take_kept(
        pool: *mut Handle,
        order: u32,
        firsts: *mut u32,
        ready: usize,
        count: *mut usize,
        first: *mut u32,
        moved: *mut u32,
    ) -> u32;
    pub fn compactd_next_moving(pool: *mut Handle, from: u32, page: *mut MovingPage, at: *mut Move) -> u32;
    pub fn compactd_journal(pool: *mut Handle, records: *mut u64, room: *mut u64) -> u32;
    pub fn compactd_record_at(pool: *mut Handle, place: usize, record: *mut Record) -> u32;
    pub fn compactd_version() -> u32;
}
