//! The zone of the plain Rust program, called as the library for C is: the calls that `bench/c_calls.c` makes of it. A caller owes
//! what a caller of the library does: a handle that is zeroed first, valid pointers, one call at a time.

use baseline::round::{compact_alone, Stop};
use baseline::zone::{Address, Look, Zone, ZoneError};

const CLOSED: u32 = 51;

/// A zone, or null.
#[repr(C)]
pub struct Pool {
    at: *mut Zone,
}

/// What is known of a page.
#[repr(C)]
pub struct PageInfo {
    serial: u64,
    frame: u32,
    flags: u32,
    pins: u32,
    maps: u32,
    moving: bool,
    reserved: [u64; 2],
}

/// Makes a call on the zone of a pool, and has its value written where the caller wants it.
unsafe fn made<T>(pool: *mut Pool, to: *mut T, call: impl FnOnce(&mut Zone) -> Result<T, ZoneError>) -> u32 {
    let Some(zone) = (*pool).at.as_mut() else { return CLOSED };
    match call(zone) {
        Ok(value) => {
            *to = value;
            0
        }
        Err(error) => error as u32,
    }
}

fn address(space: u32, vpage: u32) -> Result<Address, ZoneError> {
    Address::new(space.into(), vpage.into()).ok_or(ZoneError::Range)
}

/// A number below 8: a client, or a word of a page.
fn below_8(number: u32) -> Result<u8, ZoneError> {
    u8::try_from(number).ok().filter(|number| *number < 8).ok_or(ZoneError::Range)
}

#[no_mangle]
pub unsafe extern "C" fn compactd_open_journal(pool: *mut Pool, _page_words: u32, blocks: u32, places: u32) -> u32 {
    match Zone::open(0, blocks, places) {
        Ok(zone) => {
            (*pool).at = Box::into_raw(Box::new(zone));
            0
        }
        Err(error) => error as u32,
    }
}

#[no_mangle]
pub unsafe extern "C" fn compactd_close(pool: *mut Pool) -> u32 {
    let at = std::mem::replace(&mut (*pool).at, std::ptr::null_mut());
    if at.is_null() {
        return CLOSED;
    }
    drop(Box::from_raw(at));
    0
}

#[no_mangle]
pub unsafe extern "C" fn compactd_map(pool: *mut Pool, client: u32, space: u32, vpage: u32, unmovable: bool, frame: *mut u32) -> u32 {
    made(pool, frame, |zone| zone.map(below_8(client)?, address(space, vpage)?, unmovable).map(u32::from))
}

#[no_mangle]
pub unsafe extern "C" fn compactd_unmap(pool: *mut Pool, client: u32, space: u32, vpage: u32) -> u32 {
    made(pool, &mut (), |zone| zone.unmap(below_8(client)?, address(space, vpage)?))
}

#[no_mangle]
pub unsafe extern "C" fn compactd_load(pool: *mut Pool, client: u32, space: u32, vpage: u32, word: u32, value: *mut u64) -> u32 {
    made(pool, value, |zone| zone.load(below_8(client)?, address(space, vpage)?, below_8(word)?))
}

#[no_mangle]
pub unsafe extern "C" fn compactd_store(pool: *mut Pool, client: u32, space: u32, vpage: u32, word: u32, value: u64) -> u32 {
    made(pool, &mut (), |zone| zone.store(below_8(client)?, address(space, vpage)?, below_8(word)?, value))
}

#[no_mangle]
pub unsafe extern "C" fn compactd_look(pool: *mut Pool, space: u32, vpage: u32, info: *mut PageInfo) -> u32 {
    made(pool, info, |zone| zone.look(address(space, vpage)?).map(info_of))
}

fn info_of(look: Look) -> PageInfo {
    let (serial, frame, flags, pins, maps, moving) = match look {
        Look::At { frame, flags, pins, maps } => {
            (0, frame.into(), u32::from(flags.unmovable) + 2 * u32::from(flags.dirty), pins, maps, false)
        }
        Look::Moving { serial, pins, maps } => (serial.into(), 0, 0, pins, maps, true),
    };
    PageInfo { serial, frame, flags, pins: pins.into(), maps: maps.into(), moving, reserved: [0; 2] }
}

/// Takes a pageblock: the plain program has no other order than 9.
#[no_mangle]
pub unsafe extern "C" fn compactd_take_order(pool: *mut Pool, _order: u32, first: *mut u32) -> u32 {
    made(pool, first, |zone| zone.take_huge().map(|block| 512 * u32::from(block)))
}

#[no_mangle]
pub unsafe extern "C" fn compactd_give_order(pool: *mut Pool, first: u32, _order: u32) -> u32 {
    made(pool, &mut (), |zone| zone.give_huge(below_8(first / 512)?))
}

#[no_mangle]
pub unsafe extern "C" fn compactd_compact(pool: *mut Pool, met: *mut bool) -> u32 {
    made(pool, met, |zone| Ok(matches!(compact_alone(zone), (_, _, Stop::Met))))
}
