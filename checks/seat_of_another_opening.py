"""A seat is good for the zone that it was opened with, and for no other.

Its type names the opening, so a program that hands the seat of one zone to another doesn't compile. The must-fail edits
can't show this, since they are for what compiles and isn't proved. So this check adds a crate to a copy of the
repository. One function of it ends a move with the zone's own seat, and the same function over again with the seat of
another zone. The types of the second call alone have to be refused, which takes no proof."""

import pathlib
import tempfile

import runs

CRATE = "other_seat"
LIBRARIES = "frame_core zone_core"
WANTED = "error[mismatched-types]: expected `&mut EndSeat<MovedPages<Y>, PagesBack<Y>>`, found `&mut EndSeat<MovedPages<Z>, PagesBack<Z>>`"

HEAD = """//! Ends a move in one of two zones.
#![tactic(auto)]

use frame_core::Copied;
use zone_core::{EndSeatIn, Ended, Opening, Stranger, ZoneIn};
"""
FUNCTION = """
/// Ends a move in the first zone.
pub fn NAME<Y: Opening, Z: Opening>(
    zone: &mut ZoneIn<Y>,
    _other: &mut ZoneIn<Z>,
    seat: &mut SEAT,
    copied: Copied,
) -> Result<Ended, Stranger<Copied>> {
    zone.commit(seat, copied)
}
"""


def function(name, seat):
    return FUNCTION.replace("NAME", name).replace("SEAT", seat)


def copy_repository(folder):
    """A copy of what is proved, with one crate more, whose folder this gives."""
    runs.copy_sources(folder)
    with open(folder / "crates.txt", "a") as crates:
        crates.write(f"{CRATE}: {LIBRARIES}\n")
    crate = folder / "crates" / CRATE
    (crate / "src").mkdir(parents=True)
    return crate


def main():
    runs.need_proof("a proof of the crates up to zone_core")
    with tempfile.TemporaryDirectory() as folder:
        crate = copy_repository(pathlib.Path(folder))
        both = function("end", "EndSeatIn<Y>") + function("end_elsewhere", "EndSeatIn<Z>")
        (crate / "src/lib.rt").write_text(HEAD + both)
        checked = runs.finished([runs.rt(), "check"], cwd=crate)
    log = (checked.output + checked.error).decode(errors="replace")
    if checked.status == 0:
        raise runs.Failed("a seat of another opening is accepted")
    if WANTED not in log or sum(": error" in line for line in log.splitlines()) != 1:
        raise runs.Failed(f"{log}a seat of another opening is refused, but not for its type alone")
    return "a seat of its own opening ends a move, and one of another opening is refused by its type"


if __name__ == "__main__":
    runs.start(main)
