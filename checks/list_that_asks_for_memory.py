"""The list of a journal can't ask for memory, no list of a zone can, and neither can the box of a zone's tables.

A `Vec` has the allocator that it was made with. So a body that has one can clone it or let it grow, and where it drops what
it made, no clause sees that. The lists of a zone are of the type `FixedVec`, of which only its own file reaches the `Vec`, and
`types_with_allocators.py` looks that a zone has no other type that has an allocator, but for the box.

What asks for memory doesn't compile elsewhere, and the must-fail edits are for what compiles and isn't proved. So this check
plants such lines in `Journal::push`, and in `BareZone::number` for the box, in copies of the repository. Each has to be refused,
and nothing else, which takes no proof."""

import collections
import pathlib
import tempfile

import runs

# A line of a function, and what each line that asks for memory is refused for where it stands before that.
Place = collections.namedtuple("Place", "file before asks")
PLACES = [
    Place(
        "crates/frame_core/src/journal.rt",
        "            records.push(entry);\n",
        {
            "let _copy = records.clone();": "the method `clone` exists for `FixedVec<Record>`, but its bounds are not met",
            "let _more = records.reserve(1);": "no method named `reserve` found for type `FixedVec<Record>`",
            "let _from = records.allocator();": "no method named `allocator` found for type `FixedVec<Record>`",
            "let _list = &records.list;": "field `list` of struct `FixedVec` is private",
        },
    ),
    Place(
        "crates/zone_core/src/bare.rt",
        "        self.tables.number()\n",
        {
            "let _copy = self.tables.clone();": "the method `clone` exists for `Box<ZoneTables<W>>`, but its bounds are not met",
            "let _from = self.tables.allocator();": "`allocator` is an associated function, not a method",
        },
    ),
]


def refused(place):
    """Why a crate isn't compiled in which each line that asks for memory is planted in this place."""
    with tempfile.TemporaryDirectory() as folder:
        folder = pathlib.Path(folder)
        runs.copy_sources(folder)
        source = folder / place.file
        text = source.read_text()
        if text.count(place.before) != 1:
            raise runs.Failed(f"{place.file} has no line to plant others before")
        source.write_text(text.replace(place.before, "".join(f"{line}\n" for line in place.asks) + place.before))
        checked = runs.finished([runs.rt(), "check"], cwd=source.parent.parent)
    log = (checked.output + checked.error).decode(errors="replace")
    if checked.status == 0:
        raise runs.Failed(f"{place.file} asks for memory, and is proved")
    return [line for line in log.splitlines() if ": error" in line]


def main():
    runs.need_proof("a proof of the crates below those that it changes")
    for place in PLACES:
        errors = refused(place)
        if len(errors) != len(place.asks) or not all(any(wanted in error for error in errors) for wanted in place.asks.values()):
            raise runs.Failed("\n".join([f"{place.file} is refused, but not for each line that asks for memory:", *errors]))
    ways = sum(len(place.asks) for place in PLACES)
    return f"{ways} ways in which a list or the box of a zone would ask for memory don't compile"


if __name__ == "__main__":
    runs.start(main)
