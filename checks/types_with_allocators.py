"""A zone has no type that has an allocator, but for its lists, its sets of numbers, its ground of words and the box of its tables.

The crates of a zone name no type of the standard library that has one, but in the lines of `LINES`: in the file of `FixedVec`, for the words
of a set of numbers, for the box of a zone's tables, and where a ground keeps its allocation, which no function lends. Rows and grounds are vectors over that allocation,
whose allocator `Lodged` has no memory to give. What these crates bring in of the standard library is listed here, by its parts too
(`core`, `std_alloc`), and so are the crates that they use. `Global`,
the type of the allocator, stands where it is brought in and as the type of a function's parameter, and nowhere else. So no field has
it, no other name is given to it, and no type or constant is made of it. Comments and what is in quotes don't count.

What lends the allocator of a box is no method: it has to name `Box`. That the lists and the box can't be cloned, and lend no allocator
by a method, `list_that_asks_for_memory.py` finds."""

import functools
import re

import runs
import sources
from launch import program

ZONE = "row_core number_set frame_core table_core scan_core state_core fewest_core zone_tables zone_core".split()
PARTS = {"core", "std_alloc", "std_heap"}  # of the standard library
BESIDE = {"arrayvec", "bitflags", "thiserror"}  # the other crates that they use: none of their types has an allocator
LINES = {
    "crates/row_core/src/allocation.rt": (
        "    list: Vec<u64, Global>,\n",
        "    pub(crate) fn without_right(list: Vec<u64, Global>) -> (Allocation, Right)\n",
        "    pub(crate) fn with_right(self, right: Right) -> Vec<u64, Global>\n",
    ),
    "crates/row_core/src/ground.rt": ("        let mut list = Vec::from_elem(alloc, 0u64, count)?;\n",),
    "crates/row_core/src/right.rt": (
        "use std_alloc::vec::{Lodged, lodge};\n",
        "    pub(crate) fn into_vec(self, ptr: *mut u64, len: usize) -> Vec<u64, Lodged>\n",
        "    pub(crate) fn of_vec(list: Vec<u64, Lodged>) -> Right\n",
    ),
    "crates/row_core/src/row.rt": (
        "use std_alloc::vec::Lodged;\n",
        "    list: Vec<u64, Lodged>,\n",
    ),
    "crates/number_set/src/number_set.rt": ("    words: Vec<u64>,\n",),
    "crates/number_set/src/upper_levels.rt": ("    words: Vec<u64>,\n",),
    "crates/number_set/src/words.rt": (
        "pub(crate) fn open(alloc: Global, count: u32) -> Result<Vec<u64>, AllocError>\n",
        "    Vec::from_elem(alloc, 0u64, count as usize)\n",
    ),
    "crates/frame_core/src/fixed_vec.rt": (
        "    list: Vec<T>,\n",
        "        let list = Vec::with_capacity(alloc, room)?;\n",
        "        let mut list = Vec::with_capacity(alloc, count)?;\n",
    ),
    "crates/zone_core/src/bare/lending.rt": (
        "        match Box::new(alloc, tables) {\n",
        "        Box::into_inner(tables).end()\n",
    ),
    "crates/zone_core/src/bare.rt": (
        "    tables: Box<ZoneTables<W>>,\n",
        ") -> Result<Box<ZoneTables<W>>, ZoneError>\n",
        "    Box::new(alloc, tables).or(Err(ZoneError::Memory))\n",
    ),
}
OWNERS = re.compile(
    r"\b(Vec|VecDeque|Box|String|Rc|Arc|Weak|HashMap|BTreeMap|HashSet|BTreeSet|BinaryHeap|LinkedList|Cow|HostRuntime|dyn|vec|format)\b"
)
STANDARD_PART = rf"(?:std|alloc|{'|'.join(sorted(PARTS))})"
BROUGHT_IN = re.compile(rf"\buse\s+({STANDARD_PART}\b[^;]*);")
STANDARD = re.compile(rf"\b{STANDARD_PART}::")
MAY_BRING_IN = {
    "core::mem::replace_with",
    "std::alloc::AllocError",
    "std::alloc::Global",
    "std::alloc::{AllocError, Global}",
    "std::cmp::Ordering",
    "std::error::Error",
    "std::fmt",
    "std::fmt::{Display, Formatter}",
    "std::marker::Model",
    "std::marker::{Brand, PhantomData}",
    "std::marker::{Model, PhantomData}",
    "std::marker::{Move, Owns}",
    "std::mem::ManuallyDrop",
    "std::ops::Deref",
    "std::ops::{DerefSlice, DerefSliceMut, Index, IndexMut}",
    "std::process::Abort",
    "std::ptr::null_mut",
    "std::slice",
    "std::sync::ledger::Ledger",
    "std::sync::ledger::{Blank, Book, Ledger, Share}",
    "std::sync::ledger::{Book, Ledger}",
}
GHOST = re.compile(r"\bghost use\b[^;]*;")
FUNCTION = re.compile(r"\bfn \w+")
PARAMETER = re.compile(r"(?<=[(,])(\s*)alloc: Global(?=\s*[,)])")
GLOBAL = re.compile(r"\bGlobal\b")


def texts_of(crates):
    """The text of each source of these crates, by its path."""
    paths = (path for crate in crates for path in sorted(runs.ROOT.glob(f"crates/{crate}/src/**/*.rt")))
    return {str(path.relative_to(runs.ROOT)): path.read_text() for path in paths}


@functools.cache
def wrong_in(path, text):
    """Why a type of this file may have an allocator, if one may."""
    for line in LINES.get(path, ()):
        if text.count(line) != 1:
            return f"has not this line once: {line.strip()}"
        text = text.replace(line, "\n")
    code = GHOST.sub("", sources.code_of(text))
    if owner := OWNERS.search(code):
        return f"names `{owner[0]}`"
    if other := next((it for it in BROUGHT_IN.findall(code) if " ".join(it.split()) not in MAY_BRING_IN), None):
        return f"brings in `{other}`"
    code = BROUGHT_IN.sub("", code)
    if STANDARD.search(code):
        return "names the standard library by a path"
    if GLOBAL.search(without_parameters(code)):
        return "names `Global` where it isn't the type of a function's parameter"
    return None


def without_parameters(code):
    """The code without those parameters of its functions that are an allocator."""
    parts, at = [], 0
    for function in FUNCTION.finditer(code):
        begin = opening(code, function.end())
        end = closing(code, begin)
        if begin >= at:
            parts += [code[at:begin], PARAMETER.sub("", code[begin:end])]
            at = end
    return "".join([*parts, code[at:]])


def opening(code, at):
    """Where the parameters of a function begin whose name ends at this place: after its type parameters."""
    depth = 0
    for at in range(at, len(code)):
        depth += {"<": 1, ">": -1}.get(code[at], 0) if code[at - 1] != "-" else 0
        if code[at] == "(" and depth == 0:
            return at
    return at


def closing(code, at):
    """Where the bracket is closed that opens at this place."""
    depth = 0
    for at in range(at, len(code)):
        depth += {"(": 1, ")": -1}.get(code[at], 0)
        if depth == 0:
            return at + 1
    return at


def wrong_crates(crates):
    """The crates that a crate of a zone uses, and that may have types with an allocator."""
    return sorted({used for crate in ZONE for used in crates[crate]} - BESIDE - PARTS - {*ZONE})


# The check of this check: lines by which an allocator would come into a zone, each of which it has to find.

OF_TABLES = "crates/zone_tables/src/moves.rt"
OF_LISTS = "crates/frame_core/src/fixed_vec.rt"
OF_ROWS = "crates/row_core/src/row.rt"
PLANTED = [
    (OF_TABLES, "use std::alloc::Global as Heap;\nstruct Held {\n    heap: Heap,\n}\n"),
    (OF_TABLES, "pub(crate) struct Held {\n    heap: Global,\n}\n"),
    (OF_TABLES, "pub(crate) struct Held {\n    alloc: Global,\n}\n"),
    (OF_TABLES, "struct Held(Global);"),
    (OF_TABLES, "struct Held(u8, Global);\n"),
    (OF_TABLES, "enum Held {\n    Heap { alloc: Global },\n}\n"),
    (OF_TABLES, "type Heap = Global;\n"),
    (OF_TABLES, "impl Has for Moves {\n    type Heap = Global;\n}\n"),
    (OF_TABLES, "struct Held<A = Global> {\n    heap: A,\n}\n"),
    (OF_TABLES, "fn held() -> Held<Global> {}\n"),
    (OF_TABLES, "fn held(moves: Held<Global>) {}\n"),
    (OF_TABLES, "impl Held for Global {}\n"),
    (OF_TABLES, "pub use std::alloc::Global;\npub use std::alloc::*;\n"),
    (OF_TABLES, "use std::alloc as heap;\n"),
    (OF_TABLES, "struct Held {\n    list: std::collections::Queue<u8>,\n}\n"),
    (OF_TABLES, "use std::collections::{Queue};\n"),
    (OF_TABLES, "use std_alloc::deque::Queue;\n"),
    (OF_ROWS, "pub fn given(self) -> Vec<u64, Lodged> {}\n"),
    (OF_TABLES, 'const WHERE: &str = "//"; struct Held { list: Vec<u8> }\n'),
    (OF_TABLES, "/* // */ struct Held { list: Vec<u8> }\n"),
    (OF_TABLES, "struct Held { list: Box<dyn Fn()> }\n"),
    (OF_LISTS, "pub type List<T> = Vec<T>;\n"),
    (OF_LISTS, "pub use std::vec::Vec as List;\n"),
    (OF_LISTS, "pub struct List<T> {\n    list: Vec<T>,\n}\n"),
    ("crates/zone_core/src/bare.rt", "struct Held {\n    tables: Box<ZoneTables<W>>,\n}\n"),
    ("crates/zone_core/src/zone.rt", "type Held = Box<u8>;\n"),
]
NOT_WRONG = "// a Vec<T>, as `Global`\nfn opened<F: Fn(u8) -> u8>(\n    alloc: Global,\n    make: F,\n) -> u8 {}\n"


def try_itself(texts, crates):
    """Each line that is planted at the end of a file is found, and so is a crate that isn't of a zone."""
    for path, lines in PLANTED:
        if not wrong_in(path, texts[path] + lines):
            raise runs.Failed(f"a zone would have an allocator by these lines, and that isn't found:\n{lines}")
    if wrong := wrong_in(OF_TABLES, texts[OF_TABLES] + NOT_WRONG):
        raise runs.Failed(f"{OF_TABLES} {wrong} by these lines, and it doesn't:\n{NOT_WRONG}")
    if wrong_crates({**crates, "zone_core": ["frame_core", "hand_core"]}) != ["hand_core"]:
        raise runs.Failed("a zone would use a crate with allocators, and that isn't found")
    return len(PLANTED) + 1


def main():
    texts, crates = texts_of(ZONE), program.libraries_used(runs.ROOT)
    if found := [f"{path} {wrong}" for path, text in texts.items() if (wrong := wrong_in(path, text))]:
        raise runs.Failed("\n".join(["a zone may have a type with an allocator:", *found]))
    if found := wrong_crates(crates):
        raise runs.Failed(f"a zone uses crates that may have types with an allocator: {', '.join(found)}")
    tried = try_itself(texts, crates)
    return f"{len(texts)} files of a zone's crates name no type with an allocator but its lists, its ground and its box; {tried} ways to are found"


if __name__ == "__main__":
    runs.start(main)
