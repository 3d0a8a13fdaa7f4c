use std::fmt;

/// Why a call was refused. A refused call changes nothing, but for [`crate::Pool::compact`], [`crate::Pool::map_many`] and
/// [`crate::Pool::unmap_many`], which say what they leave.
#[derive(Clone, Copy, Debug, PartialEq, Eq, Hash)]
#[non_exhaustive]
pub enum Error {
    /// An argument is out of its range.
    Range,
    /// The journal has no place left but those for the ends of moves.
    JournalFull,
    /// The address names no page.
    Unmapped,
    /// The page is moving.
    Moving,
    /// The address names a page already.
    Occupied,
    /// No frame is free, or the given frame isn't.
    NoFrame,
    /// The page has 4 addresses already.
    ShareFull,
    /// The page has 255 pins already.
    PinFull,
    /// The page has no pin.
    NotPinned,
    /// The page has a pin and this is its last address.
    Pinned,
    /// No block of this order has only free frames, or the run can't be emptied or isn't claimed as a whole.
    NoBlock,
    /// No such block is handed out by this pool.
    NotHuge,
    /// No such page is moving in this pool, or its words differ or are lent.
    Stranger,
    /// There isn't enough memory.
    Memory,
    /// A page of the pool is moving.
    PagesMoving,
    /// The pageblock is marked already.
    Marked,
    /// The pageblock isn't marked.
    NotMarked,
    /// The words are lent.
    Lent,
    /// The pool lies in memory of its own.
    OwnMemory,
    /// No page is moving out of this frame or a higher one.
    NotMoving,
    /// The library answered a number that this crate doesn't know.
    Other(u32),
}

/// Each error but `Other`, with the number and the text that `compactd.h` has for it.
const KNOWN: [(Error, u32, &str); 20] = [
    (Error::Range, 1, "an argument is out of its range"),
    (Error::JournalFull, 2, "the journal has no place left but those for the ends of moves"),
    (Error::Unmapped, 3, "the address names no page"),
    (Error::Moving, 4, "the page is moving"),
    (Error::Occupied, 5, "the address names a page already"),
    (Error::NoFrame, 6, "no frame is free, or the given frame isn't"),
    (Error::ShareFull, 7, "the page has 4 addresses already"),
    (Error::PinFull, 8, "the page has 255 pins already"),
    (Error::NotPinned, 9, "the page has no pin"),
    (Error::Pinned, 10, "the page has a pin and this is its last address"),
    (Error::NoBlock, 11, "no block of this order has only free frames, or the run can't be emptied or isn't claimed as a whole"),
    (Error::NotHuge, 12, "no block of this order that begins at this frame is handed out"),
    (Error::Stranger, 13, "no such page is moving in this pool, or its words differ or are lent"),
    (Error::Memory, 14, "there isn't enough memory"),
    (Error::PagesMoving, 16, "a page of the pool is moving"),
    (Error::Marked, 17, "the pageblock is marked already"),
    (Error::NotMarked, 18, "the pageblock isn't marked"),
    (Error::Lent, 19, "the words are lent"),
    (Error::OwnMemory, 20, "the pool lies in memory of its own"),
    (Error::NotMoving, 54, "no page is moving out of this frame or a higher one"),
];

impl Error {
    pub(crate) fn of(number: u32) -> Error {
        KNOWN.iter().find(|(_, known, _)| *known == number).map_or(Error::Other(number), |(error, ..)| *error)
    }

    /// The number that the library answers for it.
    pub fn number(self) -> u32 {
        match self {
            Error::Other(number) => number,
            known => known.row().map_or(0, |(_, number, _)| *number),
        }
    }

    fn row(self) -> Option<&'static (Error, u32, &'static str)> {
        KNOWN.iter().find(|(error, ..)| *error == self)
    }
}

impl fmt::Display for Error {
    fn fmt(&self, f: &mut fmt::Formatter<'_>) -> fmt::Result {
        match self.row() {
            Some((_, _, text)) => f.write_str(text),
            None => write!(f, "unknown refusal {}", self.number()),
        }
    }
}

impl std::error::Error for Error {}
