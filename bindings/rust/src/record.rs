use crate::raw;
use crate::Address;

/// A record of a journal. Its numbers are those that the call was given, or those that it returned.
#[derive(Clone, Copy, Debug, PartialEq, Eq)]
#[non_exhaustive]
#[allow(missing_docs)] // the names of the fields say what they are
pub enum Record {
    /// The address names a fresh page, with this number.
    Map { client: u32, address: Address, page: u32 },
    /// The alias names the page of the address too.
    Share { client: u32, address: Address, alias: Address },
    /// The address names no page any more.
    Unmap { client: u32, address: Address },
    /// A word was written.
    Store { client: u32, address: Address, word: u32, value: u64 },
    /// A word was read, and had this value.
    Load { client: u32, address: Address, word: u32, value: u64 },
    /// The page got a pin.
    Pin { client: u32, address: Address },
    /// A pin of the page was taken off.
    Unpin { client: u32, address: Address },
    /// The page was isolated, under this serial.
    Isolate { serial: u64, page: u32 },
    /// The page that was isolated under this serial is in its new frame.
    Moved { serial: u64 },
    /// It is in its old frame: it had a pin, or it was put back without its words.
    Back { serial: u64, had_pin: bool },
    /// A block was handed out.
    Take { first: u32, order: u32 },
    /// A block was taken back.
    Give { first: u32, order: u32 },
    /// The pageblock was marked.
    Mark { block: u32 },
    /// The mark of the pageblock was taken off.
    Unmark { block: u32 },
    /// A record of a kind that this crate doesn't know.
    Other { kind: u32 },
}

impl Record {
    pub(crate) fn of(record: raw::Record) -> Record {
        let raw::Record { kind, client, space, vpage, value, number: serial, .. } = record;
        let address = Address { space, vpage };
        // Serials alone are wider in the library.
        let (number, other) = (record.number as u32, record.other as u32);
        match kind {
            1 => Record::Map { client, address, page: number },
            2 => Record::Share { client, address, alias: Address { space: number, vpage: other } },
            3 => Record::Unmap { client, address },
            4 => Record::Store { client, address, word: number, value },
            5 => Record::Load { client, address, word: number, value },
            6 => Record::Pin { client, address },
            7 => Record::Unpin { client, address },
            8 => Record::Isolate { serial, page: other },
            9 => Record::Moved { serial },
            10 => Record::Back { serial, had_pin: other == 1 },
            11 => Record::Take { first: number, order: other },
            12 => Record::Give { first: number, order: other },
            13 => Record::Mark { block: number },
            14 => Record::Unmark { block: number },
            kind => Record::Other { kind },
        }
    }
}
