use crate::pool::done;
use crate::raw;
use crate::{Address, Error, PageRequest, Pool};

impl PageRequest {
    /// A request for a page with this address. Whether it is unmovable matters only where it is mapped.
    pub fn new(at: Address, unmovable: bool) -> PageRequest {
        PageRequest { space: at.space, vpage: at.vpage, unmovable: unmovable.into(), frame: 0, status: 0 }
    }

    /// Its address.
    pub fn address(&self) -> Address {
        Address::new(self.space, self.vpage)
    }

    /// The answer of the latest call that it was passed to: the frame to which its page was mapped last, or why it was refused.
    pub fn answer(&self) -> Result<u32, Error> {
        done(self.status)?;
        Ok(self.frame)
    }
}

/// Many pages in one call.
impl Pool {
    /// Maps pages, one after the other, as that many calls of [`Pool::map`] would. Each request gets the answer of its own, and one that is
    /// refused doesn't stop the others.
    ///
    /// ```
    /// # use compactd::{Address, Error, PageRequest, PageSize, Pool};
    /// # fn main() -> Result<(), Error> {
    /// # let mut pool = Pool::open(PageSize::Bytes64, 1)?;
    /// let mut pages = [0, 1, 2].map(|page| PageRequest::new(Address::new(0, page), false));
    /// pool.map_many(0, &mut pages)?;
    /// assert_eq!(pages[2].answer(), Ok(2));
    /// pool.unmap_many(0, &mut pages)?;
    /// # Ok(())
    /// # }
    /// ```
    ///
    /// Refused as the first request that is refused; the others are mapped nevertheless.
    pub fn map_many(&mut self, client: u32, requests: &mut [PageRequest]) -> Result<(), Error> {
        let (pages, count) = (requests.as_mut_ptr(), requests.len());
        done(unsafe { raw::compactd_map_many(&mut self.raw, client, pages, count) })
    }

    /// Makes addresses name no page any more, one after the other, as that many calls of [`Pool::unmap`] would. Each request gets the answer
    /// of its own, and one that is refused doesn't stop the others.
    ///
    /// Refused as [`Pool::map_many`] is.
    pub fn unmap_many(&mut self, client: u32, requests: &mut [PageRequest]) -> Result<(), Error> {
        let (pages, count) = (requests.as_mut_ptr(), requests.len());
        done(unsafe { raw::compactd_unmap_many(&mut self.raw, client, pages, count) })
    }
}
