//! Pages in pieces. Here a collector forgets nothing: it has every byte put, and what the library has of them follows
//! from that.

use super::{control, threshold_out, Refusal};
use crate::limits::{COUNT_STOPS, KEPT_AT, MOST_KEPT};
use crate::record::Shelf;

/// All pieces of a page joined, and the bytes that the room had before them.
#[derive(Clone)]
pub struct Collector {
    page: Vec<u8>,
    room: Vec<u8>,
}

impl Collector {
    /// The one whose block these bytes are, with a page that they can stand for.
    pub fn of(block: &[u8], page: &[u8]) -> Collector {
        assert!(stands_for(block, page), "a collector of another page");
        Collector {
            page: page.to_vec(),
            room: block[KEPT_AT..].to_vec(),
        }
    }

    pub fn page(&self) -> &[u8] {
        &self.page
    }

    pub fn block(&self) -> Vec<u8> {
        let count = self.page.len().min(COUNT_STOPS) as u32;
        [&count.to_be_bytes()[..], &self.kept()].concat()
    }

    pub fn put(&mut self, chunk: &[u8]) {
        self.page.extend(chunk);
    }

    /// The next page has nothing of the one before.
    pub fn start(&mut self) {
        self.room = self.kept();
        self.page.clear();
    }

    /// The shelf after the page, if it is the one meant. Refusals 2, 3, 4, 12, 5 to 8.
    pub fn after(&self, shelf: &Shelf, code: u8) -> Result<Shelf, Refusal> {
        match code {
            control::CODE => control::after(shelf, &self.page),
            threshold_out::CODE => threshold_out::after(shelf, &self.page),
            _ if self.page.len() < 4 => Err(Refusal::PageTooShort),
            _ => Err(Refusal::PageCode),
        }
    }

    /// The room, the front of the page in it.
    fn kept(&self) -> Vec<u8> {
        let front = self.page.len().min(MOST_KEPT);
        [&self.page[..front], &self.room[front..]].concat()
    }
}

/// The count is that of the page, as far as it goes, and so are the bytes kept.
pub fn stands_for(block: &[u8], page: &[u8]) -> bool {
    let front = page.len().min(MOST_KEPT);
    counted(block) == page.len().min(COUNT_STOPS) && block[KEPT_AT..].starts_with(&page[..front])
}

/// As many bytes as a block says were put, or more if that is where the count stops.
pub fn counted(block: &[u8]) -> usize {
    let count = block[..KEPT_AT].try_into().expect("four bytes");
    (u32::from_be_bytes(count) as usize).min(COUNT_STOPS)
}
