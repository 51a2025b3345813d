//! What the two calls that act have in common: pages that they accept, spoiled in every way.

use super::case::{Case, Offer, ROOM};
use super::changes::{change, flip_bit, of_every_length, strange_page, with_every_value};
use super::flaws::{offending, together, Attempt, Flaw, Flaws};
use super::shapes::{between_two, one_of_each, shelf, some_of_each};
use crate::cases::{malformed_block, LONG_BLOCK};
use crate::limits::{element_page_bytes, TYPES_AT};
use crate::pages::calls::Call;
use crate::pages::ElementPage;
use crate::record::{Kind, Shelf};
use crate::rng::Rng;

/// A call that acts, with a maker of pages that it accepts.
pub struct Actor {
    pub call: &'static Call,
    pub code: u8,
    pub accepted: fn(&mut Rng, &Shelf) -> Vec<u8>,
    /// The reasons for its refusals, 6 first.
    pub flaws: Flaws,
}

/// Rarely or mostly, all or none.
#[derive(Clone, Copy)]
pub struct Chance(usize);

const CERTAIN: usize = 64;

impl Chance {
    pub fn any(rng: &mut Rng) -> Chance {
        Chance(rng.pick(&[0, 1, 8, CERTAIN / 2, CERTAIN - 1, CERTAIN]))
    }

    pub fn comes(self, rng: &mut Rng) -> bool {
        rng.range(0, CERTAIN - 1) < self.0
    }
}

/// An element of a page: where it stands and which type it is for.
#[derive(Clone, Copy)]
pub struct Slot {
    pub at: usize,
    pub kind: Kind,
    pub overall: bool,
}

pub fn slots(shelf: &Shelf) -> Vec<Slot> {
    let mut slots = Vec::new();
    for group in &shelf.groups {
        for place in 0..=group.elements.len() {
            slots.push(Slot {
                at: element_page_bytes(slots.len()),
                kind: group.kind,
                overall: place == 0,
            });
        }
    }
    slots
}

/// So many elements of a type, and where one of its elements stands on a page, the overall one first.
pub const AIMS: [(usize, usize); 5] = [(0, 0), (3, 0), (3, 1), (3, 2), (3, 3)];

/// A shelf with the type between two others, and the slot that is aimed at.
pub fn aimed(rng: &mut Rng, kind: Kind, (count, place): (usize, usize)) -> (Shelf, Slot) {
    let shelf = between_two(rng, kind, count);
    let slot = slots(&shelf)[1 + shelf.groups[0].elements.len() + place];
    (shelf, slot)
}

pub fn put(page: &mut [u8], slot: Slot, element: [u8; 4]) {
    page[slot.at..slot.at + 4].copy_from_slice(&element);
}

impl Actor {
    pub fn case(&self, shelf: &Shelf, page: Vec<u8>) -> Case {
        self.case_of(shelf.block(), page)
    }

    pub fn case_of(&self, block: Vec<u8>, page: Vec<u8>) -> Case {
        Case {
            call: self.call,
            inputs: vec![page],
            lent: block,
        }
    }

    /// A page for the shelf, all its elements zero.
    pub fn blank(&self, shelf: &Shelf) -> Vec<u8> {
        let page = ElementPage {
            byte1: 0,
            elements: vec![[0; 4]; slots(shelf).len()],
        };
        page.written(self.code, shelf.generation)
    }

    pub fn offer_spoiled(&self, rng: &mut Rng, offer: Offer) {
        for _ in 0..8_000 {
            offer(self.changed_page(rng));
        }
        for _ in 0..2_000 {
            offer(self.changed_shelf(rng));
        }
        for _ in 0..500 {
            offer(self.random_elements(rng));
            offer(self.random_bytes(rng));
        }
        for _ in 0..10 {
            self.flaws_together(rng, some_of_each, offer);
        }
        self.every_value_of_every_byte(rng, offer);
        self.every_page_length(rng, offer);
        self.every_shelf_length(rng, offer);
    }

    /// A page with one to four offending bytes.
    pub fn offending(&self, rng: &mut Rng) -> Case {
        let shelf = shelf(rng);
        let attempt = self.attempt(rng, shelf);
        offending(rng, self.flaws, attempt)
    }

    /// The reasons for all refusals in every combination, the first of them in the lowest place of its number.
    pub fn flaws_together(&self, rng: &mut Rng, of: fn(&mut Rng) -> Shelf, offer: Offer) {
        let attempt = |rng: &mut Rng| {
            let shelf = of(rng);
            self.attempt(rng, shelf)
        };
        together(rng, self.flaws, attempt, offer);
    }

    /// A page with this flaw alone.
    pub fn flawed(&self, rng: &mut Rng, flaw: Flaw) -> Case {
        let shelf = some_of_each(rng);
        let mut attempt = self.attempt(rng, shelf);
        flaw(&mut attempt, rng);
        attempt.case
    }

    pub fn changed_page(&self, rng: &mut Rng) -> Case {
        let shelf = shelf(rng);
        let mut page = (self.accepted)(rng, &shelf);
        match rng.range(0, 15) {
            0 => page = strange_page(rng, self.code, &page),
            1..=7 => change(&mut page, rng),
            _ => {}
        }
        self.case(&shelf, page)
    }

    /// A shelf that is broken, or one that the page is not for.
    fn changed_shelf(&self, rng: &mut Rng) -> Case {
        let of = shelf(rng);
        let page = (self.accepted)(rng, &of);
        let mut block = of.block();
        match rng.range(0, 4) {
            0 => block = shelf(rng).block(),
            1 => block = malformed_block(rng),
            2 => block[rng.range(0, TYPES_AT - 1)] ^= 1 << rng.range(0, 7),
            _ => flip_bit(&mut block, TYPES_AT, rng),
        }
        self.case_of(block, page)
    }

    fn random_elements(&self, rng: &mut Rng) -> Case {
        let shelf = shelf(rng);
        let mut page = self.blank(&shelf);
        let elements = rng.bytes(page.len() - 8);
        page[8..].copy_from_slice(&elements);
        self.case(&shelf, page)
    }

    fn random_bytes(&self, rng: &mut Rng) -> Case {
        let (shelf_length, page_length) = (rng.range(0, LONG_BLOCK), rng.range(0, ROOM));
        let (block, page) = (rng.bytes(shelf_length), rng.bytes(page_length));
        self.case_of(block, page)
    }

    /// A page that the shelf accepts.
    fn attempt(&self, rng: &mut Rng, shelf: Shelf) -> Attempt {
        let page = (self.accepted)(rng, &shelf);
        let case = self.case(&shelf, page);
        Attempt { shelf, case }
    }

    fn every_value_of_every_byte(&self, rng: &mut Rng, offer: Offer) {
        let length = self.blank(&one_of_each(rng)).len();
        for at in 0..length {
            let shelf = one_of_each(rng);
            let page = (self.accepted)(rng, &shelf);
            for changed in with_every_value(&page, at) {
                offer(self.case(&shelf, changed));
            }
        }
    }

    fn every_page_length(&self, rng: &mut Rng, offer: Offer) {
        let shelf = one_of_each(rng);
        let page = (self.accepted)(rng, &shelf);
        for changed in of_every_length(&page) {
            offer(self.case(&shelf, changed));
        }
    }

    fn every_shelf_length(&self, rng: &mut Rng, offer: Offer) {
        let shelf = one_of_each(rng);
        let page = (self.accepted)(rng, &shelf);
        let block = shelf.block();
        for length in 0..block.len() + 20 {
            let mut changed = block.clone();
            changed.resize(length, 0);
            offer(self.case_of(changed, page.clone()));
        }
    }
}
