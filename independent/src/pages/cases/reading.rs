//! Pages for the readers: those that a writer wrote, changed ones, and strange ones.

use super::acting::{aimed, slots, Slot, AIMS};
use super::case::{page_written, Case, Offer};
use super::changes::{
    change, of_every_length, strange_page, with_every_quadruple, with_every_value,
};
use super::control::every_single_bit;
use super::flaws::{offending, together, Attempt, Flaws};
use super::shapes::{one_of_each, shelf, some_of_each};
use super::threshold_out::{out_of_order, set_one_not_had};
use crate::cases::malformed_block;
use crate::limits::{CONFIGURATION_BYTES, HIGHEST_CODE, STATUS_BYTES, THRESHOLDS_BYTES, TYPES_AT};
use crate::pages::calls::{
    Call, READ_STATUS, READ_THRESHOLDS, WRITE_DESCRIPTORS, WRITE_STATUS, WRITE_THRESHOLDS,
};
use crate::record::{Configuration, Kind, Shelf};
use crate::rng::Rng;
use crate::shown::Place;
use std::iter::zip;

pub fn offer_all(rng: &mut Rng, offer: Offer) {
    for reader in [&STATUS, &THRESHOLDS] {
        reader.offer_spoiled(rng, offer);
    }
    for kind in Kind::ALL {
        for _ in 0..3 {
            every_nameless_bit(rng, kind, offer);
        }
        for _ in 0..30 {
            every_code_too_high(rng, kind, offer);
        }
    }
    threshold_quadruples(rng, offer);
}

/// A reader with a maker of what it accepts: an optional configuration, and the page.
pub struct Reader {
    pub call: &'static Call,
    pub code: u8,
    pub record_bytes: usize,
    pub accepted: fn(&mut Rng, &Shelf) -> Vec<Vec<u8>>,
    /// The reasons for its refusals, 6 first.
    pub flaws: Flaws,
}

static STATUS: Reader = Reader {
    call: &READ_STATUS,
    code: 0x02,
    record_bytes: STATUS_BYTES,
    accepted: accepted_status,
    flaws: &[(6, status_not_allowed)],
};

static THRESHOLDS: Reader = Reader {
    call: &READ_THRESHOLDS,
    code: 0x05,
    record_bytes: THRESHOLDS_BYTES,
    accepted: accepted_thresholds,
    flaws: &[
        (6, overall_threshold),
        (7, threshold_not_had),
        (8, out_of_order),
    ],
};

pub fn offending_status(rng: &mut Rng) -> Case {
    STATUS.offending(rng)
}

pub fn offending_thresholds(rng: &mut Rng) -> Case {
    THRESHOLDS.offending(rng)
}

pub fn accepted_status(rng: &mut Rng, shelf: &Shelf) -> Vec<Vec<u8>> {
    let mut page = page_written(&WRITE_STATUS, &[shelf.block()]);
    let configuration = shelf.configuration();
    if rng.one_in(2) {
        show_anything(rng, &configuration, &mut page);
    }
    vec![configuration.block(), page]
}

pub fn accepted_thresholds(_: &mut Rng, shelf: &Shelf) -> Vec<Vec<u8>> {
    let page = page_written(&WRITE_THRESHOLDS, &[shelf.block()]);
    vec![shelf.configuration().block(), page]
}

pub fn accepted_descriptors(_: &mut Rng, shelf: &Shelf) -> Vec<Vec<u8>> {
    let page = page_written(&WRITE_DESCRIPTORS, &[shelf.block()]);
    vec![shelf.configuration().block(), page]
}

impl Reader {
    pub fn offer_spoiled(&self, rng: &mut Rng, offer: Offer) {
        for _ in 0..8_000 {
            let inputs = self.changed(rng);
            offer(self.case(rng, inputs));
        }
        for _ in 0..10 {
            let attempt = |rng: &mut Rng| {
                let shelf = some_of_each(rng);
                self.attempt(rng, shelf)
            };
            together(rng, self.flaws, attempt, offer);
        }
        self.every_value_of_every_byte(rng, offer);
        self.every_length(rng, offer);
    }

    /// A page with one to four offending bytes.
    pub fn offending(&self, rng: &mut Rng) -> Case {
        let shelf = shelf(rng);
        let attempt = self.attempt(rng, shelf);
        offending(rng, self.flaws, attempt)
    }

    /// What is accepted.
    fn attempt(&self, rng: &mut Rng, shelf: Shelf) -> Attempt {
        let inputs = (self.accepted)(rng, &shelf);
        let case = self.case(rng, inputs);
        Attempt { shelf, case }
    }

    pub fn case(&self, rng: &mut Rng, inputs: Vec<Vec<u8>>) -> Case {
        Case {
            call: self.call,
            inputs,
            lent: rng.bytes(self.record_bytes),
        }
    }

    fn changed(&self, rng: &mut Rng) -> Vec<Vec<u8>> {
        let shelf = shelf(rng);
        let mut inputs = (self.accepted)(rng, &shelf);
        if inputs.len() == 2 && rng.one_in(8) {
            inputs[0] = other_configuration(rng, &shelf);
        }
        let page = inputs.last_mut().expect("a page");
        if rng.one_in(16) {
            *page = strange_page(rng, self.code, page);
        } else {
            change(page, rng);
        }
        inputs
    }

    fn every_value_of_every_byte(&self, rng: &mut Rng, offer: Offer) {
        let (others, page) = self.accepted_for_one_of_each(rng);
        for at in 0..page.len() {
            for changed in with_every_value(&page, at) {
                offer(self.case(rng, with_page(&others, changed)));
            }
        }
    }

    fn every_length(&self, rng: &mut Rng, offer: Offer) {
        let (others, page) = self.accepted_for_one_of_each(rng);
        for changed in of_every_length(&page) {
            offer(self.case(rng, with_page(&others, changed)));
        }
    }

    /// The page, and what the call looks at beside it.
    fn accepted_for_one_of_each(&self, rng: &mut Rng) -> (Vec<Vec<u8>>, Vec<u8>) {
        let shelf = one_of_each(rng);
        let mut inputs = (self.accepted)(rng, &shelf);
        let page = inputs.pop().expect("a page");
        (inputs, page)
    }
}

fn with_page(others: &[Vec<u8>], page: Vec<u8>) -> Vec<Vec<u8>> {
    [others, &[page]].concat()
}

/// A configuration that is broken, or one that the page is not for.
pub fn other_configuration(rng: &mut Rng, of: &Shelf) -> Vec<u8> {
    let mut block = of.configuration().block();
    match rng.range(0, 8) {
        0 => shelf(rng).configuration().block(),
        1 => of_other_types(rng, of.configuration()).block(),
        2 => block[..CONFIGURATION_BYTES - 1].to_vec(),
        3 => of.block(),
        4 => {
            let surplus = rng.range(1, 20);
            block.extend(vec![0; surplus]);
            block
        }
        5 => {
            let length = rng.range(0, CONFIGURATION_BYTES);
            rng.bytes(length)
        }
        6 => {
            let at = rng.range(TYPES_AT, CONFIGURATION_BYTES - 1);
            block[at] = rng.byte();
            block
        }
        _ => {
            let mut broken = malformed_block(rng);
            broken.truncate(CONFIGURATION_BYTES);
            broken
        }
    }
}

/// The same counts, so that a page or record fits all the same.
fn of_other_types(rng: &mut Rng, mut configuration: Configuration) -> Configuration {
    for entry in &mut configuration.types {
        entry.kind = rng.pick(&Kind::ALL);
    }
    configuration
}

/// Puts random values into all fields that a status page shows.
fn show_anything(rng: &mut Rng, configuration: &Configuration, page: &mut [u8]) {
    page[1] = rng.byte() & 0x06;
    for (place, element) in configuration.places().iter().zip(page[8..].chunks_mut(4)) {
        for (byte, named) in element.iter_mut().zip(named_bits(*place)) {
            *byte = rng.byte() & named;
        }
        element[0] += rng.range(0, HIGHEST_CODE.into()) as u8;
    }
}

/// The bits that a status element may have beside its code.
fn named_bits(place: Place) -> [u8; 4] {
    match place {
        Place::Overall => [0x00, 0x00, 0x00, 0x00],
        Place::Individual(Kind::Cooling) => [0x70, 0x87, 0xFF, 0x77],
        Place::Individual(Kind::Temperature) => [0x70, 0xC0, 0xFF, 0x0F],
        Place::Individual(Kind::Voltage) => [0x70, 0xCF, 0xFF, 0xFF],
        Place::Individual(Kind::Current) => [0x70, 0xCA, 0xFF, 0xFF],
    }
}

fn place_of(slot: Slot) -> Place {
    if slot.overall {
        Place::Overall
    } else {
        Place::Individual(slot.kind)
    }
}

/// A bit of page byte 1 beside NON-CRIT and CRIT, or a code too high or a bit without a name in an element.
fn status_not_allowed(attempt: &mut Attempt, rng: &mut Rng) {
    if rng.one_in(8) {
        attempt.page()[1] |= rng.pick(&[0x01, 0x08, 0x10, 0x20, 0x40, 0x80]);
        return;
    }
    let slot = rng.pick(&slots(&attempt.shelf));
    if rng.one_in(3) {
        let code = rng.pick(&CODES_TOO_HIGH);
        set_code(attempt.page(), slot, code);
    } else {
        let bit = rng.pick(&nameless_bits(place_of(slot)));
        set_bit(attempt.page(), slot, bit);
    }
}

const CODES_TOO_HIGH: [u8; 7] = [9, 10, 11, 12, 13, 14, 15];

/// Each bit that an element may not have, whatever its code.
fn nameless_bits(place: Place) -> Vec<u32> {
    let [byte0, byte1, byte2, byte3] = named_bits(place);
    let named = u32::from_be_bytes([byte0 | 0x0F, byte1, byte2, byte3]);
    every_single_bit().filter(|bit| named & bit == 0).collect()
}

fn set_code(page: &mut [u8], slot: Slot, code: u8) {
    page[slot.at] = page[slot.at] & 0xF0 | code;
}

fn set_bit(page: &mut [u8], slot: Slot, bit: u32) {
    for (byte, set) in zip(&mut page[slot.at..], bit.to_be_bytes()) {
        *byte |= set;
    }
}

/// Each bit without a name in each element of a type.
fn every_nameless_bit(rng: &mut Rng, kind: Kind, offer: Offer) {
    for aim in AIMS {
        let (_, slot) = aimed(rng, kind, aim);
        for bit in nameless_bits(place_of(slot)) {
            let byte = bit.leading_zeros() as usize / 8;
            let set = |page: &mut [u8], slot: Slot| set_bit(page, slot, bit);
            offer(offending_at(rng, kind, aim, byte, set));
        }
    }
}

fn every_code_too_high(rng: &mut Rng, kind: Kind, offer: Offer) {
    for aim in AIMS {
        for code in CODES_TOO_HIGH {
            let set = |page: &mut [u8], slot: Slot| set_code(page, slot, code);
            offer(offending_at(rng, kind, aim, 0, set));
        }
    }
}

/// A status page that is accepted but for this byte of the element aimed at.
fn offending_at(
    rng: &mut Rng,
    kind: Kind,
    aim: (usize, usize),
    byte: usize,
    spoil: impl Fn(&mut [u8], Slot),
) -> Case {
    let (shelf, slot) = aimed(rng, kind, aim);
    let mut inputs = accepted_status(rng, &shelf);
    spoil(inputs.last_mut().expect("a page"), slot);
    let case = STATUS.case(rng, inputs);
    let expected = (6, slot.at + byte);
    assert_eq!(case.number_and_offset(), expected, "{kind:?}, {aim:?}");
    case
}

/// Page byte 1, or a byte of an overall element.
fn overall_threshold(attempt: &mut Attempt, rng: &mut Rng) {
    let mut zeros = vec![1];
    for slot in slots(&attempt.shelf).iter().filter(|slot| slot.overall) {
        zeros.extend(slot.at..slot.at + 4);
    }
    attempt.page()[rng.pick(&zeros)] = rng.nonzero_byte();
}

/// In an individual element.
fn threshold_not_had(attempt: &mut Attempt, rng: &mut Rng) {
    let mut slots = slots(&attempt.shelf);
    slots.retain(|slot| !slot.overall);
    set_one_not_had(attempt, rng, &slots);
}

/// Each element of a threshold page in turn.
fn threshold_quadruples(rng: &mut Rng, offer: Offer) {
    let (others, page) = THRESHOLDS.accepted_for_one_of_each(rng);
    for at in (8..page.len()).step_by(4) {
        for changed in with_every_quadruple(&page, at) {
            offer(THRESHOLDS.case(rng, with_page(&others, changed)));
        }
    }
}
