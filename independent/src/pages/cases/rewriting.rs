//! What readers handed back, to be written again, and records that no reader hands back.

use super::case::{every_output_length, roomy_case, writing_case, Offer};
use super::changes::{with, with_every_quadruple, with_every_value};
use super::reading::{
    accepted_descriptors, accepted_status, accepted_thresholds, other_configuration,
};
use super::shapes::{one_of_each, shelf, some_of_each};
use crate::limits::{
    record_bytes, CONFIGURATION_BYTES, FIRST_LETTER, LAST_LETTER, MOST_ENTRIES, MOST_OF_TYPE,
    MOST_TEXT, NAMES_BYTES, NAME_BYTES, STATUS_BYTES, STATUS_ENTRY_BYTES, THRESHOLDS_BYTES,
    THRESHOLD_ENTRY_BYTES, TYPES_AT,
};
use crate::pages::calls::{
    Call, READ_DESCRIPTORS, READ_STATUS, READ_THRESHOLDS, REWRITE_CONFIGURATION,
    REWRITE_DESCRIPTORS, REWRITE_STATUS, REWRITE_THRESHOLDS,
};
use crate::record::{Kind, Shelf};
use crate::rng::Rng;
use crate::shown::Place;

pub fn offer_all(rng: &mut Rng, offer: Offer) {
    configurations(rng, offer);
    for rewriter in [&STATUS, &THRESHOLDS, &NAMES] {
        for _ in 0..8_000 {
            let inputs = rewriter.changed(rng);
            offer(writing_case(rng, rewriter.call, inputs));
        }
        rewriter.every_output_length(rng, offer);
    }
    for rewriter in [&STATUS, &THRESHOLDS] {
        rewriter.every_value_of_every_byte(rng, offer);
    }
    for _ in 0..120 {
        bytes_too_large(rng, offer);
    }
    threshold_quadruples(rng, offer);
}

/// A rewriter with the reader that hands back its records.
pub struct Rewriter {
    call: &'static Call,
    reader: &'static Call,
    accepted_page: fn(&mut Rng, &Shelf) -> Vec<Vec<u8>>,
    record_bytes: usize,
    entry_bytes: usize,
}

static STATUS: Rewriter = Rewriter {
    call: &REWRITE_STATUS,
    reader: &READ_STATUS,
    accepted_page: accepted_status,
    record_bytes: STATUS_BYTES,
    entry_bytes: STATUS_ENTRY_BYTES,
};

static THRESHOLDS: Rewriter = Rewriter {
    call: &REWRITE_THRESHOLDS,
    reader: &READ_THRESHOLDS,
    accepted_page: accepted_thresholds,
    record_bytes: THRESHOLDS_BYTES,
    entry_bytes: THRESHOLD_ENTRY_BYTES,
};

pub static NAMES: Rewriter = Rewriter {
    call: &REWRITE_DESCRIPTORS,
    reader: &READ_DESCRIPTORS,
    accepted_page: accepted_descriptors,
    record_bytes: NAMES_BYTES,
    entry_bytes: NAME_BYTES,
};

/// Values of a configuration's byte: type codes, and numbers and letters at the limits.
const TELLING: [u8; 15] = [
    0x00,
    0x01,
    0x02,
    0x03,
    0x04,
    0x12,
    0x13,
    FIRST_LETTER - 1,
    MOST_TEXT as u8,
    MOST_TEXT as u8 + 1,
    MOST_OF_TYPE as u8,
    (MOST_OF_TYPE + 1) as u8,
    LAST_LETTER,
    LAST_LETTER + 1,
    0xFF,
];

impl Rewriter {
    /// A configuration, and a record that the reader hands back under it.
    pub fn accepted(&self, rng: &mut Rng, shelf: &Shelf) -> [Vec<u8>; 2] {
        let inputs = (self.accepted_page)(rng, shelf);
        let before = rng.bytes(self.record_bytes);
        let answer = self.reader.answer(&inputs, &before);
        [shelf.configuration().block(), answer.record().to_vec()]
    }

    fn changed(&self, rng: &mut Rng) -> Vec<Vec<u8>> {
        let shelf = shelf(rng);
        let [mut configuration, mut record] = self.accepted(rng, &shelf);
        if rng.one_in(8) {
            configuration = other_configuration(rng, &shelf);
        }
        if rng.one_in(50) {
            record = rng.bytes(self.record_bytes);
        }
        if rng.one_in(8) {
            other_number_of_entries(rng, &mut record);
        }
        if rng.one_in(2) {
            for _ in 0..rng.range(1, 3) {
                self.other_field(rng, &mut record);
            }
        }
        if rng.one_in(8) {
            record[rng.range(0, 1)] = rng.byte();
        }
        vec![configuration, record]
    }

    fn other_field(&self, rng: &mut Rng, record: &mut [u8]) {
        let used = self.used(record);
        if used > 4 {
            let any = rng.byte();
            let value = rng.pick(&[0, 1, 1, 2, 3, 7, 8, 9, 16, 128, 255, any]);
            record[rng.range(4, used - 1)] = value;
        }
    }

    /// The bytes up to the last entry.
    fn used(&self, record: &[u8]) -> usize {
        let entries = usize::from(u16::from_be_bytes([record[2], record[3]]));
        record.len().min(record_bytes(self.entry_bytes, entries))
    }

    fn every_value_of_every_byte(&self, rng: &mut Rng, offer: Offer) {
        let [configuration, record] = self.accepted_for_one_of_each(rng);
        for at in 0..self.used(&record) + self.entry_bytes {
            for changed in with_every_value(&record, at) {
                offer(roomy_case(
                    rng,
                    self.call,
                    vec![configuration.clone(), changed],
                ));
            }
        }
    }

    fn every_output_length(&self, rng: &mut Rng, offer: Offer) {
        let inputs = self.accepted_for_one_of_each(rng);
        every_output_length(rng, self.call, &inputs, offer);
    }

    fn accepted_for_one_of_each(&self, rng: &mut Rng) -> [Vec<u8>; 2] {
        let shelf = one_of_each(rng);
        self.accepted(rng, &shelf)
    }
}

fn other_number_of_entries(rng: &mut Rng, record: &mut [u8]) {
    let number = u16::from_be_bytes([record[2], record[3]]);
    let any = rng.word();
    let other = rng.pick(&[
        0,
        MOST_ENTRIES as u16,
        MOST_ENTRIES as u16 + 1,
        any,
        number.wrapping_add(1),
        number.wrapping_sub(1),
        number.wrapping_add(256),
    ]);
    record[2..4].copy_from_slice(&other.to_be_bytes());
}

/// A status record with one byte too large, in turn each byte of some overall entry and of some entry of
/// each type: a field out of range, or one that the place does not show.
fn bytes_too_large(rng: &mut Rng, offer: Offer) {
    let shelf = some_of_each(rng);
    let inputs = STATUS.accepted(rng, &shelf);
    let places = shelf.configuration().places();
    let individual = Kind::ALL.map(Place::Individual);
    for place in [&[Place::Overall][..], &individual].concat() {
        let entries = (0..places.len()).filter(|entry| places[*entry] == place);
        let entry = rng.pick(&entries.collect::<Vec<usize>>());
        for (at, most) in place.largest().into_iter().enumerate() {
            let at = record_bytes(STATUS_ENTRY_BYTES, entry) + at;
            byte_too_large(rng, &inputs, at, most, offer);
        }
    }
}

/// Just too large, and by any more. Not every byte can be.
fn byte_too_large(rng: &mut Rng, inputs: &[Vec<u8>; 2], at: usize, most: u8, offer: Offer) {
    let [configuration, record] = inputs;
    if let Some(just) = most.checked_add(1) {
        let any = rng.range(just.into(), u8::MAX.into()) as u8;
        for value in [just, any] {
            let inputs = vec![configuration.clone(), with(record, at, &[value])];
            offer(roomy_case(rng, STATUS.call, inputs));
        }
    }
}

/// Each entry of a threshold record in turn.
fn threshold_quadruples(rng: &mut Rng, offer: Offer) {
    let [configuration, record] = THRESHOLDS.accepted_for_one_of_each(rng);
    for at in (record_bytes(THRESHOLD_ENTRY_BYTES, 0)..THRESHOLDS.used(&record)).step_by(4) {
        for changed in with_every_quadruple(&record, at) {
            let inputs = vec![configuration.clone(), changed];
            offer(roomy_case(rng, THRESHOLDS.call, inputs));
        }
    }
}

fn configurations(rng: &mut Rng, offer: Offer) {
    for _ in 0..4_000 {
        let shelf = shelf(rng);
        let block = if rng.one_in(2) {
            shelf.configuration().block()
        } else {
            other_configuration(rng, &shelf)
        };
        offer(writing_case(rng, &REWRITE_CONFIGURATION, vec![block]));
    }
    let block = one_of_each(rng).configuration().block();
    for at in TYPES_AT..CONFIGURATION_BYTES {
        for value in TELLING {
            let mut changed = block.clone();
            changed[at] = value;
            offer(writing_case(rng, &REWRITE_CONFIGURATION, vec![changed]));
        }
    }
}
