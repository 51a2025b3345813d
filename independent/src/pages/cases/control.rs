//! Enclosure Control pages.

use super::acting::{aimed, put, slots, Actor, Chance, Slot, AIMS};
use super::case::{roomy_case, Case, Offer};
use super::flaws::Attempt;
use super::shapes::{shelf, some_of_each};
use crate::cases::one_type;
use crate::limits::{element_at, most_elements_of, ELEMENTS_AT, ELEMENT_BYTES};
use crate::pages::calls::{APPLY_CONTROL, WRITE_STATUS};
use crate::record::{Kind, Shelf};
use crate::rng::Rng;
use std::array::from_fn;

const SELECT: u32 = 0x8000_0000;
const SWAP_AND_SPEED: u32 = 0x1000_0007;

pub static CONTROL: Actor = Actor {
    call: &APPLY_CONTROL,
    code: 0x02,
    accepted: accepted_page,
    flaws: &[(6, not_allowed)],
};

pub fn offer_all(rng: &mut Rng, offer: Offer) {
    CONTROL.offer_spoiled(rng, offer);
    for kind in Kind::ALL {
        every_request_over_every_setting(rng, kind, offer);
        for _ in 0..3 {
            every_bit(rng, kind, offer);
        }
        for _ in 0..10 {
            every_reserved_bit(rng, kind, offer);
        }
        for _ in 0..1_500 {
            offer(few_elements(rng, kind));
        }
    }
    for _ in 0..500 {
        offer(as_stored(rng));
    }
    for _ in 0..300 {
        stopped_and_started(rng, offer);
    }
}

pub fn offending(rng: &mut Rng) -> Case {
    CONTROL.offending(rng)
}

/// The bits that have a name in a control element of this type, but for SELECT. In the settings of a shelf
/// block they are the same.
pub fn named(kind: Kind) -> u32 {
    match kind {
        Kind::Cooling => 0x7080_0067,
        Kind::Temperature | Kind::Voltage | Kind::Current => 0x70C0_0000,
    }
}

fn reserved(kind: Kind) -> u32 {
    !(SELECT | named(kind))
}

fn reserved_bits(kind: Kind) -> Vec<u32> {
    every_single_bit()
        .filter(|bit| bit & reserved(kind) != 0)
        .collect()
}

pub fn four_bytes(rng: &mut Rng) -> u32 {
    u32::from_be_bytes(from_fn(|_| rng.byte()))
}

fn selected(rng: &mut Rng, kind: Kind) -> u32 {
    SELECT | four_bytes(rng) & named(kind)
}

/// Any bits, mostly.
fn unselected(rng: &mut Rng) -> u32 {
    if rng.one_in(4) {
        0
    } else {
        four_bytes(rng) & !SELECT
    }
}

/// A page that the shelf accepts, with any number of SELECTs and any bits where they have no effect.
pub fn accepted_page(rng: &mut Rng, shelf: &Shelf) -> Vec<u8> {
    let (overall_chance, individual_chance) = (Chance::any(rng), Chance::any(rng));
    let mut page = CONTROL.blank(shelf);
    page[1] = rng.byte() % 16;
    for slot in slots(shelf) {
        let chance = if slot.overall {
            overall_chance
        } else {
            individual_chance
        };
        let element = if chance.comes(rng) {
            selected(rng, slot.kind)
        } else {
            unselected(rng)
        };
        put(&mut page, slot, element.to_be_bytes());
    }
    page
}

/// Bit 7 to 4 of page byte 1, or a reserved bit of a selected element.
fn not_allowed(attempt: &mut Attempt, rng: &mut Rng) {
    if rng.one_in(4) {
        attempt.page()[1] |= 1 << rng.range(4, 7);
        return;
    }
    let slot = rng.pick(&slots(&attempt.shelf));
    let element = selected(rng, slot.kind) | rng.pick(&reserved_bits(slot.kind));
    put(attempt.page(), slot, element.to_be_bytes());
}

pub fn every_single_bit() -> impl Iterator<Item = u32> {
    (0..32).map(|place| 1 << place)
}

/// Every number whose bits are all among these.
pub fn parts_of(bits: u32) -> Vec<u32> {
    let mut parts = vec![0];
    for bit in every_single_bit().filter(|bit| bits & bit != 0) {
        let with_bit: Vec<u32> = parts.iter().map(|part| part | bit).collect();
        parts.extend(with_bit);
    }
    parts
}

fn every_request(kind: Kind) -> Vec<u32> {
    let requests = parts_of(named(kind)).into_iter();
    requests.map(|request| SELECT | request).collect()
}

/// A fan's speed code is not 0.
pub fn every_setting(kind: Kind) -> Vec<u32> {
    let settings = parts_of(named(kind)).into_iter();
    settings
        .filter(|settings| kind != Kind::Cooling || settings & 0x07 != 0)
        .collect()
}

/// Each request meets each stored setting of its type, once as overall and once as individual element.
fn every_request_over_every_setting(rng: &mut Rng, kind: Kind, offer: Offer) {
    let requests = every_request(kind);
    for stored in every_setting(kind).chunks(most_elements_of(1)) {
        let shelf = one_type(rng, kind, stored.len());
        let block = with_settings(&shelf, stored);
        for turn in 0..requests.len() {
            for page in turn_of_requests(rng, &shelf, &requests, turn) {
                offer(CONTROL.case_of(block.clone(), page));
            }
        }
    }
}

/// A page with one request as overall element, and one with each individual element another turn further.
fn turn_of_requests(rng: &mut Rng, shelf: &Shelf, requests: &[u32], turn: usize) -> [Vec<u8>; 2] {
    let mut as_overall = CONTROL.blank(shelf);
    let mut as_individual = CONTROL.blank(shelf);
    for (place, slot) in slots(shelf).into_iter().enumerate() {
        let (one, other) = if slot.overall {
            (requests[turn], any_overall(rng, slot.kind))
        } else {
            (unselected(rng), requests[(turn + place) % requests.len()])
        };
        put(&mut as_overall, slot, one.to_be_bytes());
        put(&mut as_individual, slot, other.to_be_bytes());
    }
    [as_overall, as_individual]
}

fn any_overall(rng: &mut Rng, kind: Kind) -> u32 {
    if rng.one_in(2) {
        selected(rng, kind)
    } else {
        unselected(rng)
    }
}

pub fn with_settings(shelf: &Shelf, stored: &[u32]) -> Vec<u8> {
    let mut block = shelf.block();
    for (place, settings) in stored.iter().enumerate() {
        let at = element_at(place);
        block[at..at + 4].copy_from_slice(&settings.to_be_bytes());
    }
    block
}

/// Each bit in turn is set in each element of a type, with SELECT and without.
fn every_bit(rng: &mut Rng, kind: Kind, offer: Offer) {
    for aim in AIMS {
        for bit in every_single_bit() {
            for select in [0, SELECT] {
                let (shelf, slot) = aimed(rng, kind, aim);
                offer(one_bit_set(rng, &shelf, slot, select | bit));
            }
        }
    }
}

/// Each that is refused, once more.
fn every_reserved_bit(rng: &mut Rng, kind: Kind, offer: Offer) {
    for aim in AIMS {
        for bit in reserved_bits(kind) {
            let (shelf, slot) = aimed(rng, kind, aim);
            offer(one_bit_set(rng, &shelf, slot, SELECT | bit));
        }
    }
}

fn one_bit_set(rng: &mut Rng, shelf: &Shelf, slot: Slot, set: u32) -> Case {
    let others = if set & SELECT == 0 {
        unselected(rng)
    } else {
        selected(rng, slot.kind)
    };
    let mut page = accepted_page(rng, shelf);
    put(&mut page, slot, (others | set).to_be_bytes());
    let case = CONTROL.case(shelf, page);
    let reserved = set & reserved(slot.kind);
    let expected = if set & SELECT == 0 || reserved == 0 {
        (0, 0)
    } else {
        (6, slot.at + reserved.leading_zeros() as usize / 8)
    };
    assert_eq!(
        case.number_and_offset(),
        expected,
        "{:?}, {set:08X}",
        slot.kind
    );
    case
}

/// One type with up to three elements; one control element in four may have any bits.
fn few_elements(rng: &mut Rng, kind: Kind) -> Case {
    let count = rng.range(1, 3);
    let shelf = one_type(rng, kind, count);
    let mut page = CONTROL.blank(&shelf);
    for slot in slots(&shelf) {
        let any = four_bytes(rng);
        let element = if rng.one_in(4) {
            any
        } else {
            any & (SELECT | named(kind))
        };
        put(&mut page, slot, element.to_be_bytes());
    }
    CONTROL.case(&shelf, page)
}

/// Each element is asked for what it has.
fn as_stored(rng: &mut Rng) -> Case {
    let shelf = shelf(rng);
    let mut page = CONTROL.blank(&shelf);
    for (slot, [byte0, byte1, _, byte3]) in individual_settings(&shelf) {
        put(&mut page, slot, [0x80 | byte0 & 0x60, byte1, 0, byte3]);
    }
    CONTROL.case(&shelf, page)
}

/// The slot of each element, and what the element has stored.
fn individual_settings(shelf: &Shelf) -> Vec<(Slot, [u8; 4])> {
    let block = shelf.block();
    let elements = block[ELEMENTS_AT..].chunks(ELEMENT_BYTES);
    let settings = elements.map(|element| element[..4].try_into().expect("four bytes"));
    let individual = slots(shelf).into_iter().filter(|slot| !slot.overall);
    individual.zip(settings).collect()
}

/// Fans that are ON are stopped and stopped ones started, without a speed being asked for.
fn stopped_and_started(rng: &mut Rng, offer: Offer) {
    let shelf = if rng.one_in(2) {
        some_of_each(rng)
    } else {
        let count = rng.range(1, most_elements_of(1));
        one_type(rng, Kind::Cooling, count)
    };
    there_and_back(rng, &shelf, on_bit, offer);
}

/// None for a type that has no ON.
fn on_bit(kind: Kind) -> u32 {
    match kind {
        Kind::Cooling => 0x0000_0020,
        Kind::Temperature | Kind::Voltage | Kind::Current => 0,
    }
}

/// One page turns a setting of some elements, the next takes that back, and neither does more. The status page is
/// written before, between and after.
pub fn there_and_back(rng: &mut Rng, shelf: &Shelf, bit: fn(Kind) -> u32, offer: Offer) {
    let before = shelf.block();
    let [there, back] = turning_pages(rng, shelf, bit);
    let there = CONTROL.case_of(before.clone(), there);
    let between = there.answer().record().to_vec();
    let back = CONTROL.case_of(between.clone(), back);
    let after = back.answer().record().to_vec();
    assert_eq!(after, before, "a shelf there and back");
    offer(roomy_case(rng, &WRITE_STATUS, vec![before]));
    offer(there);
    offer(roomy_case(rng, &WRITE_STATUS, vec![between]));
    offer(back);
    offer(roomy_case(rng, &WRITE_STATUS, vec![after]));
}

/// For some elements of types that have the bit, its other value and then the one that they have, all else as it is.
fn turning_pages(rng: &mut Rng, shelf: &Shelf, bit: fn(Kind) -> u32) -> [Vec<u8>; 2] {
    let often = Chance::any(rng);
    let [mut there, mut back] = [CONTROL.blank(shelf), CONTROL.blank(shelf)];
    for (slot, settings) in individual_settings(shelf) {
        let bit = bit(slot.kind);
        if bit != 0 && often.comes(rng) {
            let stored = SELECT | u32::from_be_bytes(settings) & !SWAP_AND_SPEED;
            put(&mut there, slot, (stored ^ bit).to_be_bytes());
            put(&mut back, slot, stored.to_be_bytes());
        }
    }
    [there, back]
}
