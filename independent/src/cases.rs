//! Shelf blocks to compare: well-formed ones of every shape, and damaged ones.

use crate::limits::{
    block_bytes, element_at, most_elements_of, name_at, ELEMENTS_AT, ELEMENT_BYTES, FASTEST,
    FIRST_LETTER, HIGHEST_NOMINAL, HIGHEST_SPEED, LAST_LETTER, LONGEST_BLOCK, LONGEST_SAID,
    MOST_ELEMENTS, MOST_OF_TYPE, MOST_SAID, MOST_TEXT, MOST_TYPES, NAME_BYTES, SLOTS_AT,
    SLOT_BYTES, TEXT_AT_IN_SLOT, TYPES_AT,
};
use crate::names::give_names;
use crate::record::{
    Element, FanSettings, Group, Identification, Kind, Settings, Shelf, Thresholds,
};
use crate::rng::Rng;
use std::array::from_fn;

/// What the maker of a block knows about it beforehand.
#[derive(Clone, Copy, Debug, PartialEq, Eq)]
pub enum Intent {
    WellFormed,
    Malformed,
    Open,
}

pub type Offer<'a> = &'a mut dyn FnMut(&[u8], Intent);

/// As long as any shelf's block, and longer.
pub const LONG_BLOCK: usize = LONGEST_BLOCK + 44;
/// The least that is too many and that one byte takes for none.
const WRAPPED_TO_NONE: usize = (MOST_ELEMENTS / 256 + 1) * 256;
/// Within the limit of each type, though not within that of all.
const MOST_OF_EACH: usize = MOST_TYPES * MOST_OF_TYPE;
const FAR_TOO_MANY: usize = MOST_ELEMENTS + 936;
/// So many that a type's count is sure to have room in its byte.
const SURELY_SAID: usize = 250;

pub fn offer_all(rng: &mut Rng, offer: Offer) {
    well_formed_shelves(rng, offer);
    byte_changes(rng, offer);
    element_words(rng, offer);
    wrong_lengths(rng, offer);
    plain_fills(rng, offer);
    wrong_totals(rng, offer);
    element_flaws(rng, offer);
    block_flaws(rng, offer);
    open_changes(rng, offer);
    fan_speeds(rng, offer);
}

fn well_formed_shelves(rng: &mut Rng, offer: Offer) {
    for _ in 0..60_000 {
        offer(&shelf(rng).block(), Intent::WellFormed);
    }
    for types in 1..=MOST_TYPES {
        for elements in 0..=most_elements_of(types) {
            let groups = groups(rng, types, elements);
            offer(&shelf_of(rng, groups).block(), Intent::WellFormed);
        }
    }
    for kind in Kind::ALL {
        for count in 0..=most_elements_of(1) {
            offer(&one_type(rng, kind, count).block(), Intent::WellFormed);
        }
    }
}

/// Every byte takes every value, in three shelves.
fn byte_changes(rng: &mut Rng, offer: Offer) {
    let empty = vec![group(rng, Kind::Cooling, 0)];
    let one_of_each = Kind::ALL.map(|kind| group(rng, kind, 1)).to_vec();
    let two_of_each = [one_of_each.clone(), one_of_each.clone()].concat();
    for groups in [empty, one_of_each, two_of_each] {
        let shelf = shelf_of(rng, groups);
        let mut block = shelf.block();
        let names_at = element_at(shelf.elements().count());
        for at in 0..block.len() {
            let kept = block[at];
            let intent = if at < TYPES_AT || at >= names_at {
                Intent::WellFormed
            } else {
                Intent::Open
            };
            for value in 0..=255 {
                block[at] = value;
                offer(&block, intent);
            }
            block[at] = kept;
        }
    }
}

/// Each of the eight 16-bit words of an element takes every value, for each type. Two of them
/// are the pairs of threshold bytes that have an order.
fn element_words(rng: &mut Rng, offer: Offer) {
    for kind in Kind::ALL {
        let block = one_type(rng, kind, 1).block();
        for at in (element_at(0)..element_at(1)).step_by(2) {
            let mut changed = block.clone();
            for word in 0..=u16::MAX {
                changed[at..at + 2].copy_from_slice(&word.to_be_bytes());
                offer(&changed, Intent::Open);
            }
        }
    }
}

fn wrong_lengths(rng: &mut Rng, offer: Offer) {
    for _ in 0..60 {
        let block = shelf(rng).block();
        for length in 0..block.len() {
            offer(&block[..length], Intent::Malformed);
        }
        for surplus in 1..=NAME_BYTES + ELEMENT_BYTES {
            offer_extended(&block, surplus, rng, offer);
        }
        offer_extended(&block, LONGEST_SAID - block.len(), rng, offer);
        for end in [ELEMENT_BYTES, NAME_BYTES] {
            let last_again = &block[block.len() - end..];
            offer(&[&block[..], last_again].concat(), Intent::Malformed);
        }
    }
}

fn offer_extended(block: &[u8], surplus: usize, rng: &mut Rng, offer: Offer) {
    for fill in [0x00, 0xFF, rng.byte()] {
        offer(&[block, &vec![fill; surplus]].concat(), Intent::Malformed);
    }
}

fn plain_fills(rng: &mut Rng, offer: Offer) {
    let short = 0..=LONG_BLOCK;
    let of_elements = (0..=MOST_SAID + 1).step_by(3);
    let at_their_ends = of_elements.map(|elements| block_bytes(1, elements));
    let longest = LONGEST_SAID - 4..=LONGEST_SAID;
    for length in short.chain(at_their_ends).chain(longest) {
        for fill in [0x00, 0xFF, 0x01, 0x20] {
            offer(&vec![fill; length], Intent::Malformed);
        }
        offer(&rng.bytes(length), Intent::Malformed);
    }
}

/// No types, or too many elements; the latter also cut to the lengths that a wrapped or capped
/// total would ask for.
fn wrong_totals(rng: &mut Rng, offer: Offer) {
    offer(&shelf_of(rng, Vec::new()).block(), Intent::Malformed);
    for round in 0..2_000 {
        let elements = match round % 4 {
            0 => MOST_ELEMENTS + 1,
            1 => rng.range(MOST_ELEMENTS + 1, MOST_ELEMENTS + 16),
            2 => rng.range(WRAPPED_TO_NONE, WRAPPED_TO_NONE + MOST_OF_TYPE),
            _ => rng.range(MOST_ELEMENTS + 1, FAR_TOO_MANY),
        };
        let types = rng.range(elements / SURELY_SAID + 1, MOST_TYPES);
        let groups = too_many(rng, types, elements);
        let block = shelf_of(rng, groups).block();
        offer(&block, Intent::Malformed);
        for counted in [elements % 256, MOST_ELEMENTS] {
            for end in [element_at(counted), block_bytes(types, counted)] {
                let length = block.len().min(end);
                offer(&block[..length], Intent::Malformed);
            }
        }
    }
}

/// Changes one element so that it alone breaks one rule.
type ElementFlaw = fn(&mut Element, &mut Rng);

const ELEMENT_FLAWS: [(Kind, ElementFlaw); 14] = [
    (Kind::Cooling, no_speed),
    (Kind::Cooling, any_threshold),
    (Kind::Cooling, reading_too_fast),
    (Kind::Cooling, nominal_not_had),
    (Kind::Temperature, reading_too_wide),
    (Kind::Temperature, nominal_not_had),
    (Kind::Temperature, high_order),
    (Kind::Temperature, low_order),
    (Kind::Voltage, nominal_out_of_range),
    (Kind::Voltage, high_order),
    (Kind::Voltage, low_order),
    (Kind::Current, nominal_out_of_range),
    (Kind::Current, high_order),
    (Kind::Current, low_threshold),
];

fn element_flaws(rng: &mut Rng, offer: Offer) {
    for (kind, flaw) in ELEMENT_FLAWS {
        for _ in 0..2_000 {
            offer(&with_element_flaw(rng, kind, flaw), Intent::Malformed);
        }
    }
}

fn with_element_flaw(rng: &mut Rng, kind: Kind, flaw: ElementFlaw) -> Vec<u8> {
    let count = rng.range(1, 8);
    let mut flawed = group(rng, kind, count);
    let which = rng.range(0, count - 1);
    flaw(&mut flawed.elements[which], rng);
    let others = rng.range(0, MOST_TYPES - 1);
    let (groups, _) = surround(rng, flawed, others);
    shelf_of(rng, groups).block()
}

fn no_speed(element: &mut Element, _: &mut Rng) {
    if let Element::Cooling { settings, .. } = element {
        settings.speed = 0;
    }
}

fn reading_too_fast(element: &mut Element, rng: &mut Rng) {
    if let Element::Cooling { reading, .. } = element {
        *reading = near(
            rng,
            &[FASTEST + 1, FASTEST + 2, 32_768, 65_535],
            FASTEST + 1,
            65_535,
        );
    }
}

fn reading_too_wide(element: &mut Element, rng: &mut Rng) {
    if let Element::Temperature { reading, .. } = element {
        *reading = near(rng, &[256, 257, 511, 32_768, 65_535], 256, 65_535);
    }
}

fn nominal_not_had(element: &mut Element, rng: &mut Rng) {
    *nominal_of(element) = near(rng, &[1, 255, 256, 32_768, 65_535], 1, 65_535);
}

fn nominal_out_of_range(element: &mut Element, rng: &mut Rng) {
    *nominal_of(element) = near(
        rng,
        &[0, HIGHEST_NOMINAL + 1, HIGHEST_NOMINAL + 2, 65_535],
        HIGHEST_NOMINAL + 1,
        65_535,
    );
}

fn any_threshold(element: &mut Element, rng: &mut Rng) {
    if rng.one_in(2) {
        low_threshold(element, rng);
        return;
    }
    let thresholds = element.thresholds_mut();
    if rng.one_in(2) {
        thresholds.high_critical = rng.nonzero_byte();
    } else {
        thresholds.high_warning = rng.nonzero_byte();
    }
}

fn low_threshold(element: &mut Element, rng: &mut Rng) {
    let thresholds = element.thresholds_mut();
    if rng.one_in(2) {
        thresholds.low_warning = rng.nonzero_byte();
    } else {
        thresholds.low_critical = rng.nonzero_byte();
    }
}

fn high_order(element: &mut Element, rng: &mut Rng) {
    let thresholds = element.thresholds_mut();
    (thresholds.high_warning, thresholds.high_critical) = unequal_pair(rng);
}

fn low_order(element: &mut Element, rng: &mut Rng) {
    let kind = element.kind();
    let thresholds = element.thresholds_mut();
    let (greater, smaller) = unequal_pair(rng);
    (thresholds.low_critical, thresholds.low_warning) = match kind {
        Kind::Voltage => (smaller, greater),
        _ => (greater, smaller),
    };
}

fn nominal_of(element: &mut Element) -> &mut u16 {
    match element {
        Element::Cooling { nominal, .. }
        | Element::Temperature { nominal, .. }
        | Element::Voltage { nominal, .. }
        | Element::Current { nominal, .. } => nominal,
    }
}

/// A well-formed block with the places where one type's slot and one of its elements stand.
struct Target {
    block: Vec<u8>,
    kind: Kind,
    text_length: usize,
    slot_at: usize,
    unused_slots_at: usize,
    element_at: usize,
}

type BlockFlaw = fn(&mut Target, &mut Rng);

const BLOCK_FLAWS: [BlockFlaw; 11] = [
    other_type_number,
    padding_after_type_number,
    unknown_type,
    other_count,
    other_text_length,
    padding_in_slot,
    letter_out_of_range,
    padding_after_text,
    unused_slot_in_use,
    reserved_setting,
    padding_after_element,
];

fn block_flaws(rng: &mut Rng, offer: Offer) {
    for flaw in BLOCK_FLAWS {
        for _ in 0..3_000 {
            offer(&with_block_flaw(rng, flaw), Intent::Malformed);
        }
    }
}

fn with_block_flaw(rng: &mut Rng, flaw: BlockFlaw) -> Vec<u8> {
    let mut target = target(rng);
    flaw(&mut target, rng);
    target.block
}

/// A block that is not well formed, for one reason or another.
pub fn malformed_block(rng: &mut Rng) -> Vec<u8> {
    match rng.range(0, 4) {
        0 => {
            let shelf = shelf(rng);
            let (types, elements) = (shelf.groups.len(), shelf.elements().count());
            let any = rng.range(0, block_bytes(types, elements) - 1);
            let without_names = element_at(elements);
            let a_name_less = name_at(elements, types + elements - 1);
            let length = rng.pick(&[any, any, without_names, a_name_less]);
            shelf.block()[..length].to_vec()
        }
        1 => {
            let any = rng.range(1, 2 * NAME_BYTES);
            let surplus = rng.pick(&[any, any, ELEMENT_BYTES, NAME_BYTES]);
            [shelf(rng).block(), rng.bytes(surplus)].concat()
        }
        2 => {
            let (kind, flaw) = rng.pick(&ELEMENT_FLAWS);
            with_element_flaw(rng, kind, flaw)
        }
        3 => {
            let any = rng.range(MOST_ELEMENTS + 1, MOST_OF_EACH);
            let elements = rng.pick(&[
                MOST_ELEMENTS + 1,
                MOST_ELEMENTS + 2,
                WRAPPED_TO_NONE,
                WRAPPED_TO_NONE + 1,
                MOST_OF_EACH,
                any,
            ]);
            let fewest_types = (elements + MOST_OF_TYPE - 1) / MOST_OF_TYPE;
            let types = rng.range(fewest_types, MOST_TYPES);
            let groups = too_many(rng, types, elements);
            shelf_of(rng, groups).block()
        }
        _ => {
            let flaw = rng.pick(&BLOCK_FLAWS);
            with_block_flaw(rng, flaw)
        }
    }
}

/// The type aimed at has a text that leaves room, and one slot at least is not in use.
fn target(rng: &mut Rng) -> Target {
    let kind = rng.pick(&Kind::ALL);
    let count = rng.range(1, 8);
    let mut aimed = group(rng, kind, count);
    let text_length = rng.range(1, MOST_TEXT - 1);
    aimed.text = text(rng, text_length);
    let others = rng.range(0, MOST_TYPES - 2);
    let (groups, place) = surround(rng, aimed, others);
    let before: usize = groups[..place]
        .iter()
        .map(|group| group.elements.len())
        .sum();
    let element = before + rng.range(0, count - 1);
    Target {
        kind,
        text_length,
        slot_at: SLOTS_AT + SLOT_BYTES * place,
        unused_slots_at: SLOTS_AT + SLOT_BYTES * groups.len(),
        element_at: element_at(element),
        block: shelf_of(rng, groups).block(),
    }
}

impl Target {
    /// Adds a number other than 0, modulo 256.
    fn alter(&mut self, at: usize, rng: &mut Rng) {
        let step = match rng.range(0, 3) {
            0 => 1,
            1 => 255,
            _ => rng.nonzero_byte(),
        };
        self.block[at] = self.block[at].wrapping_add(step);
    }
}

fn other_type_number(target: &mut Target, rng: &mut Rng) {
    target.alter(TYPES_AT, rng);
}

fn padding_after_type_number(target: &mut Target, rng: &mut Rng) {
    target.alter(TYPES_AT + rng.range(1, 3), rng);
}

fn unknown_type(target: &mut Target, rng: &mut Rng) {
    let known = Kind::ALL.map(Kind::code);
    while known.contains(&target.block[target.slot_at]) {
        target.block[target.slot_at] = rng.byte();
    }
}

fn other_count(target: &mut Target, rng: &mut Rng) {
    target.alter(target.slot_at + 1, rng);
}

fn other_text_length(target: &mut Target, rng: &mut Rng) {
    target.alter(target.slot_at + 2, rng);
}

fn padding_in_slot(target: &mut Target, rng: &mut Rng) {
    target.alter(target.slot_at + 3, rng);
}

fn letter_out_of_range(target: &mut Target, rng: &mut Rng) {
    let at = target.slot_at + TEXT_AT_IN_SLOT + rng.range(0, target.text_length - 1);
    let (just_too_low, just_too_high) = (FIRST_LETTER - 1, LAST_LETTER + 1);
    let too_high = rng.range(just_too_high.into(), 0xFF) as u8;
    let too_low = rng.range(0x00, just_too_low.into()) as u8;
    target.block[at] = rng.pick(&[
        0x00,
        just_too_low,
        just_too_high,
        0x80,
        0xFF,
        too_high,
        too_low,
    ]);
}

fn padding_after_text(target: &mut Target, rng: &mut Rng) {
    let text_at = target.slot_at + TEXT_AT_IN_SLOT;
    target.alter(text_at + rng.range(target.text_length, MOST_TEXT - 1), rng);
}

fn unused_slot_in_use(target: &mut Target, rng: &mut Rng) {
    target.alter(rng.range(target.unused_slots_at, ELEMENTS_AT - 1), rng);
}

fn reserved_setting(target: &mut Target, rng: &mut Rng) {
    let named: [u8; 4] = match target.kind {
        Kind::Cooling => [0x70, 0x80, 0x00, 0x67],
        Kind::Temperature | Kind::Voltage | Kind::Current => [0x70, 0xC0, 0x00, 0x00],
    };
    loop {
        let byte = rng.range(0, 3);
        let bit = 1 << rng.range(0, 7);
        if named[byte] & bit == 0 {
            target.block[target.element_at + byte] |= bit;
            return;
        }
    }
}

fn padding_after_element(target: &mut Target, rng: &mut Rng) {
    target.alter(target.element_at + rng.range(12, 15), rng);
}

/// Changes that may leave a block well formed.
fn open_changes(rng: &mut Rng, offer: Offer) {
    for _ in 0..10_000 {
        for change in [
            other_known_type,
            moved_count,
            exchanged_slots,
            sparse_element,
        ] {
            let mut target = target(rng);
            change(&mut target, rng);
            offer(&target.block, Intent::Open);
        }
        let shelf = shelf(rng);
        let mut block = shelf.block();
        let names_at = element_at(shelf.elements().count());
        for _ in 0..rng.range(1, 3) {
            let end = rng.pick(&[names_at, names_at, block.len()]);
            let at = rng.range(TYPES_AT, end - 1);
            block[at] = rng.byte();
        }
        offer(&block, Intent::Open);
    }
}

fn other_known_type(target: &mut Target, rng: &mut Rng) {
    target.block[target.slot_at] = rng.pick(&Kind::ALL).code();
}

/// One element more here and one less there, so that the total stays unless a count wraps.
fn moved_count(target: &mut Target, rng: &mut Rng) {
    let from = other_slot(target, rng);
    let to = target.slot_at;
    target.block[from + 1] = target.block[from + 1].wrapping_sub(1);
    target.block[to + 1] = target.block[to + 1].wrapping_add(1);
}

fn exchanged_slots(target: &mut Target, rng: &mut Rng) {
    let other = other_slot(target, rng);
    for offset in 0..SLOT_BYTES {
        target.block.swap(target.slot_at + offset, other + offset);
    }
}

/// The place of any slot in use.
fn other_slot(target: &Target, rng: &mut Rng) -> usize {
    let types = usize::from(target.block[TYPES_AT]);
    SLOTS_AT + SLOT_BYTES * rng.range(0, types - 1)
}

fn sparse_element(target: &mut Target, rng: &mut Rng) {
    let element = &mut target.block[target.element_at..target.element_at + ELEMENT_BYTES];
    element.fill(0);
    for _ in 0..rng.range(0, 3) {
        element[rng.range(0, ELEMENT_BYTES - 1)] = rng.byte();
    }
}

/// A fan that is ON or stopped, with a reading or without, has any SPEED but 0.
fn fan_speeds(rng: &mut Rng, offer: Offer) {
    for speed in 0..=HIGHEST_SPEED {
        let intent = match speed {
            0 => Intent::Malformed,
            _ => Intent::WellFormed,
        };
        for (on, turning) in [(true, 0), (true, 1), (false, 0), (false, 1)] {
            let mut shelf = one_type(rng, Kind::Cooling, 1);
            if let Element::Cooling {
                settings, reading, ..
            } = &mut shelf.groups[0].elements[0]
            {
                (settings.on, settings.speed, *reading) = (on, speed, turning);
            }
            offer(&shelf.block(), intent);
        }
    }
}

pub fn shelf(rng: &mut Rng) -> Shelf {
    let types = rng.range(1, MOST_TYPES);
    let most = most_elements_of(types);
    let elements = if rng.one_in(6) {
        most
    } else {
        rng.range(0, most)
    };
    let groups = groups(rng, types, elements);
    shelf_of(rng, groups)
}

/// A shelf with so many elements of this type alone.
pub fn one_type(rng: &mut Rng, kind: Kind, count: usize) -> Shelf {
    let groups = vec![group(rng, kind, count)];
    shelf_of(rng, groups)
}

/// With names of their own, whatever the groups have.
pub fn shelf_of(rng: &mut Rng, mut groups: Vec<Group>) -> Shelf {
    give_names(rng, &mut groups);
    Shelf {
        generation: u32::from_be_bytes(from_fn(|_| rng.byte())),
        identification: Identification {
            logical_identifier: from_fn(|_| rng.byte()),
            vendor: from_fn(|_| rng.byte()),
            product: from_fn(|_| rng.byte()),
            revision: from_fn(|_| rng.byte()),
        },
        groups,
    }
}

/// The group among others of random types, as full as a shelf may be, and its place there.
fn surround(rng: &mut Rng, group: Group, others: usize) -> (Vec<Group>, usize) {
    let left = MOST_ELEMENTS - group.elements.len();
    let room = left.min(most_elements_of(others));
    let elements = if others == 0 { 0 } else { rng.range(0, room) };
    let mut groups = groups(rng, others, elements);
    let place = rng.range(0, others);
    groups.insert(place, group);
    (groups, place)
}

/// Random shares, so that a type often has none or nearly all of the elements.
pub fn groups(rng: &mut Rng, types: usize, elements: usize) -> Vec<Group> {
    let mut counts = vec![0; types];
    let mut left = elements;
    while left > 0 {
        let share = rng.range(1, left);
        let count = &mut counts[rng.range(0, types - 1)];
        let taken = share.min(MOST_OF_TYPE - *count);
        *count += taken;
        left -= taken;
    }
    let mut groups = Vec::new();
    for count in counts {
        let kind = rng.pick(&Kind::ALL);
        groups.push(group(rng, kind, count));
    }
    groups
}

/// Nearly equal shares, so that each count fits in its byte.
fn too_many(rng: &mut Rng, types: usize, elements: usize) -> Vec<Group> {
    let mut groups = Vec::new();
    for place in 0..types {
        let kind = rng.pick(&Kind::ALL);
        let count = elements * (place + 1) / types - elements * place / types;
        groups.push(group(rng, kind, count));
    }
    groups
}

pub fn group(rng: &mut Rng, kind: Kind, count: usize) -> Group {
    let most = MOST_TEXT as u16;
    let length = near(rng, &[0, 1, most - 1, most], 0, most);
    let text = text(rng, length.into());
    let elements = (0..count).map(|_| element(rng, kind)).collect();
    Group::nameless(kind, text, elements)
}

pub fn text(rng: &mut Rng, length: usize) -> Vec<u8> {
    let (first, last) = (FIRST_LETTER.into(), LAST_LETTER.into());
    (0..length)
        .map(|_| near(rng, &[first, last], first, last) as u8)
        .collect()
}

pub fn element(rng: &mut Rng, kind: Kind) -> Element {
    match kind {
        Kind::Cooling => fan(rng),
        Kind::Temperature => temperature_sensor(rng),
        Kind::Voltage => voltage_sensor(rng),
        Kind::Current => Element::Current {
            settings: settings(rng),
            thresholds: high_thresholds(rng),
            reading: signed_reading(rng),
            nominal: nominal(rng),
        },
    }
}

fn fan(rng: &mut Rng) -> Element {
    Element::Cooling {
        settings: FanSettings {
            common: settings(rng),
            on: rng.one_in(2),
            speed: rng.range(1, HIGHEST_SPEED.into()) as u8,
        },
        thresholds: Thresholds::default(),
        reading: near(rng, &[0, 1, 255, 256, FASTEST - 1, FASTEST], 0, FASTEST),
        nominal: 0,
    }
}

fn temperature_sensor(rng: &mut Rng) -> Element {
    let (low_warning, low_critical) = ordered_pair(rng);
    Element::Temperature {
        settings: settings(rng),
        thresholds: Thresholds {
            low_warning,
            low_critical,
            ..high_thresholds(rng)
        },
        reading: near(rng, &[0, 1, 254, 255], 0, 255),
        nominal: 0,
    }
}

fn voltage_sensor(rng: &mut Rng) -> Element {
    let (low_critical, low_warning) = ordered_pair(rng);
    Element::Voltage {
        settings: settings(rng),
        thresholds: Thresholds {
            low_warning,
            low_critical,
            ..high_thresholds(rng)
        },
        reading: signed_reading(rng),
        nominal: nominal(rng),
    }
}

fn settings(rng: &mut Rng) -> Settings {
    Settings {
        prdfail: rng.one_in(2),
        disabled: rng.one_in(2),
        swap: rng.one_in(2),
        ident: rng.one_in(2),
        fail: rng.one_in(2),
    }
}

fn signed_reading(rng: &mut Rng) -> i16 {
    let any = rng.word() as i16;
    rng.pick(&[i16::MIN, -1, 0, 1, i16::MAX, any, any, any])
}

fn nominal(rng: &mut Rng) -> u16 {
    near(
        rng,
        &[1, 2, 255, 256, HIGHEST_NOMINAL - 1, HIGHEST_NOMINAL],
        1,
        HIGHEST_NOMINAL,
    )
}

fn high_thresholds(rng: &mut Rng) -> Thresholds {
    let (high_critical, high_warning) = ordered_pair(rng);
    Thresholds {
        high_critical,
        high_warning,
        ..Thresholds::default()
    }
}

/// The first byte is at least the second, or one of them is zero.
fn ordered_pair(rng: &mut Rng) -> (u8, u8) {
    match rng.range(0, 4) {
        0 => (0, rng.byte()),
        1 => (rng.byte(), 0),
        2 => {
            let both = rng.byte();
            (both, both)
        }
        _ => unequal_pair(rng),
    }
}

/// Both nonzero and the first greater, often by no more than one.
fn unequal_pair(rng: &mut Rng) -> (u8, u8) {
    let smaller = rng.range(1, 254);
    let greater = if rng.one_in(2) {
        smaller + 1
    } else {
        rng.range(smaller + 1, 255)
    };
    (greater as u8, smaller as u8)
}

/// One of the edges as often as any number from `low` to `high`.
fn near(rng: &mut Rng, edges: &[u16], low: u16, high: u16) -> u16 {
    if rng.one_in(2) {
        rng.pick(edges)
    } else {
        rng.range(low.into(), high.into()) as u16
    }
}
