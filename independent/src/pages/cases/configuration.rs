//! Configuration pages: each byte that can offend, and each length that can be wrong.

use super::case::{page_written, Case, Offer};
use super::changes::{change, say_own_length, set};
use super::flaws::Attempt;
use super::reading::Reader;
use crate::cases::{groups, shelf_of, text};
use crate::limits::{
    configuration_page_bytes, equal_share, most_elements_of, CONFIGURATION_BYTES, FIRST_LETTER,
    LAST_LETTER, LONGEST_SAID, MOST_ELEMENTS, MOST_OF_TYPE, MOST_TEXT, MOST_TYPES, PAGE_TYPES_AT,
};
use crate::pages::calls::{READ_CONFIGURATION, WRITE_CONFIGURATION};
use crate::record::{Kind, Shelf};
use crate::rng::Rng;
use std::ops::Range;

static CONFIGURATION: Reader = Reader {
    call: &READ_CONFIGURATION,
    code: 0x01,
    record_bytes: CONFIGURATION_BYTES,
    accepted: |_, shelf| vec![page_of(shelf)],
    flaws: &[(6, not_allowed)],
};

pub fn offer_all(rng: &mut Rng, offer: Offer) {
    CONFIGURATION.offer_spoiled(rng, offer);
    for _ in 0..5_000 {
        let page = page_of_parts(rng);
        offer(CONFIGURATION.case(rng, vec![page]));
    }
    for _ in 0..110 {
        every_offending_byte(rng, offer);
    }
    for _ in 0..4 {
        short_pages(rng, offer);
    }
    longest_pages(rng, offer);
}

pub fn offending(rng: &mut Rng) -> Case {
    CONFIGURATION.offending(rng)
}

fn page_of(shelf: &Shelf) -> Vec<u8> {
    page_written(&WRITE_CONFIGURATION, &[shelf.block()])
}

/// A page that is accepted.
fn page_of_types(rng: &mut Rng, types: usize) -> Vec<u8> {
    let most = most_elements_of(types);
    let elements = rng.range(0, most);
    let groups = groups(rng, types, elements);
    page_of(&shelf_of(rng, groups))
}

/// Makes one byte of a page offend, for the type that it is to belong to, and tells where it stands. The page
/// still has the length it needs.
type Spoiler = fn(&mut Vec<u8>, usize, &mut Rng) -> usize;

/// In front of the headers, whatever the type.
const FRONT: [Spoiler; 5] = [
    |page, _, rng| other_than(0x00, page, 1, rng),
    |page, _, rng| other_than(0x11, page, 8, rng),
    |page, _, rng| other_than(0x00, page, 9, rng),
    other_number_of_types,
    |page, _, rng| other_than(0x24, page, 11, rng),
];

const OF_TYPE: [Spoiler; 8] = [
    type_not_served,
    count_too_large,
    total_too_large,
    |page, of_type, rng| other_than(0x00, page, header_at(of_type) + 2, rng),
    text_too_long,
    |page, of_type, rng| letter_out_of_range(page, of_type, rng, |_| 0),
    |page, of_type, rng| letter_out_of_range(page, of_type, rng, |length| length / 2),
    |page, of_type, rng| letter_out_of_range(page, of_type, rng, |length| length - 1),
];

/// Each by itself, for each type.
fn every_offending_byte(rng: &mut Rng, offer: Offer) {
    for of_type in 0..MOST_TYPES {
        for spoiler in OF_TYPE {
            offer(spoiled(rng, of_type, spoiler));
        }
    }
    for spoiler in FRONT {
        offer(spoiled(rng, 0, spoiler));
    }
}

fn spoiled(rng: &mut Rng, of_type: usize, spoiler: Spoiler) -> Case {
    let types = rng.range(of_type + 1, MOST_TYPES);
    let mut page = page_of_types(rng, types);
    let offset = spoiler(&mut page, of_type, rng);
    let case = CONFIGURATION.case(rng, vec![page]);
    assert_eq!(case.number_and_offset(), (6, offset));
    case
}

fn not_allowed(attempt: &mut Attempt, rng: &mut Rng) {
    let page = attempt.page();
    let types = usize::from(page[PAGE_TYPES_AT]);
    if types == 0 || rng.one_in(4) {
        rng.pick(&FRONT)(page, 0, rng);
    } else {
        let of_type = rng.range(0, types - 1);
        rng.pick(&OF_TYPE)(page, of_type, rng);
    }
}

fn other_than(right: u8, page: &mut [u8], at: usize, rng: &mut Rng) -> usize {
    page[at] = right ^ rng.nonzero_byte();
    at
}

/// None, or too many; those too many have neither elements nor text.
fn other_number_of_types(page: &mut Vec<u8>, _: usize, rng: &mut Rng) -> usize {
    let types = usize::from(page[PAGE_TYPES_AT]);
    if types == 0 || types > MOST_TYPES || rng.one_in(4) {
        page.truncate(header_at(0));
        page[PAGE_TYPES_AT] = 0;
    } else {
        let any = rng.range(MOST_TYPES + 1, 255);
        let more = rng.pick(&[MOST_TYPES + 1, MOST_TYPES + 1, 255, any]);
        let headers = vec![[Kind::Cooling.code(), 0, 0, 0]; more - types].concat();
        page.splice(header_at(types)..header_at(types), headers);
        page[PAGE_TYPES_AT] = more as u8;
    }
    say_own_length(page);
    PAGE_TYPES_AT
}

fn header_at(of_type: usize) -> usize {
    configuration_page_bytes(of_type, 0)
}

fn type_not_served(page: &mut Vec<u8>, of_type: usize, rng: &mut Rng) -> usize {
    let any = rng.byte();
    let mut code = rng.pick(&[0x00, 0x02, 0x05, 0x0E, 0x11, 0x14, 0x17, 0x83, 0xFF, any]);
    while Kind::from_code(code).is_some() {
        code = rng.byte();
    }
    page[header_at(of_type)] = code;
    header_at(of_type)
}

fn count_too_large(page: &mut Vec<u8>, of_type: usize, rng: &mut Rng) -> usize {
    let any = rng.range(MOST_OF_TYPE + 1, 255);
    page[header_at(of_type) + 1] = rng.pick(&[MOST_OF_TYPE + 1, 255, any]) as u8;
    header_at(of_type) + 1
}

/// At the count of this type and not before. That of the first type has to be too large itself.
fn total_too_large(page: &mut Vec<u8>, of_type: usize, rng: &mut Rng) -> usize {
    if of_type == 0 {
        return count_too_large(page, of_type, rng);
    }
    for before in 0..of_type {
        page[header_at(before) + 1] = 0;
    }
    let before = rng.range(1, MOST_ELEMENTS);
    for _ in 0..before {
        page[header_at(rng.range(0, of_type - 1)) + 1] += 1;
    }
    let least = MOST_ELEMENTS + 1 - before;
    let any = rng.range(least, MOST_OF_TYPE);
    page[header_at(of_type) + 1] = rng.pick(&[least, any]) as u8;
    header_at(of_type) + 1
}

fn text_too_long(page: &mut Vec<u8>, of_type: usize, rng: &mut Rng) -> usize {
    let any = rng.range(MOST_TEXT + 1, 255);
    let length = rng.pick(&[MOST_TEXT + 1, 255, any]);
    give_text(page, of_type, length, rng);
    header_at(of_type) + 3
}

fn letter_out_of_range(
    page: &mut Vec<u8>,
    of_type: usize,
    rng: &mut Rng,
    place: fn(usize) -> usize,
) -> usize {
    if text_at(page, of_type).is_empty() {
        let length = rng.range(1, MOST_TEXT);
        give_text(page, of_type, length, rng);
    }
    let text = text_at(page, of_type);
    let at = text.start + place(text.len());
    page[at] = rng.pick(&[0x00, FIRST_LETTER - 1, LAST_LETTER + 1, 0x80, 0xFF]);
    at
}

fn text_at(page: &[u8], of_type: usize) -> Range<usize> {
    let text_length = |of_type: usize| usize::from(page[header_at(of_type) + 3]);
    let letters = (0..of_type).map(text_length).sum();
    let start = configuration_page_bytes(page[PAGE_TYPES_AT].into(), letters);
    start..start + text_length(of_type)
}

fn give_text(page: &mut Vec<u8>, of_type: usize, length: usize, rng: &mut Rng) {
    page.splice(text_at(page, of_type), text(rng, length));
    page[header_at(of_type) + 3] = length as u8;
    say_own_length(page);
}

/// Cut around the end of the fixed part and of the headers, as the page says itself and saying so.
fn short_pages(rng: &mut Rng, offer: Offer) {
    for types in [0, 1, 2, MOST_TYPES, MOST_TYPES + 1, 255] {
        let headers = (0..types).map(|_| header(rng, 0)).collect::<Vec<_>>();
        let page = page_of_headers(rng, &headers);
        for end in [PAGE_TYPES_AT + 1, header_at(0), header_at(types)] {
            for length in end - 2..(end + 2).min(page.len() + 1) {
                let mut cut = page[..length].to_vec();
                offer(CONFIGURATION.case(rng, vec![cut.clone()]));
                say_own_length(&mut cut);
                offer(CONFIGURATION.case(rng, vec![cut]));
            }
        }
    }
}

/// A configuration page put together from headers of any content, mostly of the length they need.
fn page_of_parts(rng: &mut Rng) -> Vec<u8> {
    let types = match rng.range(0, 9) {
        0 => rng.pick(&[0, MOST_TYPES + 1, 254, 255]),
        1 => rng.range(0, 255),
        _ => rng.range(1, MOST_TYPES),
    };
    let flawed = rng.one_in(2);
    let mut headers = Vec::new();
    for count in counts(rng, types) {
        let mut header = header(rng, count);
        if flawed && rng.one_in(4) {
            spoil_header(rng, &mut header);
        }
        headers.push(header);
    }
    let mut page = page_of_headers(rng, &headers);
    if flawed && rng.one_in(3) {
        let at = rng.range(40, page.len() + 40);
        let value = rng.pick(&[
            0x00,
            FIRST_LETTER - 1,
            FIRST_LETTER,
            LAST_LETTER,
            LAST_LETTER + 1,
            0x80,
            0xFF,
        ]);
        set(&mut page, at, value);
    }
    if rng.one_in(8) {
        change(&mut page, rng);
    }
    page
}

fn header(rng: &mut Rng, count: u8) -> [u8; 4] {
    let any_length = rng.range(0, MOST_TEXT);
    let length = rng.pick(&[0, 1, MOST_TEXT - 1, MOST_TEXT, any_length]);
    [rng.pick(&Kind::ALL).code(), count, 0, length as u8]
}

fn spoil_header(rng: &mut Rng, header: &mut [u8; 4]) {
    let any = rng.byte();
    let (text, elements) = (MOST_TEXT + 1, MOST_OF_TYPE + 1);
    header[rng.range(0, 3)] = rng.pick(&[0x00, text as u8, elements as u8, 0xFF, any]);
}

/// How many elements each type has: often as many as may be in all, or just one more, or far too many.
fn counts(rng: &mut Rng, types: usize) -> Vec<u8> {
    let full = equal_share(MOST_TYPES);
    let alike = rng.pick(&[0, 1, full, full + 1, equal_share(2), equal_share(1), 255]);
    let mut counts = vec![alike as u8; types];
    if rng.one_in(2) && types > 0 {
        counts.fill(0);
        let most = MOST_ELEMENTS;
        for _ in 0..rng.pick(&[most - 1, most, most, most + 1, most + 2]) {
            let count = &mut counts[rng.range(0, types - 1)];
            *count = count.saturating_add(1);
        }
    }
    counts
}

fn page_of_headers(rng: &mut Rng, headers: &[[u8; 4]]) -> Vec<u8> {
    let mut page = vec![0x01, 0, 0, 0];
    page.extend(rng.bytes(4));
    page.extend([0x11, 0x00, headers.len() as u8, 0x24]);
    page.extend(rng.bytes(36));
    page.extend(headers.concat());
    for [_, _, _, text_length] in headers {
        page.extend(text(rng, usize::from(*text_length)));
    }
    say_own_length(&mut page);
    page
}

/// As long as a page can be, a byte more or less, and 255 texts of 255 letters.
fn longest_pages(rng: &mut Rng, offer: Offer) {
    let letters = LONGEST_SAID - configuration_page_bytes(255, 0);
    for total in [letters - 1, letters, letters + 1, 255 * 255] {
        let headers: Vec<[u8; 4]> = (0..255)
            .map(|place| {
                let length = total * (place + 1) / 255 - total * place / 255;
                [Kind::Cooling.code(), 0, 0, length as u8]
            })
            .collect();
        let page = page_of_headers(rng, &headers);
        offer(CONFIGURATION.case(rng, vec![page]));
    }
}
