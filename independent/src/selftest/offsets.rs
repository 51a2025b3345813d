//! Where the first offending byte of a page stands: examples worked out by hand, and laws that follow from the
//! rule.

use super::checks::Checks;
use super::examples::{block_a, handed_back, with, BEFORE, NOISE, SPEED_5, UNSELECTED};
use crate::limits::{
    equal_share, CONFIGURATION_BYTES, FIRST_LETTER, HIGHEST_CODE, LAST_LETTER, MOST_ELEMENTS,
    MOST_OF_TYPE, MOST_TEXT, MOST_TYPES, STATUS_BYTES, THRESHOLDS_BYTES,
};
use crate::pages::calls::{
    apply_control, read_configuration, read_status, read_thresholds, READ_DESCRIPTORS,
};
use crate::pages::cases::case::Case;
use crate::pages::cases::OFFENDING;
use crate::rng::Rng;

const SEED: u64 = 0x0FF5E7;
const ROUNDS: usize = 60;

pub fn check(checks: &mut Checks) {
    control_pages_for_a(checks);
    status_pages_of_a(checks);
    threshold_pages_of_a(checks);
    configuration_pages(checks);
    laws(checks);
}

/// A page for A: the overall element stands at 8, the fans' at 12, 16 and 20.
fn page_a(code: u8, byte1: u8, elements: [[u8; 4]; 4]) -> Vec<u8> {
    let header = [code, byte1, 0x00, 0x14, 0x00, 0x00, 0x00, 0x07];
    [&header[..], &elements.concat()].concat()
}

/// The middle fan's element, and the byte that offends first.
const MIDDLE_CONTROLLED: [([u8; 4], u8); 6] = [
    ([0x88, 0x00, 0x00, 0x20], 16),
    ([0x80, 0x40, 0x00, 0x20], 17),
    ([0x80, 0x00, 0x01, 0x20], 18),
    ([0x80, 0x00, 0x00, 0x30], 19),
    ([0x80, 0x01, 0x00, 0x08], 17),
    ([0xFF, 0xFF, 0xFF, 0xFF], 16),
];

/// Page byte 1, the other elements, the last fan's, and the byte that offends first.
const LAST_CONTROLLED: [(u8, [u8; 4], [u8; 4], u8); 6] = [
    (0x00, SPEED_5, [0x81, 0x00, 0x00, 0x00], 20),
    (0x00, NOISE, [0x80, 0x00, 0xFF, 0xFF], 22),
    (0x0F, NOISE, [0x80, 0x00, 0x00, 0x80], 23),
    (0x00, [0x80, 0x00, 0x00, 0x80], [0xFF; 4], 11),
    (0x10, UNSELECTED, UNSELECTED, 1),
    (0xF0, [0xFF; 4], [0xFF; 4], 1),
];

fn control_pages_for_a(checks: &mut Checks) {
    let block = block_a();
    let mut refused_at = |offset: u8, page: &[u8]| {
        let what = format!("control page {page:02X?}");
        let answer = apply_control(&block, page);
        checks.equal(&what, answer, handed_back(6, offset, &block));
    };
    for (middle, offset) in MIDDLE_CONTROLLED {
        let elements = [UNSELECTED, NOISE, middle, SPEED_5];
        refused_at(offset, &page_a(0x02, 0x00, elements));
    }
    for (byte1, other, last, offset) in LAST_CONTROLLED {
        refused_at(offset, &page_a(0x02, byte1, [other, other, other, last]));
    }
}

const FAN: [u8; 4] = [0x01, 0x00, 0x78, 0x23];

/// Page byte 1, the overall element, the middle fan's, and the byte that offends first.
const SHOWN: [(u8, [u8; 4], [u8; 4], u8); 13] = [
    (0x00, [0; 4], [HIGHEST_CODE + 1, 0x00, 0x78, 0x23], 16),
    (0x00, [0; 4], [0x0F, 0x00, 0x78, 0x23], 16),
    (0x06, [0; 4], [0x7F, 0x87, 0xFF, 0x77], 16),
    (0x00, [0; 4], [0x81, 0x00, 0x78, 0x23], 16),
    (0x00, [0; 4], [0x01, 0x08, 0x78, 0x23], 17),
    (0x00, [0; 4], [0x01, 0x00, 0x78, 0xA3], 19),
    (0x00, [0; 4], [0x8F, 0x00, 0x78, 0xFF], 16),
    (0x00, [0; 4], [0x08, 0x78, 0x78, 0xFF], 17),
    (0x00, [HIGHEST_CODE + 1, 0x00, 0x00, 0x00], FAN, 8),
    (0x00, [0x41, 0x00, 0x00, 0x00], FAN, 8),
    (0x00, [0x01, 0x00, 0x78, 0x23], [0xFF; 4], 10),
    (0x01, [0; 4], FAN, 1),
    (0x07, [0xFF; 4], [0xFF; 4], 1),
];

fn status_pages_of_a(checks: &mut Checks) {
    let configuration = &block_a()[..CONFIGURATION_BYTES];
    let before = [BEFORE; STATUS_BYTES];
    for (byte1, overall, middle, offset) in SHOWN {
        let page = page_a(0x02, byte1, [overall, FAN, middle, FAN]);
        let what = format!("status page {page:02X?}");
        let answer = read_status(configuration, &page, &before);
        checks.equal(&what, answer, handed_back(6, offset, &before));
    }
}

/// Page byte 1, the overall element, all fans', number and offset. A fan's own thresholds are 7.
const THRESHOLDS: [(u8, [u8; 4], [u8; 4], u8, usize); 6] = [
    (0x00, [1, 0, 0, 1], [0; 4], 6, 8),
    (0x00, [0, 0, 0, 1], [1; 4], 6, 11),
    (0x80, [0; 4], [0; 4], 6, 1),
    (0x01, [1; 4], [1; 4], 6, 1),
    (0x00, [0; 4], [0, 0, 0, 1], 7, 0),
    (0x00, [0; 4], [0; 4], 0, 0),
];

fn threshold_pages_of_a(checks: &mut Checks) {
    let configuration = &block_a()[..CONFIGURATION_BYTES];
    let mut outcome_is = |number: u8, offset: usize, page: &[u8]| {
        let what = format!("threshold page {page:02X?}");
        let answer = read_thresholds(configuration, page, &[BEFORE; THRESHOLDS_BYTES]);
        checks.equal(&what, (answer.number, answer.offset()), (number, offset));
    };
    for (byte1, overall, fan, number, offset) in THRESHOLDS {
        let page = page_a(0x05, byte1, [overall, fan, fan, fan]);
        outcome_is(number, offset, &page);
    }
    let page = page_a(0x05, 0x00, [[0; 4]; 4]);
    outcome_is(4, 0, &page[..23]);
    outcome_is(4, 0, &with(&page, 3, &[0x18]));
    let four_fans = with(&[&page[..], &[0; 4]].concat(), 3, &[0x18]);
    outcome_is(12, 0, &four_fans);
    outcome_is(12, 0, &with(&four_fans, 7, &[8]));
    outcome_is(12, 0, &with(&four_fans, 8, &[1]));
    outcome_is(4, 0, &with(&four_fans, 3, &[0x14]));
}

/// Generation 7, identification zero, these headers, and the letter F for all texts.
fn configuration_page(headers: &[[u8; 4]]) -> Vec<u8> {
    let letters: usize = headers.iter().map(|header| usize::from(header[3])).sum();
    let length = 44 + 4 * headers.len() + letters;
    let mut page = vec![0x01, 0x00, (length / 256) as u8, (length % 256) as u8];
    page.extend([0x00, 0x00, 0x00, 0x07]);
    page.extend([0x11, 0x00, headers.len() as u8, 0x24]);
    page.extend([0; 36]);
    page.extend(headers.concat());
    page.extend(vec![b'F'; letters]);
    page
}

/// As in A: the only header stands at 48, its text at 52, 53 and 54.
const FANS: [u8; 4] = [0x03, 0x03, 0x00, 0x03];

/// Just too many of one type, and as many as may be in all.
const TOO_MANY: u8 = MOST_OF_TYPE as u8 + 1;
const ALL: u8 = MOST_ELEMENTS as u8;
const TOO_LONG: u8 = MOST_TEXT as u8 + 1;

/// What stands in A's page from this place on, and the byte that offends first.
const IN_A: [(usize, &[u8], u8); 17] = [
    (1, &[0x80], 1),
    (8, &[0x12], 8),
    (9, &[0x01], 9),
    (11, &[0x25], 11),
    (8, &[0x12, 0x01], 8),
    (9, &[0x01, 0x01, 0x00], 9),
    (48, &[0x17], 48),
    (49, &[TOO_MANY], 49),
    (49, &[0xFF], 49),
    (50, &[0x01], 50),
    (48, &[0x00, TOO_MANY], 48),
    (49, &[TOO_MANY, 0xFF], 49),
    (52, &[FIRST_LETTER - 1], 52),
    (53, &[LAST_LETTER + 1], 53),
    (54, &[0x00], 54),
    (52, &[FIRST_LETTER, 0x80, 0x80], 53),
    (50, &[0x01, 0x03, 0x1F], 50),
];

/// All headers of a page, and the byte that offends first.
const HEADERS: [(&[[u8; 4]], u8); 11] = [
    (&[], 10),
    (&[[0x03, 0, 0, 0]; MOST_TYPES + 1], 10),
    (&[[0x00, 0xFF, 0xFF, 0xFF]; MOST_TYPES + 2], 10),
    (&[[0x03, 0, 0, TOO_LONG]], 51),
    (&[[0x03, 0, 0, 0xFF], [0, 0, 0, 0]], 51),
    (&[FANS, [0x04, 0, 0, TOO_LONG]], 55),
    (&[[0x03, ALL, 0, 3], [0x04, 1, 0, 3]], 53),
    (&[[0x03, 1, 0, 0], [0x04, ALL - 1, 0, 9], FANS, FANS], 57),
    (
        &[[0x03, ALL - 1, 0, 0], [0x04, 2, 0, 0], [0x12, 200, 0, 0]],
        53,
    ),
    (
        &[[0x03, ALL - 1, 0, 0], [0x04, 1, 0, 0], [0x12, 200, 0, 0]],
        57,
    ),
    (&[[0x03, ALL, 1, 0], [0x04, 1, 0, 0]], 50),
];

fn configuration_pages(checks: &mut Checks) {
    let before = [BEFORE; CONFIGURATION_BYTES];
    let mut refused_at = |offset: u8, page: &[u8]| {
        let what = format!("configuration page {page:02X?}");
        let answer = read_configuration(page, &before);
        checks.equal(&what, answer, handed_back(6, offset, &before));
    };
    for (at, bytes, offset) in IN_A {
        let a = configuration_page(&[FANS]);
        refused_at(offset, &with(&a, at, bytes));
    }
    for (headers, offset) in HEADERS {
        refused_at(offset, &configuration_page(headers));
    }
    let fullest = [0x03, equal_share(MOST_TYPES) as u8, 0, MOST_TEXT as u8];
    let page = configuration_page(&[fullest; MOST_TYPES]);
    let answer = read_configuration(&page, &before);
    checks.equal("fullest configuration page", answer.number, 0);
    let last = page.len() - 1;
    let answer = read_configuration(&with(&page, last, &[LAST_LETTER + 1]), &before);
    checks.equal("its last letter", answer.offset(), last);
}

/// Of any page with offending bytes.
fn laws(checks: &mut Checks) {
    let mut rng = Rng::new(SEED);
    for offending in OFFENDING {
        for _ in 0..ROUNDS {
            let mut case = offending(&mut rng);
            let told = case.number_and_offset();
            nothing_behind_matters(checks, &mut rng, &mut case, told);
            another_byte_is_allowed(checks, &mut case, told);
        }
    }
}

/// With any byte behind the offset changed, the page is refused the same, if the tests before 6 still let it
/// pass. A length of two bytes is told at its first and offends with both.
fn nothing_behind_matters(checks: &mut Checks, rng: &mut Rng, case: &mut Case, told: (u8, usize)) {
    let offending_bytes = if is_wide(case, told.1) { 2 } else { 1 };
    for at in told.1 + offending_bytes..page_of(case).len() {
        let byte = page_of(case)[at];
        page_of(case)[at] ^= rng.nonzero_byte();
        let outcome = case.number_and_offset();
        if ![4, 12, 5].contains(&outcome.0) {
            checks.equal("a byte behind the first offending one", outcome, told);
        }
        page_of(case)[at] = byte;
    }
}

/// The byte that is told is one that could have been right.
fn another_byte_is_allowed(checks: &mut Checks, case: &mut Case, told: (u8, usize)) {
    let byte = page_of(case)[told.1];
    let allowed = (0..=0xFF).any(|other| {
        page_of(case)[told.1] = other;
        case.number_and_offset() != told
    });
    checks.equal("another byte is allowed there", allowed, true);
    page_of(case)[told.1] = byte;
}

/// The length of a descriptor starts at this byte.
fn is_wide(case: &Case, offset: usize) -> bool {
    if case.call.letter != READ_DESCRIPTORS.letter {
        return false;
    }
    let page = &case.inputs[1];
    let mut at = 8;
    while at + 2 < offset {
        at += 4 + 256 * usize::from(page[at + 2]) + usize::from(page[at + 3]);
    }
    at + 2 == offset
}

fn page_of(case: &mut Case) -> &mut Vec<u8> {
    case.inputs.last_mut().expect("a page")
}
