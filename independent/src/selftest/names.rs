//! The Element Descriptor page and the names of a shelf: examples worked out by hand from request Two, and laws
//! that follow from it.

use super::checks::Checks;
use super::examples::{block_a, handed_back, largest_shelf, with, BEFORE};
use crate::cases;
use crate::limits::{
    element_at, name_at, CONFIGURATION_BYTES, FIRST_LETTER, LAST_LETTER, LONGEST_BLOCK,
    LONGEST_DESCRIPTOR_PAGE, LONGEST_SAID, MOST_ELEMENTS, MOST_ENTRIES, MOST_NAME, NAMES_BYTES,
    NAME_BYTES, TYPES_AT,
};
use crate::names::{self, NO_LETTERS};
use crate::pages::calls::{
    apply_control, apply_thresholds, build_control, find_name, read_descriptors,
    rewrite_descriptors, set_name, set_overall_name, write_configuration, write_descriptors,
    write_status, write_thresholds, Answer,
};
use crate::pages::cases::descriptors::any_page;
use crate::pages::cases::{control, threshold_out};
use crate::record::{Configuration, Shelf};
use crate::rng::Rng;
use crate::shown::Place;
use std::iter::zip;

const SEED: u64 = 0x2A3E;
const ROUNDS: usize = 300;

pub fn check(checks: &mut Checks) {
    largest_page(checks);
    pages_of_a(checks);
    pages_refused(checks);
    first_offending_bytes(checks);
    texts_too_long(checks);
    records_refused(checks);
    names_found(checks);
    names_set(checks);
    names_not_set(checks);
    ends_of_names(checks);
    laws(checks);
    pages_by_places(checks);
}

/// As many names as a shelf may have, and as many letters in each.
fn largest_page(checks: &mut Checks) {
    let shelf = largest_shelf();
    let mut block = shelf.block();
    block[element_at(MOST_ELEMENTS)..].fill(LAST_LETTER);
    checks.equal("longest block", block.len(), LONGEST_BLOCK);
    let page = page_of(&block);
    checks.equal("longest page", page.len(), LONGEST_DESCRIPTOR_PAGE);
    let configuration = &block[..CONFIGURATION_BYTES];
    let answer = read_descriptors(configuration, &page, &[BEFORE; NAMES_BYTES]);
    let [upper, lower] = (MOST_ENTRIES as u16).to_be_bytes();
    let mut record = vec![LAST_LETTER; NAMES_BYTES];
    record[..4].copy_from_slice(&[0, 0, upper, lower]);
    checks.equal("every name read", answer.record(), &record[..]);
    let again = rewrite_descriptors(configuration, &record, &vec![BEFORE; page.len()]);
    checks.equal("every name written again", &again.bytes[5..], &page[..]);
}

/// A with names: its type is "Fans", the first fan "Fan rear left", the second has none and the third is "B".
/// Behind each end stands something that has no meaning.
fn named_a() -> Vec<u8> {
    let mut block = block_a();
    block = with(&block, 380, b"Fans\x1Frear");
    block = with(&block, 412, b"Fan rear left\x00left");
    block = with(&block, 444, b"\x7FA");
    with(&block, 476, b"B\xFF")
}

fn configuration_a() -> Vec<u8> {
    block_a()[..CONFIGURATION_BYTES].to_vec()
}

const HEADER: [u8; 8] = [0x07, 0x00, 0x00, 0x26, 0x00, 0x00, 0x00, 0x07];

/// The overall descriptor stands at 8, those of the fans at 16, 33 and 37.
fn page_a() -> Vec<u8> {
    let descriptors: [&[u8]; 4] = [
        b"\x00\x00\x00\x04Fans",
        b"\x00\x00\x00\x0DFan rear left",
        b"\x00\x00\x00\x00",
        b"\x00\x00\x00\x01B",
    ];
    [&HEADER[..], &descriptors.concat()].concat()
}

fn record_a() -> Vec<u8> {
    let mut record = vec![0; 4 + 4 * 32];
    record[3] = 4;
    record = with(&record, 4, b"Fans");
    record = with(&record, 36, b"Fan rear left");
    record = with(&record, 100, b"B");
    record.resize(NAMES_BYTES, BEFORE);
    record
}

fn written(page: &[u8], room: usize) -> Answer {
    let mut bytes = vec![0, 0, 0, 0, page.len() as u8];
    bytes.extend(page);
    bytes.resize(5 + room, BEFORE);
    Answer { number: 0, bytes }
}

fn not_written(number: u8, room: usize) -> Answer {
    let mut bytes = vec![number, 0, 0, 0, 0];
    bytes.resize(5 + room, BEFORE);
    Answer { number, bytes }
}

fn pages_of_a(checks: &mut Checks) {
    let nameless = [
        0x07, 0x00, 0x00, 0x14, 0x00, 0x00, 0x00, 0x07, 0, 0, 0, 0, 0, 0, 0, 0, 0, 0, 0, 0, 0, 0,
        0, 0,
    ];
    checks.equal(
        "A without names",
        write_descriptors(&block_a(), &[BEFORE; 30]),
        written(&nameless, 30),
    );
    let (block, configuration, page) = (named_a(), configuration_a(), page_a());
    checks.equal("length of the page", page.len(), 42);
    checks.equal(
        "A with names",
        write_descriptors(&block, &[BEFORE; 50]),
        written(&page, 50),
    );
    let read = read_descriptors(&configuration, &page, &[BEFORE; NAMES_BYTES]);
    checks.equal("names of A read", read, handed_back(0, 0, &record_a()));
    checks.equal(
        "names of A written again",
        rewrite_descriptors(&configuration, &record_a(), &[BEFORE; 42]),
        written(&page, 42),
    );
    let spare = with(&record_a(), 0, &[0xFF, 0xFF]);
    let answer = rewrite_descriptors(&configuration, &spare, &[BEFORE; 42]);
    checks.equal("bytes 0 and 1", answer, written(&page, 42));
    let at_41 = write_descriptors(&block, &[BEFORE; 41]);
    checks.equal("in 41 bytes", at_41, not_written(11, 41));
    let at_41 = rewrite_descriptors(&configuration, &record_a(), &[BEFORE; 41]);
    checks.equal("again in 41 bytes", at_41, not_written(11, 41));
    let cut = write_descriptors(&block[..507], &[]);
    checks.equal("A but for a byte", cut, not_written(1, 0));
    let without = write_descriptors(&block[..380], &[BEFORE; 42]);
    checks.equal("A without room for names", without, not_written(1, 42));
}

fn refused(number: u8, offset: u8) -> Answer {
    handed_back(number, offset, &[BEFORE; NAMES_BYTES])
}

/// Pages for A that say their own length.
fn saying(page: &[u8]) -> Vec<u8> {
    let length = (page.len() - 4) as u16;
    with(page, 2, &length.to_be_bytes())
}

fn pages_refused(checks: &mut Checks) {
    let (configuration, page) = (configuration_a(), page_a());
    let longer = [&page[..], &[0]].concat();
    let cases: [(&str, u8, Vec<u8>); 25] = [
        ("empty page", 2, Vec::new()),
        ("page of 3 bytes", 2, page[..3].to_vec()),
        ("3 bytes of another page", 2, vec![0x02, 0, 0]),
        ("another page", 3, with(&page, 0, &[0x02])),
        ("another page, longer", 3, with(&longer, 0, &[0x05])),
        ("41 bytes", 4, page[..41].to_vec()),
        ("43 bytes", 4, longer.clone()),
        ("42 bytes, 0027h", 4, with(&page, 3, &[0x27])),
        ("43 bytes and generation 8", 4, with(&longer, 7, &[8])),
        ("43 bytes and byte 1", 4, with(&longer, 1, &[1])),
        ("7 bytes", 4, page[..7].to_vec()),
        ("4 bytes, said so", 12, vec![0x07, 0, 0, 0]),
        ("7 bytes, said so", 12, saying(&page[..7])),
        ("8 bytes, said so", 12, saying(&page[..8])),
        ("11 bytes, said so", 12, saying(&page[..11])),
        ("12 bytes, said so", 12, saying(&page[..12])),
        ("41 bytes, said so", 12, saying(&page[..41])),
        ("43 bytes, said so", 12, saying(&longer)),
        ("a last letter more", 12, with(&page, 40, &[2])),
        ("a last letter less", 12, with(&page, 40, &[0])),
        ("65,535 letters", 12, with(&page, 10, &[0xFF, 0xFF])),
        (
            "length, generation and byte 1",
            12,
            with(&with(&saying(&longer), 1, &[1]), 7, &[8]),
        ),
        ("generation 8", 5, with(&page, 7, &[8])),
        ("generation 8, byte 8", 5, with(&page, 7, &[8, 1])),
        (
            "generation 8, byte 1",
            5,
            with(&with(&page, 7, &[8]), 1, &[1]),
        ),
    ];
    for (what, number, page) in cases {
        let answer = read_descriptors(&configuration, &page, &[BEFORE; NAMES_BYTES]);
        checks.equal(what, answer, refused(number, 0));
    }
    let broken = with(&configuration, TYPES_AT + 1, &[1]);
    for configuration in [&broken[..], &configuration[1..], &block_a()] {
        let answer = read_descriptors(configuration, &[], &[BEFORE; NAMES_BYTES]);
        checks.equal("broken configuration", answer, refused(1, 0));
    }
}

/// What stands in A's page from this place on, and the byte that offends first.
const IN_A: [(usize, &[u8], u8); 19] = [
    (1, &[0x01], 1),
    (1, &[0x80], 1),
    (8, &[0x01], 8),
    (9, &[0x01], 9),
    (8, &[0x01, 0x01], 8),
    (12, &[FIRST_LETTER - 1], 12),
    (15, &[LAST_LETTER + 1], 15),
    (12, &[FIRST_LETTER, LAST_LETTER, 0x00, 0xFF], 14),
    (16, &[0x80], 16),
    (17, &[0xFF], 17),
    (20, &[0x00], 20),
    (32, &[0x80], 32),
    (33, &[0x20], 33),
    (34, &[0x20], 34),
    (37, &[0x01, 0x01, 0x00, 0x01, 0x00], 37),
    (38, &[0x01, 0x00, 0x01, 0x00], 38),
    (41, &[0x0A], 41),
    (15, &[0x00, 0x01], 15),
    (32, &[0x00, 0x01, 0x01], 32),
];

fn first_offending_bytes(checks: &mut Checks) {
    let configuration = configuration_a();
    for (at, bytes, offset) in IN_A {
        let page = with(&page_a(), at, bytes);
        let answer = read_descriptors(&configuration, &page, &[BEFORE; NAMES_BYTES]);
        let what = format!("descriptor page {page:02X?}");
        checks.equal(&what, answer, refused(6, offset));
    }
    let both = with(&with(&page_a(), 41, &[0]), 1, &[2]);
    let answer = read_descriptors(&configuration, &both, &[BEFORE; NAMES_BYTES]);
    checks.equal("byte 1 and the last", answer, refused(6, 1));
}

/// The first fan of A gets a name of this length, all spaces; the rest of the page stays.
fn with_length(length: usize) -> Vec<u8> {
    let page = page_a();
    let mut longer = page[..18].to_vec();
    longer.extend((length as u16).to_be_bytes());
    longer.extend(vec![b' '; length]);
    longer.extend(&page[33..]);
    saying(&longer)
}

/// A text that fits the page, however long, is not 12; its length is told where it starts.
fn texts_too_long(checks: &mut Checks) {
    let configuration = configuration_a();
    let mut outcome_is = |number: u8, offset: u8, page: &[u8]| {
        let answer = read_descriptors(&configuration, page, &[BEFORE; NAMES_BYTES]);
        let what = format!("descriptor page of {} bytes", page.len());
        let (answer, told) = ((answer.number, answer.offset()), (number, offset.into()));
        checks.equal(&what, answer, told);
    };
    let longest = LONGEST_SAID - (42 - 13);
    for length in [0, 1, MOST_NAME - 1, MOST_NAME] {
        outcome_is(0, 0, &with_length(length));
    }
    for length in [
        MOST_NAME + 1,
        255,
        256,
        257,
        256 + MOST_NAME,
        512,
        0xFF00,
        longest,
    ] {
        let page = with_length(length);
        outcome_is(6, 18, &page);
        let unprintable = with(&page, 20, &[0x00]);
        outcome_is(6, 18, &unprintable);
        outcome_is(6, 17, &with(&unprintable, 17, &[1]));
        outcome_is(6, 12, &with(&unprintable, 12, &[FIRST_LETTER - 1]));
        outcome_is(5, 0, &with(&unprintable, 4, &[1]));
        outcome_is(12, 0, &with(&unprintable, 19, &[page[19] ^ 0x80]));
        outcome_is(4, 0, &page[..page.len() - 1]);
    }
}

fn records_refused(checks: &mut Checks) {
    let (configuration, record) = (configuration_a(), record_a());
    let mut outcome_is = |number: u8, record: &[u8]| {
        let answer = rewrite_descriptors(&configuration, record, &[BEFORE; 70]);
        let what = format!("record of names {:02X?}", &record[..132]);
        checks.equal(&what, answer.number, number);
    };
    for entries in [[0, 3], [0, 5], [0, 0], [1, 4], [0xFF, 0xFF]] {
        let other = with(&record, 2, &entries);
        outcome_is(9, &other);
        outcome_is(9, &with(&other, 4, &[0x01]));
    }
    let allowed: [(usize, &[u8]); 5] = [
        (4, &[0, 0, 0, 0]),
        (7, &[0]),
        (36, &[LAST_LETTER; MOST_NAME]),
        (68, b" "),
        (132, &[0x80]),
    ];
    for (at, bytes) in allowed {
        outcome_is(0, &with(&record, at, bytes));
    }
    let not_allowed: [(usize, &[u8]); 9] = [
        (4, &[0x00]),
        (6, &[0x00]),
        (8, &[FIRST_LETTER - 1]),
        (9, b"s"),
        (35, &[0x01]),
        (36, &[LAST_LETTER + 1]),
        (67, b" "),
        (68, &[0x80]),
        (131, &[0xFF]),
    ];
    for (at, bytes) in not_allowed {
        outcome_is(6, &with(&record, at, bytes));
    }
    let short = rewrite_descriptors(&configuration, &with(&record, 131, &[1]), &[BEFORE; 41]);
    checks.equal("6 and 11", short, not_written(6, 41));
    let broken = rewrite_descriptors(&block_a(), &with(&record, 3, &[5]), &[BEFORE; 41]);
    checks.equal("1, 9 and 11", broken, not_written(1, 41));
}

fn found(number: u8, element: u32) -> Answer {
    let bytes = [&[number][..], &element.to_be_bytes()].concat();
    Answer { number, bytes }
}

fn names_found(checks: &mut Checks) {
    const NONE: u32 = 0xFFFF_FFFF;
    let block = named_a();
    let looked_for: [(&[u8], u32); 18] = [
        (b"Fan rear left", 0),
        (b"", 1),
        (b"B", 2),
        (b"Fans", NONE),
        (b"Fan", NONE),
        (b"Fan rear lef", NONE),
        (b"Fan rear left ", NONE),
        (b"Fan rear left\x00", NONE),
        (b"Fan rear left\x00left", NONE),
        (b"fan rear left", NONE),
        (b"b", NONE),
        (b"C", NONE),
        (b"B\xFF", NONE),
        (b"\x7F", NONE),
        (b"\x00", NONE),
        (&block[476..508], NONE),
        (&[b' '; MOST_NAME + 1], NONE),
        (&[0x00; 256], NONE),
    ];
    for (text, element) in looked_for {
        let what = format!("name {text:02X?}");
        checks.equal(&what, find_name(&block, text), found(0, element));
    }
    let alike = with(&block, 444, b"Fan rear left\xFF");
    let answer = find_name(&alike, b"Fan rear left");
    checks.equal("the first of two", answer, found(0, 0));
    checks.equal("no empty name", find_name(&alike, b""), found(0, NONE));
    let full = with(&block, 476, &[b'x'; MOST_NAME]);
    let answer = find_name(&full, &[b'x'; MOST_NAME]);
    checks.equal("a full name", answer, found(0, 2));
    for longer in [MOST_NAME + 1, 2 * MOST_NAME, 256 + MOST_NAME] {
        let answer = find_name(&full, &vec![b'x'; longer]);
        checks.equal("more than a full name", answer, found(0, NONE));
    }
    let broken = with(&block, TYPES_AT + 1, &[1]);
    checks.equal("broken shelf", find_name(&broken, b"B"), found(1, NONE));
}

fn set_to(number: u8, block: &[u8]) -> Answer {
    let bytes = [&[number], block].concat();
    Answer { number, bytes }
}

fn names_set(checks: &mut Checks) {
    let block = named_a();
    let mut right = [0; NAME_BYTES];
    right[..14].copy_from_slice(b"Fan rear right");
    let full = [LAST_LETTER; NAME_BYTES];
    let set: [(u32, &[u8], usize, &[u8; NAME_BYTES]); 5] = [
        (0, b"Fan rear right", 412, &right),
        (1, b"Fan rear right", 444, &right),
        (2, &[LAST_LETTER; MOST_NAME], 476, &full),
        (0, b"", 412, &[0; NAME_BYTES]),
        (2, b"", 476, &[0; NAME_BYTES]),
    ];
    for (element, text, at, name) in set {
        let after = with(&block, at, name);
        let what = format!("name of fan {element}, {text:02X?}");
        checks.equal(&what, set_name(&block, element, text), set_to(0, &after));
    }
    let after = with(&block, 380, &right);
    let answer = set_overall_name(&block, 0, b"Fan rear right");
    checks.equal("name of the type", answer, set_to(0, &after));
}

fn names_not_set(checks: &mut Checks) {
    let block = named_a();
    let calls: [(fn(&[u8], u32, &[u8]) -> Answer, u32); 2] = [(set_name, 3), (set_overall_name, 1)];
    for (call, number) in calls {
        let mut refused = |what: &str, refusal: u8, number: u32, text: &[u8]| {
            let answer = call(&block, number, text);
            checks.equal(what, answer, set_to(refusal, &block));
        };
        refused("the last and one", 15, number, b"");
        refused("and 256", 15, number + 255, b"");
        refused("and 65,536", 15, number + 65_535, b"");
        refused("the largest number", 15, u32::MAX, b"");
        refused("15 and 6", 15, number, &[b' '; MOST_NAME + 1]);
        refused("a letter too many", 6, number - 1, &[b' '; MOST_NAME + 1]);
        refused("256 too many", 6, 0, &[b' '; MOST_NAME + 256]);
        for byte in NO_LETTERS {
            refused("no letter", 6, 0, &[byte]);
            refused("no letter at first", 6, 0, &[byte, b'a']);
            let at_last = with(&[b'a'; MOST_NAME], MOST_NAME - 1, &[byte]);
            refused("no letter at last", 6, 0, &at_last);
        }
        let broken = with(&block, TYPES_AT + 1, &[1]);
        let answer = call(&broken, u32::MAX, &[0; 40]);
        checks.equal("1, 15 and 6", answer, set_to(1, &broken));
    }
}

/// A name ends at each byte that is not 20h to 7Eh, whatever is behind it.
fn ends_of_names(checks: &mut Checks) {
    for byte in 0..=0xFF {
        let block = with(&block_a(), 412, &[b'A', byte, b'B']);
        let length = if (FIRST_LETTER..=LAST_LETTER).contains(&byte) {
            3
        } else {
            1
        };
        let page = write_descriptors(&block, &[BEFORE; 27]);
        checks.equal("letters of a name", page.written(), 24 + length);
        let name = &block[412..412 + length];
        checks.equal("found by them", find_name(&block, name), found(0, 0));
    }
}

fn laws(checks: &mut Checks) {
    let mut rng = Rng::new(SEED);
    for _ in 0..ROUNDS {
        let shelf = cases::shelf(&mut rng);
        read_and_written_again(checks, &shelf);
        found_on_the_page(checks, &mut rng, &shelf);
        set_and_found(checks, &mut rng, &shelf);
        without_names(checks, &mut rng, &shelf);
    }
}

fn page_of(block: &[u8]) -> Vec<u8> {
    let answer = write_descriptors(block, &[0; LONGEST_DESCRIPTOR_PAGE]);
    answer.bytes[5..][..answer.written()].to_vec()
}

/// The names that a reader takes from the page, zeros behind each.
fn names_read(shelf: &Shelf, page: &[u8]) -> Vec<Vec<u8>> {
    let configuration = shelf.configuration().block();
    let answer = read_descriptors(&configuration, page, &[BEFORE; NAMES_BYTES]);
    let names = answer.record()[4..].chunks(NAME_BYTES);
    let names = names.take(answer.record()[3].into());
    names.map(<[u8]>::to_vec).collect()
}

/// A reader hands back the letters of each name, and they are written again as the same page.
fn read_and_written_again(checks: &mut Checks, shelf: &Shelf) {
    let block = shelf.block();
    let page = page_of(&block);
    let names = names_read(shelf, &page);
    let places = shelf.configuration().places().len();
    checks.equal("names read", names.len(), places);
    let in_block = block[block.len() - NAME_BYTES * places..].chunks(NAME_BYTES);
    for (name, kept) in zip(&names, in_block) {
        let end = (0..NAME_BYTES).find(|at| !(FIRST_LETTER..=LAST_LETTER).contains(&kept[*at]));
        let end = end.unwrap_or(NAME_BYTES);
        let expected = [&kept[..end], &vec![0; NAME_BYTES - end]].concat();
        checks.equal("letters, and zeros behind them", name, &expected);
    }
    let configuration = shelf.configuration().block();
    let record = read_descriptors(&configuration, &page, &[BEFORE; NAMES_BYTES]);
    let again = rewrite_descriptors(&configuration, record.record(), &vec![0; page.len()]);
    checks.equal("written again", &again.bytes[5..], &page[..]);
}

/// The element found is the first on the page that has the name.
fn found_on_the_page(checks: &mut Checks, rng: &mut Rng, shelf: &Shelf) {
    let names = names_read(shelf, &page_of(&shelf.block()));
    let individual = zip(shelf.configuration().places(), names);
    let individual = individual.filter(|(place, _)| *place != Place::Overall);
    let individual: Vec<Vec<u8>> = individual.map(|(_, name)| name).collect();
    let mut texts = individual.clone();
    texts.extend([names::text(rng), Vec::new()]);
    for text in texts {
        let letters = text.iter().filter(|byte| **byte != 0).count();
        let text = &text[..letters];
        let padded = [text, &vec![0; NAME_BYTES - letters]].concat();
        let first = individual.iter().position(|name| *name == padded);
        let answer = find_name(&shelf.block(), text);
        checks.equal("the first on the page", answer.found(), first);
    }
}

/// What is set is found there or before, and nothing but its bytes changes.
fn set_and_found(checks: &mut Checks, rng: &mut Rng, shelf: &Shelf) {
    let block = shelf.block();
    let elements = shelf.elements().count();
    let text = names::text(rng);
    let mut behind_types = 0;
    let mut element = 0;
    for (of_type, group) in zip(0_usize.., &shelf.groups) {
        let overall = name_at(elements, element + of_type);
        let answer = set_overall_name(&block, of_type as u32, &text);
        let mut expected = block.clone();
        expected[overall..overall + NAME_BYTES].fill(0);
        expected[overall..overall + text.len()].copy_from_slice(&text);
        checks.equal("overall name set", answer.shelf(), &expected[..]);
        behind_types += 1;
        for _ in &group.elements {
            let at = name_at(elements, element + behind_types);
            let answer = set_name(&block, element as u32, &text);
            let after = answer.shelf();
            checks.equal("in front of the name", &after[..at], &block[..at]);
            let (front, rest) = (&after[at..][..text.len()], &after[at..][text.len()..]);
            checks.equal("the name", front, &text[..]);
            let zeros = NAME_BYTES - text.len();
            checks.equal("zeros behind it", &rest[..zeros], &vec![0; zeros][..]);
            let behind = &block[at + NAME_BYTES..];
            checks.equal("behind the name", &rest[zeros..], behind);
            let first = find_name(after, &text).found();
            let before = find_name(&block, &text).found();
            let expected = before.map_or(element, |before| before.min(element));
            checks.equal("found", first, Some(expected));
            checks.equal(
                "set again",
                &set_name(after, element as u32, &text),
                &answer,
            );
            element += 1;
        }
    }
}

/// No other call looks at a name, or changes one.
fn without_names(checks: &mut Checks, rng: &mut Rng, shelf: &Shelf) {
    let block = shelf.block();
    let names_at = element_at(shelf.elements().count());
    let other = [&block[..names_at], &rng.bytes(block.len() - names_at)].concat();
    let room = [BEFORE; 400];
    for call in [write_configuration, write_status, write_thresholds] {
        checks.equal("a page", call(&block, &room), call(&other, &room));
    }
    let page = control::accepted_page(rng, shelf);
    let wish = apply_control(&block, &page).record().to_vec();
    let wish = wish[element_at(0)..names_at].chunks(16);
    let wish: Vec<u8> = wish.flat_map(|element| element[..4].to_vec()).collect();
    let built = build_control(&block, &wish, &room);
    checks.equal("built", built, build_control(&other, &wish, &room));
    let calls: [(fn(&[u8], &[u8]) -> Answer, Vec<u8>); 2] = [
        (apply_control, page),
        (apply_thresholds, threshold_out::accepted_page(rng, shelf)),
    ];
    for (call, page) in calls {
        let (answer, others) = (call(&block, &page), call(&other, &page));
        let (front, names) = answer.record().split_at(names_at);
        let (others_front, others_names) = others.record().split_at(names_at);
        checks.equal("elements", front, others_front);
        checks.equal("names kept", names, &block[names_at..]);
        checks.equal("other names kept", others_names, &other[names_at..]);
    }
}

/// The answer by the places of the descriptors alone, each found from the one before.
fn by_places(configuration: &Configuration, page: &[u8]) -> (u8, usize) {
    let said = 4 + 256 * usize::from(page[2]) + usize::from(page[3]);
    let byte = |at: usize| page.get(at).copied().map_or(0, usize::from);
    let mut places = vec![8];
    for _ in configuration.places() {
        let place = places[places.len() - 1];
        places.push(place + 4 + 256 * byte(place + 2) + byte(place + 3));
    }
    if page[0] != 0x07 {
        return (3, 0);
    }
    if said != page.len() {
        return (4, 0);
    }
    if places.last() != Some(&page.len()) {
        return (12, 0);
    }
    if page[4..8] != configuration.generation.to_be_bytes() {
        return (5, 0);
    }
    let offends = |at: &usize| match places.iter().filter(|place| **place <= *at).max() {
        None => *at == 1 && page[1] != 0,
        Some(place) => match at - place {
            0 | 1 => page[*at] != 0,
            2 => 256 * byte(*at) + byte(at + 1) > MOST_NAME,
            3 => false,
            _ => page[*at] < FIRST_LETTER || page[*at] > LAST_LETTER,
        },
    };
    match (0..page.len()).find(offends) {
        Some(at) => (6, at),
        None => (0, 0),
    }
}

fn pages_by_places(checks: &mut Checks) {
    let mut rng = Rng::new(SEED);
    for _ in 0..20 * ROUNDS {
        let case = any_page(&mut rng);
        let configuration = Configuration::read(&case.inputs[0]).expect("a well-formed one");
        let expected = by_places(&configuration, &case.inputs[1]);
        checks.equal("by places", case.number_and_offset(), expected);
    }
}
