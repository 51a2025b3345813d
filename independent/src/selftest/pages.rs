//! The paper's numbers for whole pages.

use super::checks::Checks;
use super::examples::{
    block_a, current, fan, fan_at, fan_like, fans_a, group, handed_back, high_critical,
    high_warning, low_critical, plain, set_to, shelf_a, shelf_a_of, stopped, temperature, voltage,
    with, ALL_FLAGS, BEFORE, FAIL, SWAP,
};
use crate::limits::{
    CONFIGURATION_BYTES, FASTEST, HIGHEST_CODE, HIGHEST_SPEED, STATUS_BYTES, STATUS_ENTRY_BYTES,
    THRESHOLDS_BYTES, TYPES_AT,
};
use crate::pages::calls::{
    read_configuration, read_status, read_thresholds, rewrite_configuration, rewrite_status,
    rewrite_thresholds, write_configuration, write_status, write_thresholds, Answer,
};
use crate::record::{Element, Kind, Settings, Thresholds};

const STATUS_A: [u8; 24] = [
    0x02, 0x00, 0x00, 0x14, 0x00, 0x00, 0x00, 0x07, 0x01, 0x00, 0x00, 0x00, 0x01, 0x00, 0x78, 0x23,
    0x01, 0x00, 0x78, 0x23, 0x01, 0x00, 0x78, 0x23,
];

/// Of a status page with two elements, the overall one and another.
const HEADER_OF_TWO: [u8; 8] = [0x02, 0x00, 0x00, 0x0C, 0x00, 0x00, 0x00, 0x07];

const THRESHOLDS_A: [u8; 24] = [
    0x05, 0x00, 0x00, 0x14, 0x00, 0x00, 0x00, 0x07, 0, 0, 0, 0, 0, 0, 0, 0, 0, 0, 0, 0, 0, 0, 0, 0,
];

pub fn check(checks: &mut Checks) {
    pages_of_a(checks);
    output_lengths(checks);
    configurations_read(checks);
    status_headers(checks);
    status_fields(checks);
    statuses_handed_back(checks);
    fields_handed_back(checks);
    speed_codes_as_shown(checks);
    fails_as_shown(checks);
    statuses_rewritten(checks);
    fields_rewritten(checks);
    worst_codes(checks);
    thresholds_read(checks);
    thresholds_rewritten(checks);
}

/// Bytes 0 to 54 as the paper lays them out; A's identification is zeros here.
fn configuration_a() -> Vec<u8> {
    let mut page = vec![0x01, 0x00, 0x00, 0x33, 0x00, 0x00, 0x00, 0x07];
    page.extend([0x11, 0x00, 0x01, 0x24]);
    page.extend([0; 36]);
    page.extend([0x03, 0x03, 0x00, 0x03, b'F', b'a', b'n']);
    page
}

fn configuration_block_a() -> Vec<u8> {
    block_a()[..CONFIGURATION_BYTES].to_vec()
}

fn written(page: &[u8], room: usize) -> Answer {
    let mut bytes = vec![0, 0, 0, 0, page.len() as u8];
    bytes.extend(page);
    bytes.resize(5 + room, BEFORE);
    Answer { number: 0, bytes }
}

fn not_written(number: u8, room: usize) -> Answer {
    let mut bytes = vec![number, 0, 0, 0, 0];
    bytes.resize(5 + room, BEFORE);
    Answer { number, bytes }
}

fn not_read(number: u8, record: usize) -> Answer {
    handed_back(number, 0, &vec![BEFORE; record])
}

fn pages_of_a(checks: &mut Checks) {
    let (block, configuration) = (block_a(), configuration_block_a());
    checks.equal("page length of A", configuration_a().len(), 55);
    checks.equal(
        "configuration of A",
        write_configuration(&block, &[BEFORE; 60]),
        written(&configuration_a(), 60),
    );
    checks.equal(
        "configuration of A, again",
        rewrite_configuration(&configuration, &[BEFORE; 60]),
        written(&configuration_a(), 60),
    );
    checks.equal(
        "status of A",
        write_status(&block, &[BEFORE; 30]),
        written(&STATUS_A, 30),
    );
    checks.equal(
        "thresholds of A",
        write_thresholds(&block, &[BEFORE; 30]),
        written(&THRESHOLDS_A, 30),
    );
    let standing = shelf_a(vec![fan_at(0), fan(3), fan(3)]).block();
    let mut page = STATUS_A;
    page[1] = 0x02;
    page[8] = 0x02;
    page[12..16].copy_from_slice(&[0x02, 0x00, 0x00, 0x23]);
    checks.equal(
        "ON, reading 0, whole",
        write_status(&standing, &[BEFORE; 24]),
        written(&page, 24),
    );
    for speed in 1..=HIGHEST_SPEED {
        let one_stopped = shelf_a(vec![fan(3), stopped(fan(speed)), fan(3)]).block();
        checks.equal(
            "middle fan stopped, whole",
            write_status(&one_stopped, &[BEFORE; 24]),
            written(&with(&STATUS_A, 16, &[0x01, 0x00, 0x78, 0x10]), 24),
        );
    }
}

fn output_lengths(checks: &mut Checks) {
    let block = block_a();
    let at_23 = write_status(&block, &[BEFORE; 23]);
    checks.equal("status of A in 23 bytes", at_23, not_written(11, 23));
    let at_24 = write_status(&block, &[BEFORE; 24]);
    checks.equal("status of A in 24 bytes", at_24, written(&STATUS_A, 24));
    let at_54 = write_configuration(&block, &[BEFORE; 54]);
    checks.equal("configuration in 54", at_54, not_written(11, 54));
    let at_23 = write_thresholds(&block, &[BEFORE; 23]);
    checks.equal("thresholds in 23", at_23, not_written(11, 23));
    let broken = write_status(&block[1..], &[]);
    checks.equal("broken shelf, no output", broken, not_written(1, 0));
    let broken = rewrite_configuration(&block, &[BEFORE; 9]);
    checks.equal("whole block, short output", broken, not_written(1, 9));
}

fn configurations_read(checks: &mut Checks) {
    let page = configuration_a();
    checks.equal(
        "configuration of A read",
        read_configuration(&page, &[BEFORE; CONFIGURATION_BYTES]),
        handed_back(0, 0, &configuration_block_a()),
    );
    for (what, number, page) in flawed_configurations(&page) {
        let answer = read_configuration(&page, &[BEFORE; CONFIGURATION_BYTES]);
        checks.equal(what, answer, not_read(number, CONFIGURATION_BYTES));
    }
}

/// Pages of A, spoiled, with the number of the refusal.
fn flawed_configurations(page: &[u8]) -> [(&'static str, u8, Vec<u8>); 22] {
    [
        ("empty page", 2, Vec::new()),
        ("page of 3 bytes", 2, page[..3].to_vec()),
        ("3 bytes of another page", 2, vec![0x02, 0x00, 0x00]),
        ("other page code", 3, with(page, 0, &[0x02])),
        (
            "other page code and length",
            3,
            with(page, 0, &[0x02, 0, 0, 0]),
        ),
        ("54 bytes", 4, page[..54].to_vec()),
        ("56 bytes", 4, [page, b" "].concat()),
        ("55 bytes, 0032h", 4, with(page, 3, &[0x32])),
        ("55 bytes, 0133h", 4, with(page, 2, &[0x01])),
        ("47 bytes", 4, page[..47].to_vec()),
        ("48 bytes", 4, page[..48].to_vec()),
        ("51 bytes", 4, page[..51].to_vec()),
        ("length and byte 1", 4, with(page, 1, &[0x01, 0x00, 0x34])),
        ("4 bytes, said so", 12, vec![0x01, 0x00, 0x00, 0x00]),
        ("47 bytes, said so", 12, with(&page[..47], 2, &[0x00, 0x2B])),
        ("48 bytes, said so", 12, with(&page[..48], 2, &[0x00, 0x2C])),
        ("51 bytes, said so", 12, with(&page[..51], 2, &[0x00, 0x2F])),
        ("54 bytes, said so", 12, with(&page[..54], 2, &[0x00, 0x32])),
        ("a text of 4 letters", 12, with(page, 51, &[0x04])),
        ("a text of 2 letters", 12, with(page, 51, &[0x02])),
        ("255 types", 12, with(page, 10, &[0xFF])),
        (
            "255 types and byte 1",
            12,
            with(&with(page, 10, &[0xFF]), 1, &[0x01]),
        ),
    ]
}

fn status_headers(checks: &mut Checks) {
    let configuration = configuration_block_a();
    let longer = [&STATUS_A[..], &[0]].concat();
    let one_fan_more = with(&[&STATUS_A[..], &[0; 4]].concat(), 2, &[0x00, 0x18]);
    let cases: [(&str, u8, Vec<u8>); 13] = [
        ("page of 3 bytes", 2, STATUS_A[..3].to_vec()),
        ("threshold page as status", 3, THRESHOLDS_A.to_vec()),
        ("23 bytes", 4, STATUS_A[..23].to_vec()),
        ("25 bytes", 4, longer.clone()),
        ("24 bytes, 0018h", 4, with(&STATUS_A, 3, &[0x18])),
        (
            "23 bytes, said so",
            12,
            with(&STATUS_A[..23], 2, &[0x00, 0x13]),
        ),
        ("no generation code", 12, vec![0x02, 0x00, 0x00, 0x00]),
        ("four fans", 12, one_fan_more.clone()),
        ("four fans and generation", 12, with(&one_fan_more, 7, &[8])),
        ("four fans and byte 1", 12, with(&one_fan_more, 1, &[1])),
        ("generation 8", 5, with(&STATUS_A, 7, &[8])),
        ("length and generation", 4, with(&longer, 7, &[8])),
        (
            "generation and byte 1",
            5,
            with(&with(&STATUS_A, 7, &[8]), 1, &[1]),
        ),
    ];
    for (what, number, page) in cases {
        let answer = read_status(&configuration, &page, &[BEFORE; STATUS_BYTES]);
        checks.equal(what, answer, not_read(number, STATUS_BYTES));
    }
    let broken = with(&configuration, TYPES_AT + 1, &[1]);
    for configuration in [
        &broken[..],
        &configuration[..CONFIGURATION_BYTES - 1],
        &block_a(),
    ] {
        let answer = read_status(configuration, &[], &[BEFORE; STATUS_BYTES]);
        checks.equal("broken configuration", answer, not_read(1, STATUS_BYTES));
    }
}

/// Which bits of a status page are allowed, all others zero: in page byte 1, an overall element and one
/// element of each type. A single bit of a code, 8 at most, is always a code.
fn status_fields(checks: &mut Checks) {
    let named: [(Kind, u32); 4] = [
        (Kind::Cooling, 0x7F87_FF77),
        (Kind::Temperature, 0x7FC0_FF0F),
        (Kind::Voltage, 0x7FCF_FFFF),
        (Kind::Current, 0x7FCA_FFFF),
    ];
    for (kind, individual) in named {
        let shelf = shelf_a_of(kind, vec![plain(kind)]);
        let configuration = shelf.configuration().block();
        let page = |element: u32, overall: u32| {
            let elements = [overall.to_be_bytes(), element.to_be_bytes()].concat();
            [&HEADER_OF_TWO[..], &elements].concat()
        };
        let outcome = |page: &[u8]| {
            let answer = read_status(&configuration, page, &[0; STATUS_BYTES]);
            (answer.number, answer.offset())
        };
        for place in 0..32 {
            let bit = 1_u32 << place;
            let what = format!("{kind:?}, bit {place}");
            let byte = 3 - place / 8;
            let allowed = |named: u32, element: usize| match named & bit {
                0 => (6, element + byte),
                _ => (0, 0),
            };
            checks.equal(&what, outcome(&page(bit, 0)), allowed(individual, 12));
            checks.equal(&what, outcome(&page(0, bit)), allowed(0x0F00_0000, 8));
        }
        let [highest, higher] = [HIGHEST_CODE, HIGHEST_CODE + 1].map(|code| u32::from(code) << 24);
        checks.equal("code too high", outcome(&page(higher, 0)), (6, 12));
        checks.equal("overall code too high", outcome(&page(0, higher)), (6, 8));
        checks.equal("highest code", outcome(&page(highest, highest)), (0, 0));
        for byte1 in 0..=0xFF {
            let allowed = [0, 2, 4, 6].contains(&byte1);
            let expected = if allowed { (0, 0) } else { (6, 1) };
            let page = with(&page(0, 0), 1, &[byte1]);
            checks.equal("page byte 1", outcome(&page), expected);
        }
    }
}

const OVERALL_OK: [u8; STATUS_ENTRY_BYTES] = [1, 0, 0, 0, 0, 0, 0, 0, 0, 0, 0, 0, 0, 0, 0, 0];
const FAN_OF_A: [u8; STATUS_ENTRY_BYTES] = [1, 0, 0, 0, 0, 0, 120, 0, 1, 0, 3, 0, 0, 0, 0, 0];

fn record_a() -> Vec<u8> {
    let mut record = vec![0, 0, 0, 4];
    record.extend(OVERALL_OK);
    for _ in fans_a() {
        record.extend(FAN_OF_A);
    }
    record.resize(STATUS_BYTES, BEFORE);
    record
}

/// Elements of each type, with all flags that they can show at once, and their entries.
fn entries_of_elements() -> [(Element, [u8; STATUS_ENTRY_BYTES]); 11] {
    let fast = fan_like(ALL_FLAGS, 7, 2047);
    let slow = fan_like(SWAP, 1, 258);
    let cold = temperature(9, Thresholds::from_bytes([8, 8, 10, 10]));
    let negative = voltage(-1, 1200, Thresholds::from_bytes([0, 0, 20, 20]));
    let high = voltage(1321, 1200, Thresholds::from_bytes([20, 0, 0, 0]));
    let above = current(1321, 1200, Thresholds::from_bytes([20, 20, 0, 0]));
    let failed = set_to(FAIL, temperature(64, Thresholds::default()));
    let silent = temperature(0, Thresholds::default());
    [
        (fast, [1, 1, 1, 1, 1, 7, 255, 1, 1, 0, 7, 0, 0, 0, 0, 0]),
        (
            stopped(fast),
            [1, 1, 1, 1, 1, 7, 255, 1, 0, 1, 0, 0, 0, 0, 0, 0],
        ),
        (slow, [1, 0, 0, 1, 0, 1, 2, 0, 1, 0, 1, 0, 0, 0, 0, 0]),
        (fan_at(0), [2, 0, 0, 0, 0, 0, 0, 0, 1, 0, 3, 0, 0, 0, 0, 0]),
        (cold, [2, 0, 0, 0, 0, 1, 9, 1, 1, 1, 1, 0, 0, 0, 0, 0]),
        (failed, [1, 0, 0, 0, 0, 1, 64, 0, 0, 0, 0, 0, 0, 0, 0, 0]),
        (silent, [6, 0, 0, 0, 0, 0, 0, 0, 0, 0, 0, 0, 0, 0, 0, 0]),
        (
            set_to(FAIL, silent),
            [6, 0, 0, 0, 0, 1, 0, 0, 0, 0, 0, 0, 0, 0, 0, 0],
        ),
        (
            negative,
            [2, 0, 0, 0, 0, 1, 0, 1, 0, 1, 255, 255, 0, 0, 0, 0],
        ),
        (high, [2, 0, 0, 0, 0, 1, 0, 0, 1, 0, 5, 41, 0, 0, 0, 0]),
        (above, [2, 0, 0, 0, 0, 1, 1, 1, 5, 41, 0, 0, 0, 0, 0, 0]),
    ]
}

fn statuses_handed_back(checks: &mut Checks) {
    checks.equal(
        "status of A read",
        read_status(&configuration_block_a(), &STATUS_A, &[BEFORE; STATUS_BYTES]),
        handed_back(0, 0, &record_a()),
    );
    for (element, entry) in entries_of_elements() {
        let shelf = shelf_a_of(element.kind(), vec![element]);
        let page = write_status(&shelf.block(), &[0; 16]).bytes[5..].to_vec();
        let configuration = shelf.configuration().block();
        let answer = read_status(&configuration, &page, &[BEFORE; STATUS_BYTES]);
        checks.equal("entry handed back", &answer.record()[20..36], &entry[..]);
        let again = rewrite_status(&configuration, answer.record(), &[BEFORE; 16]);
        checks.equal("entry written again", again, written(&page, 16));
    }
}

fn statuses_rewritten(checks: &mut Checks) {
    let configuration = configuration_block_a();
    let number = |record: &[u8], room: usize| {
        rewrite_status(&configuration, record, &vec![BEFORE; room]).number
    };
    let record = record_a();
    checks.equal(
        "status of A, again",
        rewrite_status(&configuration, &record, &[BEFORE; 30]),
        written(&STATUS_A, 30),
    );
    let behind = with(&record, 4 + 4 * STATUS_ENTRY_BYTES, &[0xFF]);
    checks.equal("behind the last entry", number(&behind, 24), 0);
    let unshown = with(&record, 4 + 4 * STATUS_ENTRY_BYTES - 1, &[0xFF]);
    checks.equal("last byte of the last entry", number(&unshown, 24), 6);
    checks.equal("the same, short", number(&unshown, 0), 6);
    let five = with(&record, 3, &[5]);
    checks.equal("five entries", number(&five, 24), 9);
    checks.equal("five entries, CRIT 2", number(&with(&five, 1, &[2]), 0), 9);
    checks.equal("CRIT 2, short", number(&with(&record, 1, &[2]), 0), 6);
    checks.equal("short", number(&record, 23), 11);
    let broken = rewrite_status(&configuration[1..], &five, &[BEFORE; 3]);
    checks.equal("broken configuration", broken, not_written(1, 3));
}

/// The lowest bit of each field of an element, byte 0 highest, in the order of its entry.
const LOWEST_BITS: [(Kind, &[u32]); 4] = [
    (Kind::Cooling, &[24, 30, 29, 28, 23, 16, 8, 6, 5, 4, 0]),
    (Kind::Temperature, &[24, 30, 29, 28, 23, 22, 8, 3, 2, 1, 0]),
    (
        Kind::Voltage,
        &[24, 30, 29, 28, 23, 22, 19, 18, 17, 16, 8, 0],
    ),
    (Kind::Current, &[24, 30, 29, 28, 23, 22, 19, 17, 8, 0]),
];

/// Each field is 1 while the others are 0.
fn fields_handed_back(checks: &mut Checks) {
    for (kind, bits) in LOWEST_BITS {
        let shelf = shelf_a_of(kind, vec![plain(kind)]);
        let configuration = shelf.configuration().block();
        for (at, bit) in bits.iter().enumerate() {
            let element = (1_u32 << bit).to_be_bytes();
            let page = [&HEADER_OF_TWO[..], &[0; 4], &element].concat();
            let answer = read_status(&configuration, &page, &[BEFORE; STATUS_BYTES]);
            let entry = with(&[0; STATUS_ENTRY_BYTES], at, &[1]);
            let what = format!("{kind:?}, field {at} is 1");
            checks.equal(&what, &answer.record()[20..36], &entry[..]);
            let again = rewrite_status(&configuration, answer.record(), &[BEFORE; 16]);
            checks.equal(&what, again, written(&page, 16));
        }
    }
}

/// RQSTED ON, OFF and the speed code of a fan in every combination, those that no shelf shows among them.
fn speed_codes_as_shown(checks: &mut Checks) {
    let configuration = shelf_a(vec![fan(3)]).configuration().block();
    for flags in 0..4 {
        let (on, off) = (flags / 2, flags % 2);
        for code in 0..=HIGHEST_SPEED {
            let elements = [[1, 0, 0, 0], [1, 0, 120, 0x20 * on + 0x10 * off + code]];
            let page = [&HEADER_OF_TWO[..], &elements.concat()].concat();
            let entry = [1, 0, 0, 0, 0, 0, 120, 0, on, off, code, 0, 0, 0, 0, 0];
            let mut record = [&[0, 0, 0, 2][..], &OVERALL_OK, &entry].concat();
            record.resize(STATUS_BYTES, BEFORE);
            let what = format!("RQSTED ON {on}, OFF {off}, speed code {code}");
            let answer = read_status(&configuration, &page, &[BEFORE; STATUS_BYTES]);
            checks.equal(&what, answer, handed_back(0, 0, &record));
            let again = rewrite_status(&configuration, &record, &[BEFORE; 16]);
            checks.equal(&what, again, written(&page, 16));
        }
    }
}

/// An element with this code and FAIL, and its entry; a sensor has a warning bit too.
fn code_and_fail(kind: Kind, code: u8, fail: u8) -> ([u8; 4], [u8; STATUS_ENTRY_BYTES]) {
    match kind {
        Kind::Cooling => (
            [code, 0x00, 0x78, 0x40 * fail + 0x23],
            [code, 0, 0, 0, 0, 0, 120, fail, 1, 0, 3, 0, 0, 0, 0, 0],
        ),
        Kind::Temperature => (
            [code, 0x40 * fail, 0x41, 0x04],
            [code, 0, 0, 0, 0, fail, 65, 0, 1, 0, 0, 0, 0, 0, 0, 0],
        ),
        Kind::Voltage => (
            [code, 0x40 * fail + 0x08, 0x01, 0x67],
            [code, 0, 0, 0, 0, fail, 1, 0, 0, 0, 1, 103, 0, 0, 0, 0],
        ),
        Kind::Current => (
            [code, 0x40 * fail + 0x08, 0x01, 0x67],
            [code, 0, 0, 0, 0, fail, 1, 0, 1, 103, 0, 0, 0, 0, 0, 0],
        ),
    }
}

/// Code and FAIL in every combination, those that no shelf shows among them.
fn fails_as_shown(checks: &mut Checks) {
    for kind in Kind::ALL {
        let shelf = shelf_a_of(kind, vec![plain(kind)]);
        let configuration = shelf.configuration().block();
        for code in 0..=HIGHEST_CODE {
            for fail in [0, 1] {
                let (element, entry) = code_and_fail(kind, code, fail);
                let page = [&HEADER_OF_TWO[..], &[1, 0, 0, 0], &element].concat();
                let mut record = [&[0, 0, 0, 2][..], &OVERALL_OK, &entry].concat();
                record.resize(STATUS_BYTES, BEFORE);
                let what = format!("{kind:?}, code {code}, FAIL {fail}");
                let answer = read_status(&configuration, &page, &[BEFORE; STATUS_BYTES]);
                checks.equal(&what, answer, handed_back(0, 0, &record));
                let again = rewrite_status(&configuration, &record, &[BEFORE; 16]);
                checks.equal(&what, again, written(&page, 16));
            }
        }
    }
}

/// The largest value of each byte of an entry, 0 where the type shows nothing.
fn largest_values() -> [(Kind, [u8; STATUS_ENTRY_BYTES]); 4] {
    let (code, speed_code) = (HIGHEST_CODE, HIGHEST_SPEED);
    let [upper, lower] = FASTEST.to_be_bytes();
    [
        (
            Kind::Cooling,
            [
                code, 1, 1, 1, 1, upper, lower, 1, 1, 1, speed_code, 0, 0, 0, 0, 0,
            ],
        ),
        (
            Kind::Temperature,
            [code, 1, 1, 1, 1, 1, 255, 1, 1, 1, 1, 0, 0, 0, 0, 0],
        ),
        (
            Kind::Voltage,
            [code, 1, 1, 1, 1, 1, 1, 1, 1, 1, 255, 255, 0, 0, 0, 0],
        ),
        (
            Kind::Current,
            [code, 1, 1, 1, 1, 1, 1, 1, 255, 255, 0, 0, 0, 0, 0, 0],
        ),
    ]
}

/// All bytes of both entries at their largest, and then one of them with each value.
fn fields_rewritten(checks: &mut Checks) {
    let overall = with(&[0; STATUS_ENTRY_BYTES], 0, &[HIGHEST_CODE]);
    for (kind, individual) in largest_values() {
        let shelf = shelf_a_of(kind, vec![plain(kind)]);
        let configuration = shelf.configuration().block();
        let entries = [&overall[..], &individual].concat();
        let mut record = [&[1, 1, 0, 2][..], &entries].concat();
        record.resize(STATUS_BYTES, BEFORE);
        for (at, most) in entries.iter().enumerate() {
            for value in 0..=0xFF {
                let changed = with(&record, 4 + at, &[value]);
                let answer = rewrite_status(&configuration, &changed, &[BEFORE; 16]);
                let what = format!("{kind:?}, byte {at} of the entries is {value}");
                let expected = if value <= *most { 0 } else { 6 };
                checks.equal(&what, answer.number, expected);
            }
        }
    }
}

fn worst_codes(checks: &mut Checks) {
    let none = Thresholds::default();
    let [normal, silent] = [temperature(64, none), temperature(0, none)];
    let warm = temperature(65, high_warning(64));
    let hot = temperature(65, high_critical(64));
    let worst: [(&[Element], u8, u8); 8] = [
        (&[], 0, 0x00),
        (&[normal, normal], 1, 0x00),
        (&[silent, normal], 6, 0x00),
        (&[normal, silent, warm], 3, 0x04),
        (&[warm, hot, silent], 2, 0x06),
        (&[hot, silent, normal], 2, 0x02),
        (&[warm, warm], 3, 0x04),
        (&[normal, silent], 6, 0x00),
    ];
    for (elements, code, byte1) in worst {
        for common in [Settings::default(), FAIL, ALL_FLAGS] {
            let elements = elements.iter().map(|element| set_to(common, *element));
            let shelf = shelf_a_of(Kind::Temperature, elements.collect());
            let page = write_status(&shelf.block(), &[BEFORE; 24]).bytes[5..].to_vec();
            checks.equal("worst code", &page[8..12], &[code, 0, 0, 0]);
            checks.equal("page byte 1", page[1], byte1);
        }
    }
    let mut two_types = shelf_a_of(Kind::Temperature, vec![warm]);
    let low = voltage(-1, 1200, low_critical(20));
    two_types.groups.push(group(Kind::Voltage, Vec::new()));
    two_types.groups.push(group(Kind::Voltage, vec![low]));
    let expected = [
        0x02, 0x06, 0x00, 0x18, 0x00, 0x00, 0x00, 0x07, 0x03, 0, 0, 0, 0x03, 0x40, 0x41, 0x04, 0,
        0, 0, 0, 0x02, 0, 0, 0, 0x02, 0x41, 0xFF, 0xFF,
    ];
    checks.equal(
        "an empty type between two",
        write_status(&two_types.block(), &[BEFORE; 28]),
        written(&expected, 28),
    );
}

const THRESHOLD_HEADER: [u8; 8] = [0x05, 0x00, 0x00, 0x0C, 0x00, 0x00, 0x00, 0x07];

/// Overall and individual bytes with the number they give.
const THRESHOLD_CASES: [(Kind, [u8; 4], [u8; 4], u8); 13] = [
    (Kind::Cooling, [0; 4], [0; 4], 0),
    (Kind::Cooling, [0; 4], [0, 0, 0, 1], 7),
    (Kind::Cooling, [0, 0, 0, 1], [0; 4], 6),
    (Kind::Cooling, [1, 0, 0, 0], [1, 0, 0, 0], 6),
    (Kind::Temperature, [0; 4], [90, 80, 20, 10], 0),
    (Kind::Temperature, [0; 4], [90, 80, 10, 20], 8),
    (Kind::Temperature, [0; 4], [80, 90, 20, 10], 8),
    (Kind::Temperature, [0, 1, 0, 0], [80, 90, 20, 10], 6),
    (Kind::Voltage, [0; 4], [90, 80, 10, 20], 0),
    (Kind::Voltage, [0; 4], [90, 80, 20, 10], 8),
    (Kind::Current, [0; 4], [9, 9, 0, 0], 0),
    (Kind::Current, [0; 4], [9, 10, 1, 0], 7),
    (Kind::Current, [0; 4], [9, 10, 0, 0], 8),
];

fn thresholds_read(checks: &mut Checks) {
    for (kind, overall, individual, number) in THRESHOLD_CASES {
        let configuration = shelf_a_of(kind, vec![plain(kind)]).configuration().block();
        let page = [&THRESHOLD_HEADER[..], &overall, &individual].concat();
        let answer = read_thresholds(&configuration, &page, &[BEFORE; THRESHOLDS_BYTES]);
        let mut record = [&[0, 0, 0, 2][..], &overall, &individual].concat();
        record.resize(THRESHOLDS_BYTES, BEFORE);
        let first_overall = 8 + overall.iter().take_while(|byte| **byte == 0).count();
        let expected = match number {
            0 => handed_back(0, 0, &record),
            6 => handed_back(6, first_overall as u8, &[BEFORE; THRESHOLDS_BYTES]),
            _ => not_read(number, THRESHOLDS_BYTES),
        };
        checks.equal("thresholds read", answer, expected);
        let byte1 = with(&page, 1, &[2]);
        let answer = read_thresholds(&configuration, &byte1, &[BEFORE; THRESHOLDS_BYTES]);
        let expected = handed_back(6, 1, &[BEFORE; THRESHOLDS_BYTES]);
        checks.equal("page byte 1", answer, expected);
    }
}

fn thresholds_rewritten(checks: &mut Checks) {
    for (kind, overall, individual, number) in THRESHOLD_CASES {
        let configuration = shelf_a_of(kind, vec![plain(kind)]).configuration().block();
        let mut record = [&[0xFF, 0xFF, 0, 2][..], &overall, &individual].concat();
        record.resize(THRESHOLDS_BYTES, BEFORE);
        let page = [&THRESHOLD_HEADER[..], &overall, &individual].concat();
        let (expected, expected_short) = match number {
            0 => (written(&page, 16), not_written(11, 15)),
            _ => (not_written(number, 16), not_written(number, 15)),
        };
        let answer = rewrite_thresholds(&configuration, &record, &[BEFORE; 16]);
        checks.equal("thresholds, again", answer, expected);
        let answer = rewrite_thresholds(&configuration, &record, &[BEFORE; 15]);
        checks.equal("thresholds, again, short", answer, expected_short);
        let answer = rewrite_thresholds(&configuration, &with(&record, 3, &[1]), &[BEFORE; 16]);
        checks.equal("thresholds, one entry", answer, not_written(9, 16));
    }
}
