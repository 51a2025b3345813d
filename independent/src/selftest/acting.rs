//! The paper's numbers for pages that act, examples worked out from its rules, and laws that follow from them.

use super::checks::Checks;
use super::examples::{
    block_a, current, elements_in, fan, fan_with, group, handed_back, plain, sensors_shown, set_to,
    shelf_a, shelf_a_of, stopped, temperature, voltage, wishes_of_the_paper, with, without_limits,
    ALL_FLAGS, FAIL, NOISE, RST_SWAP, SPEED_5, SWAP, UNSELECTED,
};
use crate::cases;
use crate::limits::{ELEMENTS_AT, ELEMENT_BYTES, HIGHEST_SPEED, TYPES_AT};
use crate::pages::calls::{apply_control, apply_thresholds, write_status, Answer};
use crate::pages::cases::{control, threshold_out};
use crate::record::{Element, Kind, Settings, Shelf, Thresholds};
use crate::rng::Rng;

const SEED: u64 = 0xAC7;
const ROUNDS: usize = 500;

const SELECTED: [u8; 4] = [0x80, 0x00, 0x00, 0x00];

pub fn check(checks: &mut Checks) {
    fans_a_acting(checks);
    headers_for_a(checks);
    choosing(checks);
    requested_speeds(checks);
    stopped_and_started(checks);
    speeds_while_stopped(checks);
    fails_asked(checks);
    limits_moved(checks);
    reserved_bits(checks);
    page_byte_1(checks);
    types_apart(checks);
    thresholds_taken(checks);
    thresholds_refused(checks);
    order_in_one_of_many(checks);
    laws(checks);
    limits_without_a_say(checks);
}

fn control_page(elements: &[[u8; 4]]) -> Vec<u8> {
    page(0x02, elements)
}

fn threshold_page(elements: &[[u8; 4]]) -> Vec<u8> {
    page(0x05, elements)
}

/// A page for a shelf of generation 7.
fn page(code: u8, elements: &[[u8; 4]]) -> Vec<u8> {
    let length = 4 + 4 * elements.len();
    let header = [code, 0x00, 0x00, length as u8, 0x00, 0x00, 0x00, 0x07];
    [&header[..], &elements.concat()].concat()
}

fn accepted(after: &Shelf) -> Answer {
    handed_back(0, 0, &after.block())
}

fn refused(number: u8, block: &[u8]) -> Answer {
    handed_back(number, 0, block)
}

fn fans_a_acting(checks: &mut Checks) {
    for example in wishes_of_the_paper() {
        let before = shelf_a(example.stored.to_vec()).block();
        let answer = apply_control(&before, &control_page(&example.elements));
        let after = shelf_a(example.wanted.to_vec());
        checks.equal(example.what, answer, accepted(&after));
    }
    checks.equal("control elements that set SWAP", swap_setters(), 0);
}

/// How many selected elements give A's fan a SWAP it did not have.
fn swap_setters() -> usize {
    let shelf = shelf_a(vec![fan(3)]).block();
    let mut setters = 0;
    for byte0 in 0x80..=0xFF {
        for byte1 in [0x00, 0x80] {
            for byte3 in 0x00..=0xFF {
                let page = control_page(&[UNSELECTED, [byte0, byte1, 0, byte3]]);
                let first_settings = apply_control(&shelf, &page).record()[ELEMENTS_AT];
                setters += usize::from(first_settings & 0x10 != 0);
            }
        }
    }
    setters
}

fn headers_for_a(checks: &mut Checks) {
    let block = block_a();
    let all = [SPEED_5, UNSELECTED, UNSELECTED, UNSELECTED];
    let calls: [(u8, fn(&[u8], &[u8]) -> Answer, [[u8; 4]; 4]); 2] = [
        (0x02, apply_control, all),
        (0x05, apply_thresholds, [[0; 4]; 4]),
    ];
    for (code, call, elements) in calls {
        let page = page(code, &elements);
        checks.equal("length field for A", page[3], 0x14);
        checks.equal("page for A", call(&block, &page).number, 0);
        for (what, number, page) in flawed_headers(&page) {
            checks.equal(what, call(&block, &page), refused(number, &block));
        }
        let broken = with(&block, TYPES_AT + 1, &[1]);
        let answer = call(&broken, &[]);
        checks.equal("broken shelf, empty page", answer, refused(1, &broken));
        let shorter = &block[..block.len() - 1];
        let answer = call(shorter, &page);
        checks.equal("A but for a byte", answer, refused(1, shorter));
    }
}

/// Pages for A, spoiled, with the number of the refusal. The other page has the other code, 02h or 05h.
fn flawed_headers(page: &[u8]) -> [(&'static str, u8, Vec<u8>); 20] {
    let longer = [page, &[0]].concat();
    let four_fans = with(&[page, &[0; 4]].concat(), 3, &[0x18]);
    let other = 0x07 - page[0];
    [
        ("empty page", 2, Vec::new()),
        ("page of 3 bytes", 2, page[..3].to_vec()),
        ("3 bytes of another page", 2, vec![other, 0, 0]),
        ("the other page", 3, with(page, 0, &[other])),
        ("other page, 25 bytes", 3, with(&longer, 0, &[other])),
        ("23 bytes", 4, page[..23].to_vec()),
        ("25 bytes", 4, longer.clone()),
        ("24 bytes, 0013h", 4, with(page, 3, &[0x13])),
        ("24 bytes, 0114h", 4, with(page, 2, &[0x01])),
        ("28 bytes, 0014h", 4, with(&four_fans, 3, &[0x14])),
        ("4 bytes, said so", 12, vec![page[0], 0, 0, 0]),
        ("8 bytes, said so", 12, with(&page[..8], 3, &[0x04])),
        ("25 bytes, said so", 12, with(&longer, 3, &[0x15])),
        ("two fans", 12, with(&page[..20], 2, &[0x00, 0x10])),
        ("four fans", 12, four_fans.clone()),
        ("four fans and generation 8", 12, with(&four_fans, 7, &[8])),
        ("four fans and byte 1", 12, with(&four_fans, 1, &[0x80])),
        ("generation 8", 5, with(page, 7, &[8])),
        ("25 bytes and generation 8", 4, with(&longer, 7, &[8])),
        (
            "generation 8 and byte 1",
            5,
            with(&with(page, 7, &[8]), 1, &[0x80]),
        ),
    ]
}

fn choosing(checks: &mut Checks) {
    let swapped = shelf_a(vec![fan_with(SWAP, 3)]);
    let cases: [(&str, [[u8; 4]; 2], Element); 4] = [
        (
            "individual alone, SWAP not lost to the overall",
            [RST_SWAP, SPEED_5],
            fan_with(SWAP, 5),
        ),
        (
            "individual alone, no bit of the overall",
            [[0xF0, 0x80, 0x00, 0x67], [0x80, 0x00, 0x00, 0x20]],
            fan_with(SWAP, 3),
        ),
        ("31 bits without effect", [NOISE, NOISE], fan_with(SWAP, 3)),
        ("left to the overall", [RST_SWAP, NOISE], fan(3)),
    ];
    for (what, elements, after) in cases {
        let answer = apply_control(&swapped.block(), &control_page(&elements));
        checks.equal(what, answer, accepted(&shelf_a(vec![after])));
    }
    let all_but_on = [[0xF0, 0x80, 0x00, 0x47], NOISE];
    let answer = apply_control(&swapped.block(), &control_page(&all_but_on));
    checks.equal(
        "fan with all bits but ON",
        shown(&answer),
        vec![0x61, 0x80, 0x78, 0x50],
    );
    let sensor = shelf_a_of(Kind::Temperature, vec![plain(Kind::Temperature)]);
    let all = [NOISE, [0xF0, 0xC0, 0x00, 0x00]];
    let answer = apply_control(&sensor.block(), &control_page(&all));
    checks.equal(
        "sensor with all bits",
        shown(&answer),
        vec![0x61, 0xC0, 0x40, 0x00],
    );
}

/// How the status page then shows the only element.
fn shown(answer: &Answer) -> Vec<u8> {
    let page = write_status(answer.record(), &[0; 16]);
    page.bytes[5 + 12..].to_vec()
}

fn requested_speeds(checks: &mut Checks) {
    for code in 0..=HIGHEST_SPEED {
        let elements = [UNSELECTED, [0x80, 0x00, 0x00, 0x20 + code]];
        let answer = apply_control(&shelf_a(vec![fan(3)]).block(), &control_page(&elements));
        let speed = if code == 0 { 3 } else { code };
        checks.equal(
            "requested speed",
            answer,
            accepted(&shelf_a(vec![fan(speed)])),
        );
    }
}

/// By a page that asks for speed code 0 and all else as it is stored, first without ON and then with it.
fn stopped_and_started(checks: &mut Checks) {
    let plain = (Settings::default(), [0x80, 0x00, 0x00], [0x01, 0x00, 0x00]);
    let flagged = (ALL_FLAGS, [0xE0, 0x80, 0x40], [0x71, 0x80, 0x40]);
    for (common, [byte0, byte1, byte3], [shown0, shown1, shown3]) in [plain, flagged] {
        let (stop, start) = ([byte0, byte1, 0, byte3], [byte0, byte1, 0, byte3 + 0x20]);
        for speed in 1..=HIGHEST_SPEED {
            let fan = fan_with(common, speed);
            let before = shelf_a(vec![fan]);
            for in_place in [|element| [UNSELECTED, element], |element| [element, NOISE]] {
                let off = apply_control(&before.block(), &control_page(&in_place(stop)));
                let after = shelf_a(vec![stopped(fan)]);
                checks.equal("stopped, SPEED kept", &off, &accepted(&after));
                let status = vec![shown0, shown1, 0x78, shown3 + 0x10];
                checks.equal("stopped, shown", shown(&off), status);
                let on = apply_control(off.record(), &control_page(&in_place(start)));
                checks.equal("started again", &on, &accepted(&before));
                let status = vec![shown0, shown1, 0x78, shown3 + 0x20 + speed];
                checks.equal("started again, shown", shown(&on), status);
            }
        }
    }
}

/// A speed code without ON, over a fan that is ON and over a stopped one, shows once the fan is started.
fn speeds_while_stopped(checks: &mut Checks) {
    for before in [fan(3), stopped(fan(3))] {
        for code in 0..=HIGHEST_SPEED {
            let block = shelf_a(vec![before]).block();
            let elements = [UNSELECTED, [0x80, 0x00, 0x00, code]];
            let off = apply_control(&block, &control_page(&elements));
            let speed = if code == 0 { 3 } else { code };
            let after = shelf_a(vec![stopped(fan(speed))]);
            checks.equal("requested speed, stored", &off, &accepted(&after));
            let status = vec![0x01, 0x00, 0x78, 0x10];
            checks.equal("requested speed, not shown", shown(&off), status);
            let elements = [UNSELECTED, [0x80, 0x00, 0x00, 0x20]];
            let on = apply_control(off.record(), &control_page(&elements));
            let status = vec![0x01, 0x00, 0x78, 0x20 + speed];
            checks.equal("requested speed, shown", shown(&on), status);
        }
    }
}

/// What is stored is what was asked for, whatever shows: past a limit, FAIL does.
fn fails_asked(checks: &mut Checks) {
    for (sensor, without, with_fail) in sensors_shown() {
        let of = |common| shelf_a_of(sensor.kind(), vec![set_to(common, sensor)]);
        let asked = [
            ([0x80, 0x00, 0x00, 0x00], Settings::default(), without),
            ([0x80, 0x40, 0x00, 0x00], FAIL, with_fail),
        ];
        for before in [of(Settings::default()), of(FAIL)] {
            for (element, after, status) in asked {
                for elements in [[UNSELECTED, element], [element, NOISE]] {
                    let answer = apply_control(&before.block(), &control_page(&elements));
                    checks.equal("FAIL as asked", &answer, &accepted(&of(after)));
                    let status = status.to_be_bytes().to_vec();
                    checks.equal("FAIL as asked, shown", shown(&answer), status);
                }
            }
            let answer = apply_control(&before.block(), &control_page(&[NOISE, NOISE]));
            checks.equal("FAIL not asked", answer, accepted(&before));
        }
    }
}

/// A sensor past a limit, that limit out of the way and back, and what is shown then, without a stored FAIL.
const LIMITS_MOVED: [(Kind, i16, [[u8; 4]; 2], [u32; 2]); 5] = [
    (
        Kind::Temperature,
        65,
        [[0, 65, 0, 0], [0, 64, 0, 0]],
        [0x0100_4100, 0x0340_4104],
    ),
    (
        Kind::Temperature,
        9,
        [[0, 0, 0, 9], [0, 0, 0, 10]],
        [0x0100_0900, 0x0240_0902],
    ),
    (
        Kind::Voltage,
        359,
        [[0, 6, 0, 0], [0, 5, 0, 0]],
        [0x0100_0167, 0x0348_0167],
    ),
    (
        Kind::Voltage,
        341,
        [[0, 0, 0, 6], [0, 0, 0, 5]],
        [0x0100_0155, 0x0241_0155],
    ),
    (
        Kind::Current,
        359,
        [[6, 0, 0, 0], [5, 0, 0, 0]],
        [0x0100_0167, 0x0242_0167],
    ),
];

/// FAIL comes and goes with a tripped limit unless it is stored, and what is stored stays.
fn limits_moved(checks: &mut Checks) {
    for (kind, reading, [away, back], [calm, tripped]) in LIMITS_MOVED {
        let sensor = |limits| match kind {
            Kind::Temperature => temperature(reading as u16, limits),
            Kind::Voltage => voltage(reading, 350, limits),
            _ => current(reading, 350, limits),
        };
        for (common, fail) in [(Settings::default(), 0), (FAIL, 0x0040_0000)] {
            let with_limits = |bytes| {
                let sensor = set_to(common, sensor(Thresholds::from_bytes(bytes)));
                shelf_a_of(kind, vec![sensor])
            };
            let moved = |before: &[u8], limits| {
                apply_thresholds(before, &threshold_page(&[[0; 4], limits]))
            };
            let off = moved(&with_limits(back).block(), away);
            checks.equal("limit away", &off, &accepted(&with_limits(away)));
            let status = (calm + fail).to_be_bytes().to_vec();
            checks.equal("limit away, shown", shown(&off), status);
            let on = moved(off.record(), back);
            checks.equal("limit back", &on, &accepted(&with_limits(back)));
            let status = tripped.to_be_bytes().to_vec();
            checks.equal("limit back, shown", shown(&on), status);
        }
    }
}

/// Adds each single bit to an element: all but the named ones are refused if it has SELECT, none if not.
fn reserved_bits(checks: &mut Checks) {
    let named: [(Kind, u32); 4] = [
        (Kind::Cooling, 0xF080_0067),
        (Kind::Temperature, 0xF0C0_0000),
        (Kind::Voltage, 0xF0C0_0000),
        (Kind::Current, 0xF0C0_0000),
    ];
    for (kind, named) in named {
        let block = shelf_a_of(kind, vec![plain(kind)]).block();
        let outcome = |elements: &[[u8; 4]]| {
            let answer = apply_control(&block, &control_page(elements));
            (answer.number, answer.offset())
        };
        let empty = shelf_a_of(kind, Vec::new()).block();
        for place in 0..32 {
            let bit = 1_u32 << place;
            let selected = (0x8000_0000 | bit).to_be_bytes();
            let byte = 3 - place / 8;
            let expected = |element: usize| match named & bit {
                0 => (6, element + byte),
                _ => (0, 0),
            };
            let what = format!("{kind:?} with {selected:02X?}");
            checks.equal(&what, outcome(&[selected, UNSELECTED]), expected(8));
            checks.equal(&what, outcome(&[UNSELECTED, selected]), expected(12));
            checks.equal(&what, outcome(&[selected, SELECTED]), expected(8));
            checks.equal(&what, outcome(&[selected, selected]), expected(8));
            let without_elements = apply_control(&empty, &control_page(&[selected]));
            let without_elements = (without_elements.number, without_elements.offset());
            checks.equal(&what, without_elements, expected(8));
            let unselected = (0x7FFF_FFFF & bit).to_be_bytes();
            checks.equal("unselected", outcome(&[unselected, unselected]), (0, 0));
        }
    }
}

fn page_byte_1(checks: &mut Checks) {
    let block = block_a();
    let control = control_page(&[UNSELECTED; 4]);
    let thresholds = threshold_page(&[[0; 4]; 4]);
    for byte1 in 0..=0xFF {
        let answer = apply_control(&block, &with(&control, 1, &[byte1]));
        let expected = if byte1 < 0x10 { (0, 0) } else { (6, 1) };
        let outcome = (answer.number, answer.offset());
        checks.equal("control, page byte 1", outcome, expected);
        let answer = apply_thresholds(&block, &with(&thresholds, 1, &[byte1]));
        let expected = if byte1 == 0 { (0, 0) } else { (6, 1) };
        let outcome = (answer.number, answer.offset());
        checks.equal("thresholds, page byte 1", outcome, expected);
    }
}

/// Fans, an empty type and fans again: each overall element is for its own type.
fn types_apart(checks: &mut Checks) {
    let three = |first: Element, last: Element| {
        let mut shelf = shelf_a(vec![first]);
        shelf.groups.push(group(Kind::Current, Vec::new()));
        shelf.groups.push(group(Kind::Cooling, vec![last]));
        shelf
    };
    let before = three(fan(3), fan(3)).block();
    let first = [SPEED_5, NOISE, UNSELECTED, UNSELECTED, NOISE];
    checks.equal(
        "speed 5 for the first type",
        apply_control(&before, &control_page(&first)),
        accepted(&three(fan(5), fan(3))),
    );
    let last = [UNSELECTED, UNSELECTED, [0x80, 0, 0, 0], SPEED_5, NOISE];
    checks.equal(
        "speed 5 for the last type",
        apply_control(&before, &control_page(&last)),
        accepted(&three(fan(3), fan(5))),
    );
    let spoiled = [SPEED_5, NOISE, [0x80, 0, 0, 0], SPEED_5, [0x80, 0, 1, 0]];
    checks.equal(
        "a reserved bit in the last element",
        apply_control(&before, &control_page(&spoiled)),
        handed_back(6, 26, &before),
    );
}

fn thresholds_taken(checks: &mut Checks) {
    let of = |bytes| shelf_a_of(Kind::Temperature, vec![temperature_with(bytes)]);
    let elements = [[91, 0, 21, 0], [92, 82, 0, 0]];
    checks.equal(
        "individual, else overall, else stored",
        apply_thresholds(&of([90, 80, 20, 10]).block(), &threshold_page(&elements)),
        accepted(&of([92, 82, 21, 10])),
    );
    let elements = [[9, 9, 9, 9], [200, 100, 100, 50]];
    checks.equal(
        "individual before overall",
        apply_thresholds(&of([90, 80, 20, 10]).block(), &threshold_page(&elements)),
        accepted(&of([200, 100, 100, 50])),
    );
}

fn temperature_with(bytes: [u8; 4]) -> Element {
    temperature(64, Thresholds::from_bytes(bytes))
}

/// Overall and individual bytes, with the number that they give over an element without thresholds.
const THRESHOLDS_ASKED: [(Kind, [u8; 4], [u8; 4], u8); 14] = [
    (Kind::Cooling, [0, 0, 0, 1], [0; 4], 7),
    (Kind::Cooling, [0; 4], [1, 0, 0, 0], 7),
    (Kind::Current, [0, 0, 1, 0], [0; 4], 7),
    (Kind::Current, [0; 4], [0, 0, 0, 1], 7),
    (Kind::Current, [0; 4], [9, 10, 0, 1], 7),
    (Kind::Current, [0; 4], [9, 10, 0, 0], 8),
    (Kind::Current, [9, 0, 0, 0], [0, 10, 0, 0], 8),
    (Kind::Current, [9, 0, 0, 0], [10, 10, 0, 0], 0),
    (Kind::Temperature, [9, 10, 0, 0], [0; 4], 8),
    (Kind::Temperature, [9, 10, 0, 0], [0, 9, 0, 0], 0),
    (Kind::Temperature, [0, 0, 9, 0], [0, 0, 0, 10], 8),
    (Kind::Temperature, [0, 0, 10, 0], [0, 0, 0, 9], 0),
    (Kind::Voltage, [0, 0, 10, 0], [0, 0, 0, 9], 8),
    (Kind::Voltage, [0, 0, 9, 0], [0, 0, 0, 10], 0),
];

fn thresholds_refused(checks: &mut Checks) {
    for (kind, overall, individual, number) in THRESHOLDS_ASKED {
        let block = shelf_a_of(kind, vec![plain(kind)]).block();
        let answer = apply_thresholds(&block, &threshold_page(&[overall, individual]));
        let what = format!("{kind:?}, {overall:?}, {individual:?}");
        checks.equal(&what, answer.number, number);
    }
    for kind in [Kind::Cooling, Kind::Current] {
        let empty = shelf_a_of(kind, Vec::new()).block();
        let answer = apply_thresholds(&empty, &threshold_page(&[[0, 0, 0, 1]]));
        checks.equal("a type without elements", answer, refused(7, &empty));
    }
    let mut two_types = shelf_a_of(Kind::Current, vec![current(1, 1, Thresholds::default())]);
    two_types.groups.push(group(Kind::Cooling, vec![fan(3)]));
    let block = two_types.block();
    let elements = [[0; 4], [9, 10, 0, 0], [0; 4], [0, 0, 0, 1]];
    let page = threshold_page(&elements);
    checks.equal(
        "8 first on the page, 7 behind it",
        apply_thresholds(&block, &page),
        refused(7, &block),
    );
    checks.equal(
        "6, 7 and 8",
        apply_thresholds(&block, &with(&page, 1, &[1])),
        handed_back(6, 1, &block),
    );
}

/// Only the last element's stored byte is out of order with the overall one; no element takes it then.
fn order_in_one_of_many(checks: &mut Checks) {
    let of =
        |stored: [[u8; 4]; 3]| shelf_a_of(Kind::Temperature, stored.map(temperature_with).to_vec());
    let before = of([[90, 60, 0, 0], [90, 70, 0, 0], [90, 71, 0, 0]]);
    let lower = [[70, 0, 0, 0], [0; 4], [0; 4], [0; 4]];
    checks.equal(
        "overall 70 under a stored 71",
        apply_thresholds(&before.block(), &threshold_page(&lower)),
        refused(8, &before.block()),
    );
    let saved = [[70, 0, 0, 0], [0; 4], [0; 4], [71, 0, 0, 0]];
    checks.equal(
        "an individual byte keeps the order",
        apply_thresholds(&before.block(), &threshold_page(&saved)),
        accepted(&of([[70, 60, 0, 0], [70, 70, 0, 0], [71, 71, 0, 0]])),
    );
}

/// The blocks may differ in the four bytes from this place on of each element, and nowhere else.
fn alike_but_for(from: usize, before: &[u8], after: &[u8]) -> bool {
    let without = |block: &[u8]| {
        let mut rest = block.to_vec();
        for element in rest[elements_in(block)].chunks_mut(ELEMENT_BYTES) {
            element[from..from + 4].fill(0);
        }
        rest
    };
    without(before) == without(after)
}

/// A call that acts, the first of the four bytes of each element that it may change, and how an element of a
/// page comes to ask for nothing.
struct Law {
    name: &'static str,
    call: fn(&[u8], &[u8]) -> Answer,
    accepted_page: fn(&mut Rng, &Shelf) -> Vec<u8>,
    changed_from: usize,
    without_effect: fn(&mut [u8]),
}

const LAWS: [Law; 2] = [
    Law {
        name: "control",
        call: apply_control,
        accepted_page: control::accepted_page,
        changed_from: 0,
        without_effect: |element| element[0] &= 0x7F,
    },
    Law {
        name: "thresholds",
        call: apply_thresholds,
        accepted_page: threshold_out::accepted_page,
        changed_from: 4,
        without_effect: |element| element.fill(0),
    },
];

impl Law {
    fn hold(&self, checks: &mut Checks, shelf: &Shelf, page: &[u8]) {
        let before = shelf.block();
        let answer = (self.call)(&before, page);
        let what = |law: &str| format!("{}: {law}", self.name);
        checks.equal(&what("accepted"), answer.number, 0);
        let after = answer.record();
        let only_these = alike_but_for(self.changed_from, &before, after);
        checks.equal(&what("nothing else"), only_these, true);
        let again = (self.call)(after, page);
        checks.equal(&what("the same page again"), &again, &answer);
        let mut idle = page.to_vec();
        idle[8..].chunks_mut(4).for_each(self.without_effect);
        let unchanged = (self.call)(&before, &idle);
        checks.equal(&what("nothing asked"), unchanged, accepted(shelf));
    }
}

fn laws(checks: &mut Checks) {
    for law in LAWS {
        let mut rng = Rng::new(SEED);
        for _ in 0..ROUNDS {
            let shelf = cases::shelf(&mut rng);
            let page = (law.accepted_page)(&mut rng, &shelf);
            law.hold(checks, &shelf, &page);
        }
    }
}

/// A control page leaves the same settings where limits trip and where there are none.
fn limits_without_a_say(checks: &mut Checks) {
    let mut rng = Rng::new(SEED);
    for _ in 0..ROUNDS {
        let shelf = cases::shelf(&mut rng);
        let page = control::accepted_page(&mut rng, &shelf);
        let after = apply_control(&shelf.block(), &page);
        let calm = apply_control(&without_limits(shelf).block(), &page);
        let alike = alike_but_for(4, after.record(), calm.record());
        checks.equal("control: no limit has a say", alike, true);
    }
}
