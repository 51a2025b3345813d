//! The paper's pages for its wishes, examples worked out from its rules, and every page of small shelves held
//! against the one built.

use super::checks::Checks;
use super::examples::{
    block_a, elements_in, fan, fan_with, fans_a, group, high_warning, plain, sensors_shown, set_to,
    shelf_a, shelf_a_of, stopped, temperature, wishes_of_the_paper, with, without_limits, Example,
    BEFORE, FAIL, NOISE, RST_SWAP, SPEED_5, SWAP, UNSELECTED,
};
use crate::cases;
use crate::element::Request;
use crate::limits::{ELEMENTS_AT, ELEMENT_BYTES, HIGHEST_SPEED, TYPES_AT};
use crate::pages::calls::{apply_control, build_control, write_status, Answer};
use crate::pages::cases::control;
use crate::pages::cases::wishes::Few;
use crate::record::{Element, Kind, Settings};
use crate::rng::Rng;
use std::collections::BTreeMap;

const SEED: u64 = 0xB01D;
const ROUNDS: usize = 300;

pub fn check(checks: &mut Checks) {
    fans_a_wished(checks);
    same_status_other_page(checks);
    fails_wished(checks);
    fails_of_three_wished(checks);
    order_of_refusals(checks);
    records_of_types(checks);
    types_apart(checks);
    tried_requests(checks);
    every_page_of_small_shelves(checks);
    laws(checks);
}

/// The settings of all elements, as the wanted list has them.
fn settings_of(block: &[u8]) -> Vec<u8> {
    let elements = block[elements_in(block)].chunks(ELEMENT_BYTES);
    elements
        .flat_map(|element| &element[..4])
        .copied()
        .collect()
}

fn wanted(elements: &[Element]) -> Vec<u8> {
    settings_of(&shelf_a(elements.to_vec()).block())
}

fn built(page: &[u8], selects: u8, room: usize) -> Answer {
    let mut bytes = vec![0, 0, 0, 0, page.len() as u8, 0, 0, 0, selects];
    bytes.extend(page);
    bytes.resize(9 + room, BEFORE);
    Answer { number: 0, bytes }
}

fn not_built(number: u8, room: usize) -> Answer {
    let mut bytes = vec![number, 0, 0, 0, 0, 0, 0, 0, 0];
    bytes.resize(9 + room, BEFORE);
    Answer { number, bytes }
}

/// A page for a shelf like A, with the header that the paper tells.
fn page_a(elements: [[u8; 4]; 4]) -> Vec<u8> {
    let header = [0x02, 0x00, 0x00, 0x14, 0x00, 0x00, 0x00, 0x07];
    [&header[..], &elements.concat()].concat()
}

/// Beyond the paper's: all fans have SWAP and speeds of their own.
fn swaps_wanted() -> [Example; 2] {
    let stored = [3, 4, 5].map(|speed| fan_with(SWAP, speed));
    [
        Example {
            what: "SWAP of two cleared, the last one's kept",
            stored,
            wanted: [fan(3), fan(4), fan_with(SWAP, 5)],
            elements: [UNSELECTED, RST_SWAP, RST_SWAP, UNSELECTED],
            selects: 2,
        },
        Example {
            what: "SWAP of all cleared, speeds kept",
            stored,
            wanted: [fan(3), fan(4), fan(5)],
            elements: [RST_SWAP, UNSELECTED, UNSELECTED, UNSELECTED],
            selects: 1,
        },
    ]
}

const ON: [u8; 4] = [0x80, 0x00, 0x00, 0x20];
const OFF: [u8; 4] = [0x80, 0x00, 0x00, 0x00];
const OFF_SPEED_5: [u8; 4] = [0x80, 0x00, 0x00, 0x05];

/// Beyond the paper's: fans that are stopped, or should be.
fn stops_wanted() -> [Example; 6] {
    let off = [3, 4, 5].map(|speed| stopped(fan(speed)));
    [
        Example {
            what: "all started, speeds as stored",
            stored: off,
            wanted: [fan(3), fan(4), fan(5)],
            elements: [ON, UNSELECTED, UNSELECTED, UNSELECTED],
            selects: 1,
        },
        Example {
            what: "all started with speed 5",
            stored: off,
            wanted: [fan(5); 3],
            elements: [SPEED_5, UNSELECTED, UNSELECTED, UNSELECTED],
            selects: 1,
        },
        Example {
            what: "all stopped with speed 5",
            stored: fans_a(),
            wanted: [stopped(fan(5)); 3],
            elements: [OFF_SPEED_5, UNSELECTED, UNSELECTED, UNSELECTED],
            selects: 1,
        },
        Example {
            what: "middle fan stopped",
            stored: fans_a(),
            wanted: [fan(3), stopped(fan(3)), fan(3)],
            elements: [UNSELECTED, UNSELECTED, OFF, UNSELECTED],
            selects: 1,
        },
        Example {
            what: "stopped as they are, all with speed 5",
            stored: off,
            wanted: [off[2]; 3],
            elements: [OFF_SPEED_5, UNSELECTED, UNSELECTED, UNSELECTED],
            selects: 1,
        },
        Example {
            what: "stopped as stored",
            stored: off,
            wanted: off,
            elements: [UNSELECTED; 4],
            selects: 0,
        },
    ]
}

fn fans_a_wished(checks: &mut Checks) {
    let own = swaps_wanted().into_iter().chain(stops_wanted());
    for example in wishes_of_the_paper().chain(own) {
        let block = shelf_a(example.stored.to_vec()).block();
        let answer = build_control(&block, &wanted(&example.wanted), &[BEFORE; 30]);
        let page = page_a(example.elements);
        checks.equal(example.what, answer, built(&page, example.selects, 30));
    }
    let swaps = wanted(&[fan_with(SWAP, 3), fan(3), fan(3)]);
    let answer = build_control(&block_a(), &swaps, &[BEFORE; 30]);
    checks.equal("SWAP over none", answer, not_built(10, 30));
}

/// Shelves that differ in nothing but the stored SPEED of a stopped fan, which should be ON with SPEED 5.
fn same_status_other_page(checks: &mut Checks) {
    let status = [
        0x02, 0x00, 0x00, 0x14, 0x00, 0x00, 0x00, 0x07, 0x01, 0x00, 0x00, 0x00, 0x01, 0x00, 0x78,
        0x23, 0x01, 0x00, 0x78, 0x10, 0x01, 0x00, 0x78, 0x23,
    ];
    for speed in 1..=HIGHEST_SPEED {
        let block = shelf_a(vec![fan(3), stopped(fan(speed)), fan(3)]).block();
        let answer = write_status(&block, &[BEFORE; 24]);
        checks.equal("the same status", &answer.bytes[5..], &status[..]);
        let asked = if speed == 5 { ON } else { SPEED_5 };
        let page = page_a([UNSELECTED, UNSELECTED, asked, UNSELECTED]);
        let wish = wanted(&[fan(3), fan(5), fan(3)]);
        checks.equal(
            &format!("started with speed 5 over {speed}"),
            build_control(&block, &wish, &[BEFORE; 24]),
            built(&page, 1, 24),
        );
    }
}

const FAILED: [u8; 4] = [0x80, 0x40, 0x00, 0x00];
const CLEARED: [u8; 4] = [0x80, 0x00, 0x00, 0x00];

/// By what is stored: past a limit FAIL shows all the same, and the status page does not tell.
fn fails_wished(checks: &mut Checks) {
    let header = [0x02, 0x00, 0x00, 0x0C, 0x00, 0x00, 0x00, 0x07];
    for (sensor, _, _) in sensors_shown() {
        let of = |common| shelf_a_of(sensor.kind(), vec![set_to(common, sensor)]).block();
        let (clear, failed) = (of(Settings::default()), of(FAIL));
        let cases = [
            ("FAIL not stored nor wanted", &clear, 0x00, UNSELECTED, 0),
            ("FAIL not stored, wanted", &clear, 0x40, FAILED, 1),
            ("FAIL stored, not wanted", &failed, 0x00, CLEARED, 1),
            ("FAIL stored and wanted", &failed, 0x40, UNSELECTED, 0),
        ];
        for (what, block, wanted, element, selects) in cases {
            let page = [&header[..], &UNSELECTED, &element].concat();
            let answer = build_control(block, &[0x00, wanted, 0x00, 0x00], &[BEFORE; 16]);
            checks.equal(what, answer, built(&page, selects, 16));
        }
    }
    let status = [
        0x02, 0x04, 0x00, 0x0C, 0x00, 0x00, 0x00, 0x07, 0x03, 0x00, 0x00, 0x00, 0x03, 0x40, 0x41,
        0x04,
    ];
    for common in [Settings::default(), FAIL] {
        let warm = set_to(common, temperature(65, high_warning(64)));
        let block = shelf_a_of(Kind::Temperature, vec![warm]).block();
        let answer = write_status(&block, &[BEFORE; 16]);
        checks.equal("the same status", &answer.bytes[5..], &status[..]);
    }
}

/// The first and the last show FAIL, and the last has it stored.
fn fails_of_three_wished(checks: &mut Checks) {
    let warm = temperature(65, high_warning(64));
    let cool = temperature(64, high_warning(64));
    let sensors = vec![warm, cool, set_to(FAIL, warm)];
    let block = shelf_a_of(Kind::Temperature, sensors).block();
    let cases = [
        (
            "FAIL of none",
            [0x00; 3],
            [UNSELECTED, UNSELECTED, UNSELECTED, CLEARED],
        ),
        (
            "FAIL of all",
            [0x40; 3],
            [FAILED, UNSELECTED, UNSELECTED, UNSELECTED],
        ),
        (
            "FAIL of the first and last",
            [0x40, 0x00, 0x40],
            [UNSELECTED, FAILED, UNSELECTED, UNSELECTED],
        ),
        (
            "FAIL of the middle and last",
            [0x00, 0x40, 0x40],
            [UNSELECTED, UNSELECTED, FAILED, UNSELECTED],
        ),
    ];
    for (what, wanted, elements) in cases {
        let wanted = wanted.map(|byte1| [0x00, byte1, 0x00, 0x00]).concat();
        let answer = build_control(&block, &wanted, &[BEFORE; 24]);
        checks.equal(what, answer, built(&page_a(elements), 1, 24));
    }
}

fn order_of_refusals(checks: &mut Checks) {
    let block = block_a();
    let broken = with(&block, TYPES_AT + 1, &[1]);
    let as_stored = wanted(&fans_a());
    let unreachable = with(&as_stored, 8, &[0x10]);
    let both = with(&unreachable, 0, &[0x80]);
    let cases: [(&str, &[u8], &[u8], usize, u8); 12] = [
        ("broken, all else wrong", &broken, &both, 0, 1),
        ("broken, no list", &broken, &[], 0, 1),
        ("no list", &block, &[], 24, 9),
        ("list of 11 bytes", &block, &as_stored[..11], 24, 9),
        ("list of 8 bytes", &block, &as_stored[..8], 24, 9),
        ("list of 8 bytes, no output", &block, &as_stored[..8], 0, 9),
        ("a record refused, SWAP over none", &block, &both, 24, 9),
        ("a record refused, no output", &block, &both, 0, 9),
        ("SWAP over none", &block, &unreachable, 24, 10),
        ("SWAP over none, no output", &block, &unreachable, 0, 10),
        ("output of 23 bytes", &block, &as_stored, 23, 11),
        ("no output", &block, &as_stored, 0, 11),
    ];
    for (what, block, wanted, room, number) in cases {
        let answer = build_control(block, wanted, &vec![BEFORE; room]);
        checks.equal(what, answer, not_built(number, room));
    }
    for surplus in [1, 4] {
        let longer = [&as_stored[..], &vec![0; surplus]].concat();
        let answer = build_control(&block, &longer, &[BEFORE; 24]);
        checks.equal("list too long", answer, not_built(9, 24));
    }
    let answer = build_control(&block, &as_stored, &[BEFORE; 24]);
    let no_select = page_a([UNSELECTED; 4]);
    checks.equal("output of 24 bytes", answer, built(&no_select, 0, 24));
}

/// Each single bit added to a record: those without a name are refused.
fn records_of_types(checks: &mut Checks) {
    let named: [(Kind, u32); 4] = [
        (Kind::Cooling, 0x7080_0067),
        (Kind::Temperature, 0x70C0_0000),
        (Kind::Voltage, 0x70C0_0000),
        (Kind::Current, 0x70C0_0000),
    ];
    let swap = 0x1000_0000;
    for (kind, named) in named {
        let block = shelf_a_of(kind, vec![plain(kind)]).block();
        for place in 0..32 {
            let bit = 1_u32 << place;
            let mut record = bit.to_be_bytes();
            record[3] |= block[ELEMENTS_AT + 3];
            let number = match bit {
                bit if named & bit == 0 => 9,
                bit if bit == swap => 10,
                _ => 0,
            };
            let what = format!("{kind:?}, record {record:02X?}");
            let answer = build_control(&block, &record, &[0; 16]);
            checks.equal(&what, answer.number, number);
        }
    }
    for byte3 in [0x20, 0x00] {
        let no_speed = with(&wanted(&fans_a()), 7, &[byte3]);
        let answer = build_control(&block_a(), &no_speed, &[BEFORE; 24]);
        checks.equal("speed 0 of the middle fan", answer, not_built(9, 24));
    }
}

/// Fans, a type without elements and fans again, which get the same wish: each type has its own SELECT.
fn types_apart(checks: &mut Checks) {
    let mut shelf = shelf_a(vec![fan(3), fan(4)]);
    shelf.groups.push(group(Kind::Current, Vec::new()));
    shelf.groups.push(group(Kind::Cooling, vec![fan(5)]));
    let block = shelf.block();
    let wanted = wanted(&[fan(7), fan(7), fan(7)]);
    let header = [0x02, 0x00, 0x00, 0x1C, 0x00, 0x00, 0x00, 0x07];
    let speed_7 = [0x80, 0x00, 0x00, 0x27];
    let elements = [
        speed_7, UNSELECTED, UNSELECTED, UNSELECTED, UNSELECTED, speed_7,
    ];
    checks.equal(
        "speed 7 in two types",
        build_control(&block, &wanted, &[BEFORE; 40]),
        built(&[&header[..], &elements.concat()].concat(), 2, 40),
    );
    let empty = shelf_a(Vec::new()).block();
    let page = [0x02, 0x00, 0x00, 0x08, 0x00, 0x00, 0x00, 0x07, 0, 0, 0, 0];
    checks.equal(
        "no element",
        build_control(&empty, &[], &[BEFORE; 12]),
        built(&page, 0, 12),
    );
    checks.equal(
        "a record for no element",
        build_control(&empty, &[0; 4], &[BEFORE; 12]),
        not_built(9, 12),
    );
}

/// The requests that the search goes through: all combinations of the named bits, in dictionary order.
fn tried_requests(checks: &mut Checks) {
    for kind in Kind::ALL {
        let tried: Vec<[u8; 4]> = Request::every(kind)
            .iter()
            .map(|(bytes, _)| *bytes)
            .collect();
        let mut named: Vec<[u8; 4]> = control::parts_of(control::named(kind))
            .iter()
            .map(|bits| (0x8000_0000 | bits).to_be_bytes())
            .collect();
        named.sort_unstable();
        let number = if kind == Kind::Cooling { 512 } else { 32 };
        checks.equal("requests", tried.len(), number);
        checks.equal("requests by named bits", tried, named);
    }
}

/// A small shelf of which every page is tried.
struct World {
    types: &'static [Few],
    /// Page byte 1; only those below 10h are valid.
    bytes1: &'static [u8],
    /// How many of the settings that can be stored are tried.
    shelves: usize,
}

const WORLDS: [World; 12] = [
    World {
        types: &[Few::new(Kind::Temperature, 1, 0, 0x70C0_0000)],
        bytes1: &[0x00, 0x01, 0x0F, 0x10],
        shelves: 16,
    },
    World {
        types: &[Few::new(Kind::Voltage, 2, 0, 0x70C0_0000)],
        bytes1: &[0x00],
        shelves: 2,
    },
    World {
        types: &[Few::new(Kind::Cooling, 1, 0, 0x7080_0067)],
        bytes1: &[0x00],
        shelves: 1,
    },
    World {
        types: &[Few::new(Kind::Cooling, 2, 0x0000_0024, 0x1000_0003)],
        bytes1: &[0x00, 0x08],
        shelves: 10,
    },
    World {
        types: &[Few::new(Kind::Cooling, 2, 0, 0x0080_0003)],
        bytes1: &[0x00],
        shelves: 30,
    },
    World {
        types: &[Few::new(Kind::Cooling, 2, 0, 0x0000_0023)],
        bytes1: &[0x00],
        shelves: 12,
    },
    World {
        types: &[Few::new(Kind::Cooling, 3, 0x0000_0020, 0x0000_0003)],
        bytes1: &[0x00],
        shelves: 20,
    },
    World {
        types: &[Few::new(Kind::Cooling, 3, 0x0000_0024, 0x1000_0001)],
        bytes1: &[0x00],
        shelves: 10,
    },
    World {
        types: &[Few::new(Kind::Current, 3, 0x2000_0000, 0x1080_0000)],
        bytes1: &[0x00],
        shelves: 20,
    },
    World {
        types: &[
            Few::new(Kind::Cooling, 1, 0x0000_0021, 0x1000_0002),
            Few::new(Kind::Temperature, 1, 0, 0x1040_0000),
        ],
        bytes1: &[0x00],
        shelves: 10,
    },
    World {
        types: &[
            Few::new(Kind::Voltage, 2, 0, 0x1000_0000),
            Few::new(Kind::Current, 0, 0, 0),
            Few::new(Kind::Voltage, 1, 0, 0x2000_0000),
        ],
        bytes1: &[0x00],
        shelves: 3,
    },
    World {
        types: &[
            Few::new(Kind::Current, 0, 0, 0x70C0_0000),
            Few::new(Kind::Cooling, 0, 0, 0x0000_0067),
        ],
        bytes1: &[0x00, 0x0F, 0x80],
        shelves: 1,
    },
];

fn every_page_of_small_shelves(checks: &mut Checks) {
    let mut rng = Rng::new(SEED);
    for world in &WORLDS {
        let wishes = world.every_wish();
        for _ in 0..world.shelves {
            let stored = &wishes[rng.range(0, wishes.len() - 1)];
            world.hold(checks, &world.block(stored), &wishes);
        }
    }
}

/// Unselected elements, a refused one, and every selected one that asks for no bit that is never wanted.
fn control_elements(few: &Few) -> Vec<[u8; 4]> {
    let mut requests = Vec::new();
    for settings in few.settings() {
        requests.extend([settings, settings & !0x07]);
    }
    requests.sort_unstable();
    requests.dedup();
    let mut elements = vec![UNSELECTED, [0, 0, 0, 1], NOISE, [0x80, 0, 1, 0]];
    elements.extend(
        requests
            .iter()
            .map(|bits| (0x8000_0000 | bits).to_be_bytes()),
    );
    elements
}

impl World {
    fn every_wish(&self) -> Vec<Vec<u8>> {
        let mut choices = Vec::new();
        for few in self.types {
            let settings = few.settings().into_iter().map(u32::to_be_bytes);
            choices.extend(vec![settings.collect::<Vec<_>>(); few.count]);
        }
        every_choice(&choices)
    }

    fn block(&self, stored: &[u8]) -> Vec<u8> {
        let mut shelf = shelf_a(Vec::new());
        let groups = self.types.iter();
        shelf.groups = groups
            .map(|few| group(few.kind, vec![plain(few.kind); few.count]))
            .collect();
        let mut block = shelf.block();
        let elements = block[ELEMENTS_AT..].chunks_mut(ELEMENT_BYTES);
        for (element, settings) in elements.zip(stored.chunks(4)) {
            element[..4].copy_from_slice(settings);
        }
        block
    }

    /// For every wish the page built is the best of all, or none reaches it.
    fn hold(&self, checks: &mut Checks, block: &[u8], wishes: &[Vec<u8>]) {
        let best = self.best_pages(block);
        for wish in wishes {
            let expected = match best.get(wish) {
                Some((selects, page)) => built(page, *selects as u8, page.len()),
                None => not_built(10, 0),
            };
            let before = vec![BEFORE; expected.bytes.len() - 9];
            let answer = build_control(block, wish, &before);
            checks.equal("best of every page", answer, expected);
        }
    }

    /// Over every page: the settings that are reached, and how best.
    fn best_pages(&self, block: &[u8]) -> BTreeMap<Vec<u8>, (usize, Vec<u8>)> {
        let mut best = BTreeMap::new();
        for page in self.every_page() {
            let answer = apply_control(block, &page);
            if answer.number == 0 {
                let reached = settings_of(answer.record());
                let this = (selects_on(&page), page);
                let least = best.entry(reached).or_insert_with(|| this.clone());
                if this < *least {
                    *least = this;
                }
            }
        }
        best
    }

    fn every_page(&self) -> impl Iterator<Item = Vec<u8>> {
        let mut choices = Vec::new();
        for few in self.types {
            choices.extend(vec![control_elements(few); 1 + few.count]);
        }
        let bytes1 = self.bytes1;
        every_choice(&choices)
            .into_iter()
            .flat_map(move |elements| {
                bytes1.iter().map(move |byte1| {
                    let header = [0x02, *byte1, 0, 4 + elements.len() as u8, 0, 0, 0, 7];
                    [&header[..], &elements].concat()
                })
            })
    }
}

/// One of each list, one after the other, in every way.
fn every_choice(lists: &[Vec<[u8; 4]>]) -> Vec<Vec<u8>> {
    let mut every = vec![Vec::new()];
    for list in lists {
        let longer = |front: &Vec<u8>| -> Vec<Vec<u8>> {
            let with = |next: &[u8; 4]| [&front[..], next].concat();
            list.iter().map(with).collect()
        };
        every = every.iter().flat_map(longer).collect();
    }
    every
}

fn selects_on(page: &[u8]) -> usize {
    let elements = page[8..].chunks(4);
    elements.map(|element| usize::from(element[0] >> 7)).sum()
}

/// What any page brings about can be wished, and no other page is better than the one built for it.
fn laws(checks: &mut Checks) {
    let mut rng = Rng::new(SEED);
    for _ in 0..ROUNDS {
        let shelf = cases::shelf(&mut rng);
        let before = shelf.block();
        let any_page = control::accepted_page(&mut rng, &shelf);
        let after = apply_control(&before, &any_page);
        let wish = settings_of(after.record());
        let answer = build_control(&before, &wish, &vec![BEFORE; any_page.len()]);
        checks.equal("a wish that a page reaches", answer.number, 0);
        let calm = without_limits(shelf).block();
        let alike = build_control(&calm, &wish, &vec![BEFORE; any_page.len()]);
        checks.equal("no limit has a say", &alike, &answer);
        let page = &answer.bytes[9..];
        checks.equal("as any page", apply_control(&before, page), after);
        let (this, other) = (selects_on(page), selects_on(&any_page));
        checks.equal("SELECTs told", answer.selects(), this);
        let not_after = (this, page) <= (other, &any_page[..]);
        checks.equal("not better than the one built", not_after, true);
    }
}
