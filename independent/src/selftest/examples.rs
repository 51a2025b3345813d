//! Shelf A, and shelves, elements and requests like those of the paper's examples.

use crate::limits::{
    element_at, ELEMENTS_AT, MOST_ELEMENTS, MOST_OF_TYPE, MOST_TYPES, SLOTS_AT, SLOT_BYTES,
};
use crate::pages::calls::Answer;
use crate::record::{
    Element, FanSettings, Group, Identification, Kind, Settings, Shelf, Thresholds,
};
use std::ops::Range;

/// Memory before a call.
pub const BEFORE: u8 = 0xA5;

pub const UNSELECTED: [u8; 4] = [0; 4];
pub const SPEED_5: [u8; 4] = [0x80, 0x00, 0x00, 0x25];
pub const IDENT: [u8; 4] = [0x80, 0x80, 0x00, 0x20];
pub const RST_SWAP: [u8; 4] = [0x90, 0x00, 0x00, 0x20];
/// Every bit but SELECT.
pub const NOISE: [u8; 4] = [0x7F, 0xFF, 0xFF, 0xFF];

pub const SWAP: Settings = Settings {
    prdfail: false,
    disabled: false,
    swap: true,
    ident: false,
    fail: false,
};

pub const ALL_FLAGS: Settings = Settings {
    prdfail: true,
    disabled: true,
    swap: true,
    ident: true,
    fail: true,
};

pub const FAIL: Settings = Settings {
    prdfail: false,
    disabled: false,
    swap: false,
    ident: false,
    fail: true,
};

pub const ALL_BUT_FAIL: Settings = Settings {
    fail: false,
    ..ALL_FLAGS
};

/// A fan as in shelf A, but for its speed code.
pub fn fan(speed: u8) -> Element {
    fan_with(Settings::default(), speed)
}

pub fn fan_with(common: Settings, speed: u8) -> Element {
    fan_like(common, speed, 120)
}

pub fn fan_at(reading: u16) -> Element {
    fan_like(Settings::default(), 3, reading)
}

pub fn fan_like(common: Settings, speed: u8, reading: u16) -> Element {
    Element::Cooling {
        settings: FanSettings {
            common,
            on: true,
            speed,
        },
        thresholds: Thresholds::default(),
        reading,
        nominal: 0,
    }
}

/// The fan, but not ON.
pub fn stopped(mut fan: Element) -> Element {
    if let Element::Cooling { settings, .. } = &mut fan {
        settings.on = false;
    }
    fan
}

/// The element with these settings, and a fan's ON and SPEED as they are.
pub fn set_to(common: Settings, mut element: Element) -> Element {
    match &mut element {
        Element::Cooling { settings, .. } => settings.common = common,
        Element::Temperature { settings, .. }
        | Element::Voltage { settings, .. }
        | Element::Current { settings, .. } => *settings = common,
    }
    element
}

/// Three fans of a shelf like A, stored and wanted; the best page's elements, and the SELECTs among them.
pub struct Example {
    pub what: &'static str,
    pub stored: [Element; 3],
    pub wanted: [Element; 3],
    pub elements: [[u8; 4]; 4],
    pub selects: u8,
}

pub fn wishes_of_the_paper() -> impl Iterator<Item = Example> {
    speeds_wanted().into_iter().chain(settings_wanted())
}

fn speeds_wanted() -> [Example; 3] {
    [
        Example {
            what: "speed 5 for all",
            stored: fans_a(),
            wanted: [fan(5), fan(5), fan(5)],
            elements: [SPEED_5, UNSELECTED, UNSELECTED, UNSELECTED],
            selects: 1,
        },
        Example {
            what: "speed 5 for the middle fan",
            stored: fans_a(),
            wanted: [fan(3), fan(5), fan(3)],
            elements: [UNSELECTED, UNSELECTED, SPEED_5, UNSELECTED],
            selects: 1,
        },
        Example {
            what: "speed 5 for the first two",
            stored: fans_a(),
            wanted: [fan(5), fan(5), fan(3)],
            elements: [UNSELECTED, SPEED_5, SPEED_5, UNSELECTED],
            selects: 2,
        },
    ]
}

fn settings_wanted() -> [Example; 3] {
    let ident = Settings {
        ident: true,
        ..Settings::default()
    };
    [
        Example {
            what: "speeds 3, 4, 5, IDENT for all",
            stored: [fan(3), fan(4), fan(5)],
            wanted: [3, 4, 5].map(|speed| fan_with(ident, speed)),
            elements: [IDENT, UNSELECTED, UNSELECTED, UNSELECTED],
            selects: 1,
        },
        Example {
            what: "SWAP of the first fan cleared",
            stored: [fan_with(SWAP, 3), fan(3), fan(3)],
            wanted: fans_a(),
            elements: [UNSELECTED, RST_SWAP, UNSELECTED, UNSELECTED],
            selects: 1,
        },
        Example {
            what: "as stored",
            stored: fans_a(),
            wanted: fans_a(),
            elements: [UNSELECTED; 4],
            selects: 0,
        },
    ]
}

/// The block of shelf A.
pub fn block_a() -> Vec<u8> {
    shelf_a(fans_a().to_vec()).block()
}

pub fn fans_a() -> [Element; 3] {
    [fan(3), fan(3), fan(3)]
}

pub fn temperature(reading: u16, thresholds: Thresholds) -> Element {
    Element::Temperature {
        settings: Settings::default(),
        thresholds,
        reading,
        nominal: 0,
    }
}

pub fn voltage(reading: i16, nominal: u16, thresholds: Thresholds) -> Element {
    Element::Voltage {
        settings: Settings::default(),
        thresholds,
        reading,
        nominal,
    }
}

pub fn current(reading: i16, nominal: u16, thresholds: Thresholds) -> Element {
    Element::Current {
        settings: Settings::default(),
        thresholds,
        reading,
        nominal,
    }
}

/// Sensors at their limits and past them. What is shown of each, without any setting and with a stored FAIL alone:
/// past a limit, the same.
pub fn sensors_shown() -> [(Element, u32, u32); 20] {
    let both_high = Thresholds::from_bytes([64, 64, 0, 0]);
    let all = Thresholds::from_bytes([64, 64, 10, 10]);
    [
        (temperature(64, high_warning(64)), 0x0100_4000, 0x0140_4000),
        (temperature(65, high_warning(64)), 0x0340_4104, 0x0340_4104),
        (temperature(64, high_critical(64)), 0x0100_4000, 0x0140_4000),
        (temperature(65, high_critical(64)), 0x0240_4108, 0x0240_4108),
        (temperature(65, both_high), 0x0240_410C, 0x0240_410C),
        (temperature(10, low_warning(10)), 0x0100_0A00, 0x0140_0A00),
        (temperature(9, low_warning(10)), 0x0340_0901, 0x0340_0901),
        (temperature(9, low_critical(10)), 0x0240_0902, 0x0240_0902),
        (temperature(0, all), 0x0600_0000, 0x0640_0000),
        (voltage(358, 350, high_warning(5)), 0x0100_0166, 0x0140_0166),
        (voltage(359, 350, high_warning(5)), 0x0348_0167, 0x0348_0167),
        (
            voltage(1320, 1200, high_critical(20)),
            0x0100_0528,
            0x0140_0528,
        ),
        (
            voltage(1321, 1200, high_critical(20)),
            0x0242_0529,
            0x0242_0529,
        ),
        (
            voltage(1079, 1200, low_warning(20)),
            0x0344_0437,
            0x0344_0437,
        ),
        (
            voltage(-1, 1200, low_critical(20)),
            0x0241_FFFF,
            0x0241_FFFF,
        ),
        (current(358, 350, high_warning(5)), 0x0100_0166, 0x0140_0166),
        (current(359, 350, high_warning(5)), 0x0348_0167, 0x0348_0167),
        (
            current(1320, 1200, high_critical(20)),
            0x0100_0528,
            0x0140_0528,
        ),
        (
            current(1321, 1200, high_critical(20)),
            0x0242_0529,
            0x0242_0529,
        ),
        (
            current(-1, 1200, high_critical(20)),
            0x0100_FFFF,
            0x0140_FFFF,
        ),
    ]
}

pub fn high_critical(high_critical: u8) -> Thresholds {
    Thresholds {
        high_critical,
        ..Thresholds::default()
    }
}

pub fn high_warning(high_warning: u8) -> Thresholds {
    Thresholds {
        high_warning,
        ..Thresholds::default()
    }
}

pub fn low_warning(low_warning: u8) -> Thresholds {
    Thresholds {
        low_warning,
        ..Thresholds::default()
    }
}

pub fn low_critical(low_critical: u8) -> Thresholds {
    Thresholds {
        low_critical,
        ..Thresholds::default()
    }
}

pub fn shelf_a(elements: Vec<Element>) -> Shelf {
    Shelf {
        generation: 7,
        identification: Identification {
            logical_identifier: [0; 8],
            vendor: [0; 8],
            product: [0; 16],
            revision: [0; 4],
        },
        groups: vec![group(Kind::Cooling, elements)],
    }
}

/// A shelf like A, with as many fans as a shelf may have, in as few types as may be, and the other types
/// without elements.
pub fn largest_shelf() -> Shelf {
    let mut shelf = shelf_a(Vec::new());
    let fans = vec![fan(3); MOST_ELEMENTS];
    let types = fans.chunks(MOST_OF_TYPE);
    shelf.groups = types
        .map(|fans| group(Kind::Cooling, fans.to_vec()))
        .collect();
    let nothing = group(Kind::Cooling, Vec::new());
    shelf.groups.resize(MOST_TYPES, nothing);
    shelf
}

/// No limit is left, so that no sensor has code 2 or 3.
pub fn without_limits(mut shelf: Shelf) -> Shelf {
    for group in &mut shelf.groups {
        for element in &mut group.elements {
            *element.thresholds_mut() = Thresholds::default();
        }
    }
    shelf
}

/// Where a well-formed block has its elements, one behind the other.
pub fn elements_in(block: &[u8]) -> Range<usize> {
    let slots = block[SLOTS_AT..ELEMENTS_AT].chunks(SLOT_BYTES);
    let elements = slots.map(|slot| usize::from(slot[1])).sum();
    ELEMENTS_AT..element_at(elements)
}

/// A shelf like A, with elements of this type.
pub fn shelf_a_of(kind: Kind, elements: Vec<Element>) -> Shelf {
    let mut shelf = shelf_a(Vec::new());
    shelf.groups = vec![group(kind, elements)];
    shelf
}

pub fn group(kind: Kind, elements: Vec<Element>) -> Group {
    Group::nameless(kind, b"Fan".to_vec(), elements)
}

pub fn plain(kind: Kind) -> Element {
    let none = Thresholds::default();
    match kind {
        Kind::Cooling => fan(3),
        Kind::Temperature => temperature(64, none),
        Kind::Voltage => voltage(1, 1, none),
        Kind::Current => current(1, 1, none),
    }
}

/// The answer of a call that hands back a record or shelf.
pub fn handed_back(number: u8, offset: u8, record: &[u8]) -> Answer {
    Answer {
        number,
        bytes: [&[number, 0, 0, 0, offset], record].concat(),
    }
}

/// The page with these bytes at this place.
pub fn with(page: &[u8], at: usize, bytes: &[u8]) -> Vec<u8> {
    let mut changed = page.to_vec();
    changed[at..at + bytes.len()].copy_from_slice(bytes);
    changed
}
