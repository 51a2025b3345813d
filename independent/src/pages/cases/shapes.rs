//! Well-formed shelves of all kinds.

use crate::cases::{self, element, group, groups, shelf_of, text};
use crate::element::Code;
use crate::limits::{equal_share, most_elements_of, MOST_TEXT, MOST_TYPES};
use crate::names::{letters, name_of};
use crate::record::{Element, Group, Kind, Name, Shelf, Thresholds};
use crate::rng::Rng;

const STEPS: [i64; 4] = [-1, 0, 1, 2];

pub fn shelf(rng: &mut Rng) -> Shelf {
    let mut groups = match rng.range(0, 7) {
        0 => types_without_elements(rng),
        1 => vec![one_full_type(rng)],
        2 => groups(rng, MOST_TYPES, most_elements_of(MOST_TYPES)),
        3 => twice_with_empty_types_between(rng),
        4 | 5 => types_of_chosen_codes(rng),
        _ => cases::shelf(rng).groups,
    };
    if rng.one_in(4) {
        give_equal_text_lengths(rng, &mut groups);
    }
    shelf_of(rng, groups)
}

/// One element of each type, texts of two letters and names of up to two.
pub fn one_of_each(rng: &mut Rng) -> Shelf {
    let mut groups = Kind::ALL.map(|kind| group(rng, kind, 1)).to_vec();
    for group in &mut groups {
        group.text = text(rng, 2);
    }
    let mut shelf = shelf_of(rng, groups);
    for group in &mut shelf.groups {
        group.overall_name = short_name(rng);
        group.names = vec![short_name(rng)];
    }
    shelf
}

fn short_name(rng: &mut Rng) -> Name {
    let length = rng.range(0, 2);
    let text = letters(rng, length);
    name_of(rng, &text)
}

/// A few elements of each type, in any order, some types twice and some of those without elements.
pub fn some_of_each(rng: &mut Rng) -> Shelf {
    let mut kinds = Kind::ALL.map(|kind| (kind, rng.range(1, 4))).to_vec();
    for _ in 0..rng.range(0, MOST_TYPES - Kind::ALL.len()) {
        kinds.push((rng.pick(&Kind::ALL), rng.range(0, 2)));
    }
    for place in 0..kinds.len() {
        kinds.swap(place, rng.range(0, place));
    }
    let groups = kinds.iter().map(|(kind, count)| group(rng, *kind, *count));
    let groups = groups.collect();
    shelf_of(rng, groups)
}

/// So many elements of this type, between two types that have one or none.
pub fn between_two(rng: &mut Rng, kind: Kind, count: usize) -> Shelf {
    let mut groups: Vec<Group> = Vec::new();
    for (kind, count) in [
        (rng.pick(&Kind::ALL), rng.range(0, 1)),
        (kind, count),
        (rng.pick(&Kind::ALL), rng.range(0, 1)),
    ] {
        groups.push(group(rng, kind, count));
    }
    shelf_of(rng, groups)
}

/// A full shelf of one type: each of the four limits in turn, with the reading at it and a step off.
pub fn at_limits(rng: &mut Rng, kind: Kind) -> Shelf {
    let mut full = group(rng, kind, 0);
    for place in 0..most_elements_of(1) {
        let limit = LIMITS[place % LIMITS.len()];
        let step = STEPS[place / LIMITS.len() % STEPS.len()];
        full.add(element_at_limit(rng, kind, limit, step));
    }
    shelf_of(rng, vec![full])
}

/// So many elements of this type, all with this code.
pub fn of_code(rng: &mut Rng, kind: Kind, code: Code, count: usize) -> Shelf {
    let mut group = group(rng, kind, 0);
    for _ in 0..count {
        group.add(element_of_code(rng, kind, code));
    }
    shelf_of(rng, vec![group])
}

fn types_without_elements(rng: &mut Rng) -> Vec<Group> {
    let types = rng.range(1, MOST_TYPES);
    groups(rng, types, 0)
}

fn one_full_type(rng: &mut Rng) -> Group {
    let kind = rng.pick(&Kind::ALL);
    group(rng, kind, most_elements_of(1))
}

fn twice_with_empty_types_between(rng: &mut Rng) -> Vec<Group> {
    let kind = rng.pick(&Kind::ALL);
    let between = rng.range(0, MOST_TYPES - 2);
    let half = equal_share(2);
    let (before, after) = (rng.range(1, half), rng.range(1, half));
    let mut made = groups(rng, between, 0);
    made.insert(0, group(rng, kind, before));
    made.push(group(rng, kind, after));
    made
}

fn give_equal_text_lengths(rng: &mut Rng, groups: &mut [Group]) {
    let length = rng.pick(&[0, MOST_TEXT]);
    for group in groups {
        group.text = text(rng, length);
    }
}

/// Each type has elements with a few of the possible codes only, so that each can be the worst.
fn types_of_chosen_codes(rng: &mut Rng) -> Vec<Group> {
    let types = rng.range(1, MOST_TYPES);
    (0..types).map(|_| type_of_chosen_codes(rng)).collect()
}

fn type_of_chosen_codes(rng: &mut Rng) -> Group {
    let kind = if rng.one_in(2) {
        Kind::Temperature
    } else {
        rng.pick(&Kind::ALL)
    };
    let chosen: Vec<Code> = (0..2).map(|_| rng.pick(kind.codes())).collect();
    let mut made = group(rng, kind, 0);
    for _ in 0..rng.range(1, 5) {
        let code = rng.pick(&chosen);
        made.add(element_of_code(rng, kind, code));
    }
    made
}

fn element_of_code(rng: &mut Rng, kind: Kind, code: Code) -> Element {
    loop {
        let made = element(rng, kind);
        if made.verdict().code == code {
            return made;
        }
    }
}

/// One of the four thresholds, and whether readings above it trip.
#[derive(Clone, Copy)]
struct Limit {
    of: fn(&Thresholds) -> u8,
    high: bool,
}

const LIMITS: [Limit; 4] = [
    Limit {
        of: |thresholds| thresholds.high_critical,
        high: true,
    },
    Limit {
        of: |thresholds| thresholds.high_warning,
        high: true,
    },
    Limit {
        of: |thresholds| thresholds.low_warning,
        high: false,
    },
    Limit {
        of: |thresholds| thresholds.low_critical,
        high: false,
    },
];

/// The reading is so many steps off the last one that does not trip the limit; a fan's, off 0.
fn element_at_limit(rng: &mut Rng, kind: Kind, limit: Limit, step: i64) -> Element {
    let mut made = element(rng, kind);
    while (limit.of)(&made.thresholds()) == 0 && has_limit(kind, limit) {
        made = element(rng, kind);
    }
    let byte = i64::from((limit.of)(&made.thresholds()));
    match &mut made {
        Element::Cooling { reading, .. } => *reading = step.max(0) as u16,
        Element::Temperature { reading, .. } => *reading = (byte + step).clamp(0, 255) as u16,
        Element::Voltage {
            reading, nominal, ..
        }
        | Element::Current {
            reading, nominal, ..
        } => {
            let n = i64::from(*nominal);
            let part = n * byte / 200;
            let last = if limit.high { n + part } else { n - part };
            *reading = (last + step).clamp(i16::MIN.into(), i16::MAX.into()) as i16;
        }
    }
    made
}

fn has_limit(kind: Kind, limit: Limit) -> bool {
    match kind {
        Kind::Cooling => false,
        Kind::Temperature | Kind::Voltage => true,
        Kind::Current => limit.high,
    }
}
