//! Threshold Out pages.

use super::acting::{aimed, put, slots, Actor, Chance, Slot, AIMS};
use super::case::{Case, Offer};
use super::changes::with_every_quadruple;
use super::flaws::Attempt;
use super::shapes::{between_two, one_of_each, shelf};
use crate::cases::{element, group, one_type, shelf_of};
use crate::pages::calls::APPLY_THRESHOLDS;
use crate::record::{Element, Kind, Shelf, Thresholds};
use crate::rng::Rng;
use std::array::from_fn;
use std::iter::zip;

pub static THRESHOLD_OUT: Actor = Actor {
    call: &APPLY_THRESHOLDS,
    code: 0x05,
    accepted: accepted_page,
    flaws: &[(6, byte1_set), (7, threshold_not_had), (8, out_of_order)],
};

pub fn offer_all(rng: &mut Rng, offer: Offer) {
    THRESHOLD_OUT.offer_spoiled(rng, offer);
    for pair in PAIRS {
        every_mix_of_zeros(rng, pair, offer);
        for _ in 0..6 {
            every_mix_in_one_of_many(rng, pair, offer);
        }
    }
    for kind in Kind::ALL {
        for _ in 0..4 {
            every_single_byte(rng, kind, offer);
        }
        for _ in 0..1_500 {
            offer(few_elements(rng, kind));
        }
    }
    for _ in 0..500 {
        offer(as_stored(rng));
    }
    every_quadruple(rng, offer);
}

pub fn offending(rng: &mut Rng) -> Case {
    THRESHOLD_OUT.offending(rng)
}

/// Two bytes of a type that have an order: where the one stands that is at least the other.
#[derive(Clone, Copy)]
struct Pair {
    kind: Kind,
    above: usize,
    below: usize,
}

const PAIRS: [Pair; 5] = [
    Pair {
        kind: Kind::Temperature,
        above: 0,
        below: 1,
    },
    Pair {
        kind: Kind::Temperature,
        above: 2,
        below: 3,
    },
    Pair {
        kind: Kind::Voltage,
        above: 0,
        below: 1,
    },
    Pair {
        kind: Kind::Voltage,
        above: 3,
        below: 2,
    },
    Pair {
        kind: Kind::Current,
        above: 0,
        below: 1,
    },
];

/// How many of the four bytes the type has, from the first on.
fn had(kind: Kind) -> usize {
    match kind {
        Kind::Cooling => 0,
        Kind::Temperature | Kind::Voltage => 4,
        Kind::Current => 2,
    }
}

fn keeps_order(element: &Element, overall: [u8; 4], individual: [u8; 4]) -> bool {
    let [overall, individual] = [overall, individual].map(Thresholds::from_bytes);
    let after = element.thresholds().joined(overall, individual);
    after.keep_order(element.kind())
}

/// Nonzero bytes in order, wherever the type has a byte.
fn in_order(rng: &mut Rng, kind: Kind) -> [u8; 4] {
    let mut bytes = [0; 4];
    for pair in PAIRS.iter().filter(|pair| pair.kind == kind) {
        let (one, other) = (rng.nonzero_byte(), rng.nonzero_byte());
        bytes[pair.above] = one.max(other);
        bytes[pair.below] = one.min(other);
    }
    bytes
}

/// Any bytes that the type has, half of them zero.
fn any_had(rng: &mut Rng, kind: Kind) -> [u8; 4] {
    from_fn(|at| {
        if at >= had(kind) || rng.one_in(2) {
            0
        } else {
            rng.byte()
        }
    })
}

/// A page that the shelf accepts: where overall and stored bytes would break the order, the element has an
/// individual one that keeps it.
pub fn accepted_page(rng: &mut Rng, shelf: &Shelf) -> Vec<u8> {
    let (overall_chance, individual_chance) = (Chance::any(rng), Chance::any(rng));
    let mut elements = Vec::new();
    for group in &shelf.groups {
        let overall = perhaps_asked(rng, group.kind, overall_chance);
        elements.push(overall);
        for element in &group.elements {
            let individual = perhaps_asked(rng, group.kind, individual_chance);
            if keeps_order(element, overall, individual) {
                elements.push(individual);
            } else {
                elements.push(in_order(rng, group.kind));
            }
        }
    }
    page_of(shelf, &elements)
}

fn perhaps_asked(rng: &mut Rng, kind: Kind, chance: Chance) -> [u8; 4] {
    if chance.comes(rng) {
        any_had(rng, kind)
    } else {
        [0; 4]
    }
}

pub fn page_of(shelf: &Shelf, elements: &[[u8; 4]]) -> Vec<u8> {
    let mut page = THRESHOLD_OUT.blank(shelf);
    for (slot, element) in zip(slots(shelf), elements) {
        put(&mut page, slot, *element);
    }
    page
}

fn byte1_set(attempt: &mut Attempt, rng: &mut Rng) {
    attempt.page()[1] = rng.nonzero_byte();
}

fn threshold_not_had(attempt: &mut Attempt, rng: &mut Rng) {
    set_one_not_had(attempt, rng, &slots(&attempt.shelf));
}

/// In one of these elements.
pub fn set_one_not_had(attempt: &mut Attempt, rng: &mut Rng, slots: &[Slot]) {
    let lacking = slots.iter().filter(|slot| had(slot.kind) < 4);
    let slot = rng.pick(&lacking.copied().collect::<Vec<Slot>>());
    let at = slot.at + rng.range(had(slot.kind), 3);
    attempt.page()[at] = rng.nonzero_byte();
}

/// An individual element whose own two bytes are out of order.
pub fn out_of_order(attempt: &mut Attempt, rng: &mut Rng) {
    let pair = rng.pick(&PAIRS);
    let of_pair = |slot: &Slot| slot.kind == pair.kind && !slot.overall;
    let slots: Vec<Slot> = slots(&attempt.shelf).into_iter().filter(of_pair).collect();
    let slot = rng.pick(&slots);
    let smaller = rng.range(1, 254);
    attempt.page()[slot.at + pair.above] = smaller as u8;
    attempt.page()[slot.at + pair.below] = rng.range(smaller + 1, 255) as u8;
}

/// Individual, overall and stored bytes are each zero, one number or the next, for both bytes of the pair.
fn every_mix_of_zeros(rng: &mut Rng, pair: Pair, offer: Offer) {
    for number in [1, 127, 254] {
        for [individual, overall, stored] in three_times(&pairs_of([0, number, number + 1])) {
            let mut one = element(rng, pair.kind);
            let mut thresholds = one.thresholds().bytes();
            pair.put(&mut thresholds, stored);
            *one.thresholds_mut() = Thresholds::from_bytes(thresholds);
            let mut group = group(rng, pair.kind, 0);
            group.add(one);
            let shelf = shelf_of(rng, vec![group]);
            let mut elements = [[0; 4]; 2];
            pair.put(&mut elements[0], overall);
            pair.put(&mut elements[1], individual);
            offer(THRESHOLD_OUT.case(&shelf, page_of(&shelf, &elements)));
        }
    }
}

impl Pair {
    fn put(&self, bytes: &mut [u8; 4], [above, below]: [u8; 2]) {
        bytes[self.above] = above;
        bytes[self.below] = below;
    }
}

fn pairs_of(values: [u8; 3]) -> Vec<[u8; 2]> {
    let pairs_with = |first: u8| values.map(|second| [first, second]);
    values.into_iter().flat_map(pairs_with).collect()
}

fn three_times(choices: &[[u8; 2]]) -> Vec<[[u8; 2]; 3]> {
    let mut chosen = Vec::new();
    for first in choices {
        for second in choices {
            for third in choices {
                chosen.push([*first, *second, *third]);
            }
        }
    }
    chosen
}

/// Where the byte that an element ends up with comes from.
#[derive(Clone, Copy, Debug, PartialEq, Eq)]
enum Source {
    Individual,
    Overall,
    Stored,
}

/// One element among many gets the two bytes of the pair from any two sources, in order, equal or just out of
/// order. All others keep the order.
fn every_mix_in_one_of_many(rng: &mut Rng, pair: Pair, offer: Offer) {
    let sources = [Source::Individual, Source::Overall, Source::Stored];
    for above in sources {
        for below in sources {
            for step in [0, 1, 2] {
                mix_in_each(rng, pair, [above, below], step, offer);
            }
        }
    }
}

/// The first, the last or another element gets the mix; none if it had to be stored out of order.
fn mix_in_each(rng: &mut Rng, pair: Pair, sources: [Source; 2], step: u8, offer: Offer) {
    if step == 2 && sources == [Source::Stored; 2] {
        return;
    }
    let count = rng.range(1, 12);
    for place in [0, count / 2, count - 1] {
        offer(mix_in_one(rng, pair, sources, step, count, place));
    }
}

/// With step 2 the byte below is one greater than the byte above, with step 1 they are equal.
fn mix_in_one(
    rng: &mut Rng,
    pair: Pair,
    sources: [Source; 2],
    step: u8,
    count: usize,
    place: usize,
) -> Case {
    let above = rng.range(2, 254) as u8;
    let mut mix = Mix::new(rng, pair);
    mix.take(pair.above, sources[0], above);
    mix.take(pair.below, sources[1], above - 1 + step);
    while !mix.stored.keep_order(pair.kind) {
        mix.stored_anew(rng, pair, sources);
    }
    let mut shelf = between_two(rng, pair.kind, 0);
    let mut individual = Vec::new();
    for other in 0..count {
        let (element, own) = if other == place {
            (mix.element(rng, pair.kind), mix.individual)
        } else {
            keeper(rng, pair.kind, mix.overall)
        };
        shelf.groups[1].add(element);
        individual.push(own);
    }
    let before = shelf.groups[0].elements.len();
    let mut elements = vec![[0; 4]; 1 + before];
    elements.push(mix.overall);
    elements.extend(individual);
    let case = THRESHOLD_OUT.case(&shelf, page_of(&shelf, &elements));
    let number = if step == 2 { 8 } else { 0 };
    assert_eq!(case.answer().number, number, "{:?}, {sources:?}", pair.kind);
    case
}

/// The bytes from which one element gets its own.
struct Mix {
    individual: [u8; 4],
    overall: [u8; 4],
    stored: Thresholds,
}

impl Mix {
    /// In overall and stored bytes stands anything.
    fn new(rng: &mut Rng, pair: Pair) -> Mix {
        let mut overall = [0; 4];
        pair.put(&mut overall, [rng.byte(), rng.byte()]);
        Mix {
            individual: [0; 4],
            overall,
            stored: element(rng, pair.kind).thresholds(),
        }
    }

    /// Nothing stands before the source.
    fn take(&mut self, at: usize, source: Source, value: u8) {
        match source {
            Source::Individual => self.individual[at] = value,
            Source::Overall => self.overall[at] = value,
            Source::Stored => {
                self.overall[at] = 0;
                let mut stored = self.stored.bytes();
                stored[at] = value;
                self.stored = Thresholds::from_bytes(stored);
            }
        }
    }

    /// Other stored bytes where the pair does not come from them.
    fn stored_anew(&mut self, rng: &mut Rng, pair: Pair, [above, below]: [Source; 2]) {
        let mut stored = self.stored.bytes();
        for (at, source) in [(pair.above, above), (pair.below, below)] {
            if source != Source::Stored {
                stored[at] = rng.byte();
            }
        }
        self.stored = Thresholds::from_bytes(stored);
    }

    fn element(&self, rng: &mut Rng, kind: Kind) -> Element {
        let mut made = element(rng, kind);
        *made.thresholds_mut() = self.stored;
        made
    }
}

/// An element that keeps the order, if possible with no individual bytes.
fn keeper(rng: &mut Rng, kind: Kind, overall: [u8; 4]) -> (Element, [u8; 4]) {
    for _ in 0..20 {
        let made = element(rng, kind);
        if keeps_order(&made, overall, [0; 4]) {
            return (made, [0; 4]);
        }
    }
    (element(rng, kind), in_order(rng, kind))
}

/// Each of the four bytes of each element of a type is set by itself.
fn every_single_byte(rng: &mut Rng, kind: Kind, offer: Offer) {
    for aim in AIMS {
        for at in 0..4 {
            for value in [1, 255, rng.nonzero_byte()] {
                let (shelf, slot) = aimed(rng, kind, aim);
                let mut page = THRESHOLD_OUT.blank(&shelf);
                page[slot.at + at] = value;
                let case = THRESHOLD_OUT.case(&shelf, page);
                let refused = case.answer().number == 7;
                assert_eq!(refused, at >= had(kind), "{kind:?}, byte {at}");
                offer(case);
            }
        }
    }
}

/// One type with up to three elements; three elements of the page in four have no byte that the type lacks.
fn few_elements(rng: &mut Rng, kind: Kind) -> Case {
    let count = rng.range(1, 3);
    let shelf = one_type(rng, kind, count);
    let mut page = THRESHOLD_OUT.blank(&shelf);
    for slot in slots(&shelf) {
        let bytes = match rng.range(0, 7) {
            0 => any_had(rng, Kind::Voltage),
            1 => from_fn(|_| rng.byte()),
            2 | 3 => any_had(rng, kind),
            _ => [0; 4],
        };
        put(&mut page, slot, bytes);
    }
    THRESHOLD_OUT.case(&shelf, page)
}

/// Each element is asked for what it has.
fn as_stored(rng: &mut Rng) -> Case {
    let shelf = shelf(rng);
    let mut page = THRESHOLD_OUT.blank(&shelf);
    let individual = slots(&shelf).into_iter().filter(|slot| !slot.overall);
    for (slot, element) in zip(individual, shelf.elements()) {
        put(&mut page, slot, element.thresholds().bytes());
    }
    THRESHOLD_OUT.case(&shelf, page)
}

/// Each element of a page in turn.
fn every_quadruple(rng: &mut Rng, offer: Offer) {
    for place in 0..slots(&one_of_each(rng)).len() {
        let shelf = one_of_each(rng);
        let slot = slots(&shelf)[place];
        for page in with_every_quadruple(&THRESHOLD_OUT.blank(&shelf), slot.at) {
            offer(THRESHOLD_OUT.case(&shelf, page));
        }
    }
}
