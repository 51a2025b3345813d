//! Wishes for the builder of control pages.

use super::acting::slots;
use super::case::{output_length, page_written, Case, Offer};
use super::changes::flip_bit;
use super::control::{every_setting, every_single_bit, named, with_settings};
use super::flaws::break_block;
use super::shapes::{between_two, one_of_each, shelf, some_of_each};
use super::wishes::{all_changed, any_setting, as_stored, Few, Pair, Pattern, PATTERNS, SWAP};
use crate::cases::{group, malformed_block, one_type, shelf_of};
use crate::limits::{element_at, element_page_bytes, most_elements_of, MOST_ELEMENTS, TYPES_AT};
use crate::pages::builder::selects;
use crate::pages::calls::BUILD_CONTROL;
use crate::record::{Kind, Shelf};
use crate::rng::Rng;

const SMALL: [Few; 14] = [
    Few::new(Kind::Cooling, 3, 0x0000_0021, 0x0000_0006),
    Few::new(Kind::Cooling, 3, 0x0000_0001, 0x1000_0002),
    Few::new(Kind::Cooling, 3, 0x0000_0002, 0x0080_0001),
    Few::new(Kind::Cooling, 2, 0x0000_0024, 0x1080_0001),
    Few::new(Kind::Cooling, 2, 0x0000_0004, 0x4000_0060),
    Few::new(Kind::Cooling, 5, 0x0000_0024, 0x0000_0001),
    Few::new(Kind::Temperature, 1, 0x0000_0000, 0x70C0_0000),
    Few::new(Kind::Temperature, 3, 0x0000_0000, 0x1080_0000),
    Few::new(Kind::Voltage, 1, 0x0000_0000, 0x70C0_0000),
    Few::new(Kind::Voltage, 3, 0x0000_0000, 0x1040_0000),
    Few::new(Kind::Voltage, 5, 0x0000_0000, 0x2000_0000),
    Few::new(Kind::Current, 1, 0x0000_0000, 0x70C0_0000),
    Few::new(Kind::Current, 3, 0x0000_0000, 0x5000_0000),
    Few::new(Kind::Current, 5, 0x00C0_0000, 0x1000_0000),
];

pub fn offer_all(rng: &mut Rng, offer: Offer) {
    for pattern in PATTERNS {
        for _ in 0..800 {
            let shelf = few_of_few(rng);
            offer(Wish::of(rng, &shelf, &[pattern]).case(rng));
        }
        for _ in 0..250 {
            let shelf = shelf(rng);
            offer(Wish::of(rng, &shelf, &[pattern]).case(rng));
        }
    }
    for _ in 0..3_000 {
        let shelf = shelf(rng);
        offer(Wish::of(rng, &shelf, &PATTERNS).case(rng));
    }
    for few in &SMALL {
        every_wish(rng, few, offer);
    }
    every_wish_of_a_fan(rng, offer);
    for kind in Kind::ALL {
        for _ in 0..4 {
            some_of_alike(rng, kind, offer);
        }
        every_bit(rng, kind, offer);
    }
    refused(rng, offer);
}

fn refused(rng: &mut Rng, offer: Offer) {
    for _ in 0..1_500 {
        offer(swap_not_stored(rng));
        offer(other_list(rng));
        offer(other_shelf(rng));
    }
    for _ in 0..60 {
        flaws_together(rng, offer);
    }
    for _ in 0..2 {
        every_value_of_every_byte(rng, offer);
        every_list_length(rng, offer);
        every_output_length(rng, offer);
    }
    every_shelf_length(rng, offer);
}

/// A shelf block, the list of settings wanted for it, and how long a page for the shelf is.
struct Wish {
    block: Vec<u8>,
    wanted: Vec<u8>,
    page: usize,
}

impl Wish {
    /// Each type has one of the patterns.
    fn of(rng: &mut Rng, shelf: &Shelf, patterns: &[Pattern]) -> Wish {
        let mut pairs = Vec::new();
        for group in &shelf.groups {
            let pattern = rng.pick(patterns);
            pairs.extend(pattern(rng, group.kind, group.elements.len()));
        }
        Wish::from(shelf, &pairs)
    }

    fn from(shelf: &Shelf, pairs: &[Pair]) -> Wish {
        let stored: Vec<u32> = pairs.iter().map(|pair| pair.stored).collect();
        let wanted = pairs.iter().map(|pair| pair.wanted.to_be_bytes());
        Wish {
            block: with_settings(shelf, &stored),
            wanted: wanted.collect::<Vec<_>>().concat(),
            page: element_page_bytes(slots(shelf).len()),
        }
    }

    /// With an output buffer of a telling length.
    fn case(self, rng: &mut Rng) -> Case {
        let length = output_length(rng, self.page);
        self.case_with(rng, length)
    }

    fn roomy_case(self, rng: &mut Rng) -> Case {
        let length = self.page + rng.range(0, 8);
        self.case_with(rng, length)
    }

    fn case_with(self, rng: &mut Rng, output_length: usize) -> Case {
        Case {
            call: &BUILD_CONTROL,
            inputs: vec![self.block, self.wanted],
            lent: rng.bytes(output_length),
        }
    }

    fn elements(&self) -> usize {
        self.wanted.len() / 4
    }
}

/// Up to three types with up to six elements each.
fn few_of_few(rng: &mut Rng) -> Shelf {
    let mut groups = Vec::new();
    for _ in 0..rng.range(1, 3) {
        let (kind, count) = (rng.pick(&Kind::ALL), rng.range(0, 6));
        groups.push(group(rng, kind, count));
    }
    shelf_of(rng, groups)
}

fn any_shelf(rng: &mut Rng) -> Shelf {
    if rng.one_in(2) {
        shelf(rng)
    } else {
        few_of_few(rng)
    }
}

/// Every wish over all that can be stored.
fn every_wish(rng: &mut Rng, few: &Few, offer: Offer) {
    let shelf = one_type(rng, few.kind, few.count);
    every_wish_over(rng, &shelf, few, offer);
}

pub fn every_wish_over(rng: &mut Rng, shelf: &Shelf, few: &Few, offer: Offer) {
    let lists = lists_of(&few.settings(), few.count);
    for stored in &lists {
        for wanted in &lists {
            let pairs = stored.iter().zip(wanted);
            let pairs = pairs.map(|(&stored, &wanted)| Pair { stored, wanted });
            let pairs: Vec<Pair> = pairs.collect();
            offer(Wish::from(shelf, &pairs).roomy_case(rng));
        }
    }
}

/// Every list of so many of these settings.
fn lists_of(settings: &[u32], count: usize) -> Vec<Vec<u32>> {
    let mut lists = vec![Vec::new()];
    for _ in 0..count {
        let longer = |list: &Vec<u32>| -> Vec<Vec<u32>> {
            let with = |setting: &u32| [&list[..], &[*setting]].concat();
            settings.iter().map(with).collect()
        };
        lists = lists.iter().flat_map(longer).collect();
    }
    lists
}

/// Each setting of a fan is wanted over each that it can have, but for SWAP over none.
fn every_wish_of_a_fan(rng: &mut Rng, offer: Offer) {
    let settings = every_setting(Kind::Cooling);
    for stored in settings.chunks(most_elements_of(1)) {
        let shelf = one_type(rng, Kind::Cooling, stored.len());
        for turn in 0..settings.len() {
            let wanted = settings.iter().cycle().skip(turn);
            let pairs = stored.iter().zip(wanted);
            let pairs = pairs.map(|(&stored, &wanted)| Pair::reachable(stored, wanted));
            let pairs: Vec<Pair> = pairs.collect();
            offer(Wish::from(&shelf, &pairs).roomy_case(rng));
        }
    }
}

/// Of elements that are alike, so many change in the same way and the others stay. A SELECT for each that
/// changes is more than, as much as or less than an overall one and one for each that stays.
fn some_of_alike(rng: &mut Rng, kind: Kind, offer: Offer) {
    for count in 1..=8 {
        for changed in 0..=count {
            let wish = changed_of_alike(rng, kind, count, changed);
            let case = wish.roomy_case(rng);
            let page = page_written(case.call, &case.inputs);
            let fewest = changed.min(1 + count - changed);
            assert_eq!(selects(&page), fewest, "{changed} of {count} {kind:?}");
            if fewest == changed {
                assert_eq!(page[8..12], [0; 4], "{changed} of {count} {kind:?}");
            }
            offer(case);
        }
    }
}

fn changed_of_alike(rng: &mut Rng, kind: Kind, count: usize, changed: usize) -> Wish {
    let shelf = one_type(rng, kind, count);
    let stored = any_setting(rng, kind);
    let stays = Pair::reachable(stored, stored);
    let mut changes = stays;
    while changes.wanted == stored {
        changes = Pair::reachable(stored, any_setting(rng, kind));
    }
    let mut pairs = [vec![changes; changed], vec![stays; count - changed]].concat();
    pairs.rotate_right(rng.range(0, count));
    Wish::from(&shelf, &pairs)
}

/// Each bit in turn is wanted of each element of a type.
fn every_bit(rng: &mut Rng, kind: Kind, offer: Offer) {
    for place in 0..3 {
        for bit in every_single_bit() {
            let shelf = between_two(rng, kind, 3);
            let mut wish = Wish::of(rng, &shelf, &[as_stored, all_changed]);
            let at = 4 * (shelf.groups[0].elements.len() + place);
            for (byte, set) in wish.wanted[at..at + 4].iter_mut().zip(bit.to_be_bytes()) {
                *byte |= set;
            }
            let case = wish.roomy_case(rng);
            let refused = case.answer().number == 9;
            assert_eq!(refused, named(kind) & bit == 0, "{kind:?}, {bit:08X}");
            offer(case);
        }
    }
}

/// One or a few elements of a shelf should get a SWAP.
fn swap_not_stored(rng: &mut Rng) -> Case {
    let shelf = any_shelf(rng);
    let mut wish = Wish::of(rng, &shelf, &PATTERNS);
    if wish.elements() > 0 {
        for _ in 0..rng.pick(&[1, 1, 1, 3]) {
            want_swap(&mut wish, rng);
        }
    }
    wish.case(rng)
}

/// A list that is too short or too long, or has another record.
fn other_list(rng: &mut Rng) -> Case {
    let shelf = any_shelf(rng);
    let mut wish = Wish::of(rng, &shelf, &PATTERNS);
    let length = wish.wanted.len();
    let any = rng.range(0, 4 * MOST_ELEMENTS + 44);
    let lengths = [
        0,
        1,
        4,
        length.saturating_sub(1),
        length.saturating_sub(4),
        length + 1,
        length + 4,
        length + 256,
        length + 1_024,
        length + 65_536,
        any,
    ];
    match rng.range(0, 4) {
        0 | 1 => {
            let record = any_setting(rng, Kind::Temperature).to_be_bytes();
            let other = rng.pick(&lengths);
            wish.wanted.truncate(other);
            let more = record.into_iter().cycle().take(other - wish.wanted.len());
            wish.wanted.extend(more);
        }
        2 if length > 0 => wish.wanted[rng.range(0, length - 1)] = rng.byte(),
        3 if length > 0 => other_record(&mut wish, rng),
        _ => wish.wanted = rng.bytes(length),
    }
    wish.case(rng)
}

/// A shelf that is broken, or one that the list was not made for.
fn other_shelf(rng: &mut Rng) -> Case {
    let of = shelf(rng);
    let mut wish = Wish::of(rng, &of, &PATTERNS);
    let block = &mut wish.block;
    match rng.range(0, 5) {
        0 => *block = shelf(rng).block(),
        1 => *block = malformed_block(rng),
        2 => break_block(block, rng),
        3 => block[rng.range(0, TYPES_AT - 1)] ^= 1 << rng.range(0, 7),
        _ => flip_bit(block, TYPES_AT, rng),
    }
    wish.case(rng)
}

/// The reasons for all refusals in every combination, of which the first has to be the answer.
fn flaws_together(rng: &mut Rng, offer: Offer) {
    for chosen in 0..16 {
        let numbers = [(0, 1), (1, 9), (2, 10), (3, 11)].into_iter();
        let numbers = numbers.filter(|(place, _)| chosen >> place & 1 == 1);
        let numbers: Vec<u8> = numbers.map(|(_, number)| number).collect();
        let case = with_flaws(rng, &numbers);
        let first = numbers.first().copied().unwrap_or(0);
        assert_eq!(case.answer().number, first, "flaws {numbers:?}");
        offer(case);
    }
}

/// The reason for each of these refusals, the last one's first.
fn with_flaws(rng: &mut Rng, numbers: &[u8]) -> Case {
    let shelf = some_of_each(rng);
    let mut wish = Wish::of(rng, &shelf, &PATTERNS);
    let mut room = wish.page + rng.range(0, 8);
    for number in numbers.iter().rev() {
        match number {
            1 => break_block(&mut wish.block, rng),
            9 => not_a_list(&mut wish, rng),
            10 => want_swap(&mut wish, rng),
            _ => room = rng.pick(&[0, 1, 8, wish.page - 4, wish.page - 1]),
        }
    }
    wish.case_with(rng, room)
}

/// One element should get the SWAP that it does not have.
fn want_swap(wish: &mut Wish, rng: &mut Rng) {
    let element = rng.range(0, wish.elements() - 1);
    let [swap, ..] = SWAP.to_be_bytes();
    wish.block[element_at(element)] &= !swap;
    wish.wanted[4 * element] |= swap;
}

fn not_a_list(wish: &mut Wish, rng: &mut Rng) {
    let length = wish.wanted.len();
    match rng.range(0, 5) {
        0 => wish.wanted.clear(),
        1 => wish.wanted.truncate(length - rng.pick(&[1, 4])),
        2 => wish.wanted.extend(vec![0; rng.pick(&[1, 4])]),
        _ => other_record(wish, rng),
    }
}

/// One record gets a bit that no type has there, or one that another type has.
fn other_record(wish: &mut Wish, rng: &mut Rng) {
    let element = rng.range(0, wish.elements() - 1);
    let bits = &mut wish.wanted[4 * element..4 * element + 4];
    let fan = wish.block[element_at(element) + 3] & 0x07 != 0;
    match (rng.range(0, 3), fan) {
        (0, _) => bits[0] |= 0x80,
        (1, _) => bits[rng.range(1, 2)] |= 1 << rng.range(0, 5),
        (2, true) => bits[3] &= 0xF8,
        (_, true) => bits[1] |= 0x40,
        (_, false) => bits[3] |= rng.pick(&[0x01, 0x03, 0x20, 0x40]),
    }
}

fn every_value_of_every_byte(rng: &mut Rng, offer: Offer) {
    let shelf = one_of_each(rng);
    for at in 0..16 {
        for value in 0..=255 {
            let mut wish = Wish::of(rng, &shelf, &PATTERNS);
            wish.wanted[at] = value;
            offer(wish.roomy_case(rng));
        }
    }
}

fn every_list_length(rng: &mut Rng, offer: Offer) {
    for shelf in [one_of_each(rng), one_type(rng, Kind::Voltage, 0)] {
        for length in 0..40 {
            let mut wish = Wish::of(rng, &shelf, &[as_stored]);
            wish.wanted.resize(length, 0);
            offer(wish.roomy_case(rng));
        }
    }
}

fn every_output_length(rng: &mut Rng, offer: Offer) {
    let full = one_type(rng, Kind::Cooling, most_elements_of(1));
    for shelf in [one_of_each(rng), one_type(rng, Kind::Current, 0), full] {
        let page = element_page_bytes(slots(&shelf).len());
        for length in 0..page + 8 {
            let wish = Wish::of(rng, &shelf, &PATTERNS);
            offer(wish.case_with(rng, length));
        }
    }
}

fn every_shelf_length(rng: &mut Rng, offer: Offer) {
    let shelf = one_of_each(rng);
    let length = shelf.block().len();
    for length in 0..length + 20 {
        let mut wish = Wish::of(rng, &shelf, &PATTERNS);
        wish.block.resize(length, 0);
        offer(wish.roomy_case(rng));
    }
}
