//! Reasons for refusals: each by itself, and all of them together.

use super::case::{Case, Offer};
use super::changes::say_own_length;
use crate::cases::{element, group};
use crate::limits::{
    configuration_page_bytes, descriptor_page_bytes, element_at, DESCRIPTOR_HEAD_BYTES, MOST_TYPES,
    PAGE_TYPES_AT, SLOTS_AT, TYPES_AT,
};
use crate::record::{self, Kind, Shelf};
use crate::rng::Rng;

/// A call on a page for this shelf.
pub struct Attempt {
    pub shelf: Shelf,
    pub case: Case,
}

/// Gives the reason for one refusal, and for none that is tested before it.
pub type Flaw = fn(&mut Attempt, &mut Rng);

/// Each with the number of its refusal, in the order of the tests.
pub type Flaws = &'static [(u8, Flaw)];

/// Those that come before refusal 6.
const HEADER: Flaws = &[
    (1, broken_block),
    (2, too_short),
    (3, other_code),
    (4, other_length_than_said),
    (12, other_length_than_needed),
    (5, other_generation),
];

impl Attempt {
    pub fn page(&mut self) -> &mut Vec<u8> {
        self.case.inputs.last_mut().expect("a page")
    }

    /// The block of the shelf or of its configuration, for a call that takes one.
    fn block(&mut self) -> &mut Vec<u8> {
        match &mut self.case.inputs[..] {
            [configuration, _page] => configuration,
            _ => &mut self.case.lent,
        }
    }

    fn give_block_of(&mut self, shelf: &Shelf) {
        *self.block() = if self.case.inputs.len() == 2 {
            shelf.configuration().block()
        } else {
            shelf.block()
        };
    }
}

/// The reasons for all refusals in every combination, of which the first has to be the answer. An attempt is for
/// a shelf that has elements of every type.
pub fn together(rng: &mut Rng, own: Flaws, attempt: impl Fn(&mut Rng) -> Attempt, offer: Offer) {
    let call = attempt(rng).case.call;
    let flaws = HEADER.iter().chain(own);
    let flaws: Vec<&(u8, Flaw)> = flaws
        .filter(|(number, _)| call.outcomes.contains(number))
        .collect();
    for chosen in 0..1_usize << flaws.len() {
        let is_chosen = |place: &usize| chosen >> place & 1 == 1;
        let places: Vec<usize> = (0..flaws.len()).filter(is_chosen).collect();
        let mut attempt = attempt(rng);
        for place in places.iter().rev() {
            let (_, flaw) = flaws[*place];
            flaw(&mut attempt, rng);
        }
        let numbers: Vec<u8> = places.iter().map(|place| flaws[*place].0).collect();
        let first = numbers.first().copied().unwrap_or(0);
        let number = attempt.case.answer().number;
        assert_eq!(number, first, "{} with flaws {numbers:?}", call.name);
        offer(attempt.case);
    }
}

/// One to four times the reason for the first of these refusals, which is 6.
pub fn offending(rng: &mut Rng, own: Flaws, mut attempt: Attempt) -> Case {
    let (number, offend) = own[0];
    for _ in 0..rng.range(1, 4) {
        offend(&mut attempt, rng);
    }
    let case = attempt.case;
    assert_eq!(case.answer().number, number, "{}", case.call.name);
    case
}

fn broken_block(attempt: &mut Attempt, rng: &mut Rng) {
    break_block(attempt.block(), rng);
}

/// Makes a well-formed block malformed, of a shelf or of a configuration.
pub fn break_block(block: &mut Vec<u8>, rng: &mut Rng) {
    match rng.range(0, 2) {
        0 => block.push(0),
        1 => block.truncate(block.len() - 1),
        _ => {
            let mut zeros = vec![TYPES_AT + 1, TYPES_AT + 2, TYPES_AT + 3, SLOTS_AT + 3];
            let elements = record::read(block).map_or(0, |shelf| shelf.elements().count());
            if elements > 0 {
                zeros.push(element_at(elements) - 1);
            }
            block[rng.pick(&zeros)] = rng.nonzero_byte();
        }
    }
}

fn too_short(attempt: &mut Attempt, rng: &mut Rng) {
    attempt.page().truncate(rng.range(0, 3));
}

fn other_code(attempt: &mut Attempt, rng: &mut Rng) {
    attempt.page()[0] ^= rng.pick(&[0x07, 0x80, 0x01, 0x03]);
}

/// The page, or its length field alone.
fn other_length_than_said(attempt: &mut Attempt, rng: &mut Rng) {
    let page = attempt.page();
    match rng.range(0, 3) {
        0 => page.truncate(page.len() - rng.range(1, 8)),
        1 => page.extend(vec![0; rng.range(1, 8)]),
        _ => page[rng.range(2, 3)] ^= 1 << rng.range(0, 7),
    }
}

/// The page says its own length, or it is another type list that it has to fit.
fn other_length_than_needed(attempt: &mut Attempt, rng: &mut Rng) {
    let page = attempt.page();
    match rng.range(0, 3) {
        0 => page.truncate(page.len() - rng.range(1, 8)),
        1 => page.extend(vec![0; rng.range(1, 8)]),
        _ if page[0] == 0x01 => announce_others(page, rng),
        2 if page[0] == 0x07 => declare_others(attempt, rng),
        _ => {
            let other = with_other_types(&attempt.shelf, rng);
            attempt.give_block_of(&other);
        }
    }
    say_own_length(attempt.page());
}

/// A configuration page gets another number of types, or another length of one's text.
fn announce_others(page: &mut [u8], rng: &mut Rng) {
    let types = usize::from(page[PAGE_TYPES_AT]);
    if types == 0 || rng.one_in(2) {
        page[PAGE_TYPES_AT] = page[PAGE_TYPES_AT].wrapping_add(rng.pick(&[1, 255]));
    } else {
        let header = configuration_page_bytes(rng.range(0, types - 1), 0);
        page[header + 3] = page[header + 3].wrapping_add(rng.nonzero_byte());
    }
}

/// The last descriptor of a page gets another length, or any of them one that is far too large.
fn declare_others(attempt: &mut Attempt, rng: &mut Rng) {
    let places = attempt.shelf.configuration().places().len();
    let page = attempt.page();
    let mut at = descriptor_page_bytes(0, 0);
    for _ in 1..places {
        if rng.one_in(places) {
            page[at + 2..at + 4].fill(0xFF);
            return;
        }
        let declared = u16::from_be_bytes([page[at + 2], page[at + 3]]);
        at += DESCRIPTOR_HEAD_BYTES + usize::from(declared);
    }
    page[at + rng.range(2, 3)] ^= rng.nonzero_byte();
}

/// An element more or less, or a type without elements more or one with its elements less.
fn with_other_types(shelf: &Shelf, rng: &mut Rng) -> Shelf {
    let mut other = shelf.clone();
    let types = other.groups.len();
    let place = rng.range(0, types - 1);
    match rng.range(0, 3) {
        0 if types < MOST_TYPES => {
            let kind = rng.pick(&Kind::ALL);
            other.groups.insert(place, group(rng, kind, 0));
        }
        1 => {
            other.groups.remove(place);
        }
        2 if !other.groups[place].elements.is_empty() => {
            other.groups[place].elements.pop();
            other.groups[place].names.pop();
        }
        _ => {
            let kind = other.groups[place].kind;
            other.groups[place].add(element(rng, kind));
        }
    }
    other
}

fn other_generation(attempt: &mut Attempt, rng: &mut Rng) {
    let generation = attempt.shelf.generation;
    let others = [
        0,
        u32::MAX,
        generation.wrapping_add(1),
        generation.wrapping_sub(1),
        generation.swap_bytes(),
        generation ^ 1 << rng.range(0, 31),
    ];
    let other = match rng.pick(&others) {
        same if same == generation => !generation,
        other => other,
    };
    attempt.page()[4..8].copy_from_slice(&other.to_be_bytes());
}
