//! Names to look for, and names to set.

use super::case::{Case, Offer};
use super::flaws::break_block;
use super::shapes::{one_of_each, shelf, some_of_each};
use crate::cases::{group, malformed_block, shelf_of};
use crate::limits::MOST_NAME;
use crate::names::{letters, name_of, nearly, no_letter, text};
use crate::pages::calls::{Call, FIND_NAME, SET_NAME, SET_OVERALL_NAME};
use crate::record::{Kind, Name, Shelf};
use crate::rng::Rng;

pub fn offer_all(rng: &mut Rng, offer: Offer) {
    for looked_for in LOOKED_FOR {
        for _ in 0..700 {
            let mut shelf = shelf(rng);
            let text = looked_for(rng, &mut shelf);
            offer(find(shelf.block(), text));
        }
    }
    for _ in 0..500 {
        offer(find_in_malformed(rng));
    }
    every_small_shelf(rng, offer);
    for setter in &SETTERS {
        for _ in 0..3_000 {
            offer(setter.any(rng));
        }
        for _ in 0..12 {
            setter.each_number(rng, offer);
        }
        for _ in 0..4 {
            setter.every_length(rng, offer);
        }
        setter.every_byte(rng, offer);
        for _ in 0..60 {
            setter.flaws_together(rng, offer);
        }
        setter.every_shelf_length(rng, offer);
    }
}

fn find(block: Vec<u8>, text: Vec<u8>) -> Case {
    Case {
        call: &FIND_NAME,
        inputs: vec![block, text],
        lent: Vec::new(),
    }
}

/// Makes a text to look for, and may change the names of the shelf for it.
type LookedFor = fn(&mut Rng, &mut Shelf) -> Vec<u8>;

const LOOKED_FOR: [LookedFor; 16] = [
    |rng, shelf| element_name(rng, shelf).letters().to_vec(),
    |rng, shelf| element_name(rng, shelf).letters().to_vec(),
    |rng, shelf| overall_name(rng, shelf).letters().to_vec(),
    only_overall,
    later_alone,
    |_, _| Vec::new(),
    |rng, shelf| letters_less(rng, shelf),
    |rng, shelf| letters_more(rng, shelf),
    |rng, shelf| {
        let name = *element_name(rng, shelf);
        nearly(rng, name.letters())
    },
    |rng, shelf| element_name(rng, shelf).0.to_vec(),
    |rng, shelf| with_the_byte_behind(rng, shelf),
    |rng, shelf| longer_by(rng, shelf, 1),
    |rng, shelf| longer_by(rng, shelf, 256),
    |rng, shelf| longer_by(rng, shelf, 65_536),
    |rng, shelf| with_no_letter(rng, shelf),
    |rng, _| text(rng),
];

/// Of any element, of a type if there is none.
fn element_name<'a>(rng: &mut Rng, shelf: &'a Shelf) -> &'a Name {
    let names: Vec<&Name> = shelf.groups.iter().flat_map(|group| &group.names).collect();
    match names.len() {
        0 => overall_name(rng, shelf),
        number => names[rng.range(0, number - 1)],
    }
}

fn overall_name<'a>(rng: &mut Rng, shelf: &'a Shelf) -> &'a Name {
    &shelf.groups[rng.range(0, shelf.groups.len() - 1)].overall_name
}

/// A type has the name, and no element.
fn only_overall(rng: &mut Rng, shelf: &mut Shelf) -> Vec<u8> {
    let text = text(rng);
    lose(rng, shelf, &text);
    let types = shelf.groups.len();
    shelf.groups[rng.range(0, types - 1)].overall_name = name_of(rng, &text);
    text
}

/// One element has the name, and perhaps types before and behind it.
fn later_alone(rng: &mut Rng, shelf: &mut Shelf) -> Vec<u8> {
    let text = text(rng);
    lose(rng, shelf, &text);
    for group in &mut shelf.groups {
        if rng.one_in(2) {
            group.overall_name = name_of(rng, &text);
        }
    }
    let names = shelf.groups.iter_mut().flat_map(|group| &mut group.names);
    let mut names: Vec<&mut Name> = names.collect();
    if let Some(last) = names.len().checked_sub(1) {
        let any = rng.range(0, last);
        let place = rng.pick(&[any, any, last]);
        *names[place] = name_of(rng, &text);
    }
    text
}

/// No element has the name any more; some have one that is nearly the same.
fn lose(rng: &mut Rng, shelf: &mut Shelf, text: &[u8]) {
    for group in &mut shelf.groups {
        for name in &mut group.names {
            while name.letters() == text {
                let other = nearly(rng, text);
                *name = name_of(rng, &other);
            }
        }
    }
}

fn letters_less(rng: &mut Rng, shelf: &Shelf) -> Vec<u8> {
    let letters = element_name(rng, shelf).letters();
    let length = rng.range(0, letters.len());
    let just = letters.len().saturating_sub(1);
    letters[..rng.pick(&[just, length])].to_vec()
}

/// As many as a name may have, at most.
fn letters_more(rng: &mut Rng, shelf: &Shelf) -> Vec<u8> {
    let mut text = element_name(rng, shelf).letters().to_vec();
    let room = MOST_NAME - text.len();
    let any = rng.range(0, room);
    let more = rng.pick(&[1, any]).min(room);
    text.extend(letters(rng, more));
    text
}

/// The letters, and what the block has next to them.
fn with_the_byte_behind(rng: &mut Rng, shelf: &Shelf) -> Vec<u8> {
    let name = element_name(rng, shelf);
    let length = name.letters().len();
    name.0[..(length + 1).min(MOST_NAME)].to_vec()
}

/// So long that a wide number could lose what is above a byte or two of it, and the name in front.
fn longer_by(rng: &mut Rng, shelf: &Shelf, more: usize) -> Vec<u8> {
    let mut text = element_name(rng, shelf).letters().to_vec();
    if more < MOST_NAME {
        let missing = MOST_NAME - text.len();
        text.extend(letters(rng, missing));
    }
    text.extend(letters(rng, more));
    text
}

fn with_no_letter(rng: &mut Rng, shelf: &Shelf) -> Vec<u8> {
    let mut text = element_name(rng, shelf).letters().to_vec();
    spoil(rng, &mut text);
    text
}

/// A byte that is no letter instead of one, or as the only one.
fn spoil(rng: &mut Rng, text: &mut Vec<u8>) {
    if text.is_empty() {
        text.push(0);
    }
    let last = text.len() - 1;
    let any = rng.range(0, last);
    text[rng.pick(&[0, last, any])] = no_letter(rng);
}

fn find_in_malformed(rng: &mut Rng) -> Case {
    let shelf = shelf(rng);
    let text = element_name(rng, &shelf).letters().to_vec();
    let mut block = shelf.block();
    if rng.one_in(2) {
        break_block(&mut block, rng);
    } else {
        block = malformed_block(rng);
    }
    find(block, text)
}

/// Two types with two elements and one: each name is one of a few that are nearly alike, and each is looked for.
fn every_small_shelf(rng: &mut Rng, offer: Offer) {
    const TEXTS: [&[u8]; 4] = [b"", b"a", b"ab", b"b"];
    let groups = vec![group(rng, Kind::Cooling, 2), group(rng, Kind::Current, 1)];
    let mut shelf = shelf_of(rng, groups);
    for number in 0..TEXTS.len().pow(5) {
        let mut rest = number;
        let mut next = || {
            let text = TEXTS[rest % TEXTS.len()];
            rest /= TEXTS.len();
            name_of(rng, text)
        };
        for group in &mut shelf.groups {
            group.overall_name = next();
            group.names.iter_mut().for_each(|name| *name = next());
        }
        for text in TEXTS {
            offer(find(shelf.block(), text.to_vec()));
        }
    }
}

/// A call that sets a name, and how many there are to set.
struct Setter {
    call: &'static Call,
    number: fn(&Shelf) -> usize,
}

static SETTERS: [Setter; 2] = [
    Setter {
        call: &SET_NAME,
        number: |shelf| shelf.elements().count(),
    },
    Setter {
        call: &SET_OVERALL_NAME,
        number: |shelf| shelf.groups.len(),
    },
];

impl Setter {
    fn case(&self, block: Vec<u8>, number: usize, text: Vec<u8>) -> Case {
        let number = (number as u32).to_be_bytes().to_vec();
        Case {
            call: self.call,
            inputs: vec![number, text],
            lent: block,
        }
    }

    fn any(&self, rng: &mut Rng) -> Case {
        let shelf = shelf(rng);
        let number = if rng.one_in(3) {
            self.number_past_the_last(rng, &shelf)
        } else {
            self.any_number(rng, &shelf)
        };
        let text = if rng.one_in(3) {
            text_not_allowed(rng)
        } else {
            text_allowed(rng, &shelf)
        };
        let mut block = shelf.block();
        if rng.one_in(10) {
            block = malformed_block(rng);
        }
        self.case(block, number, text)
    }

    /// The first past the last if there is none.
    fn any_number(&self, rng: &mut Rng, shelf: &Shelf) -> usize {
        match (self.number)(shelf) {
            0 => 0,
            number => {
                let any = rng.range(0, number - 1);
                rng.pick(&[0, any, any, number - 1])
            }
        }
    }

    /// Just past it, so far that a byte or two would not show it, and anywhere.
    fn number_past_the_last(&self, rng: &mut Rng, shelf: &Shelf) -> usize {
        let number = (self.number)(shelf);
        let below = self.any_number(rng, shelf);
        let any = rng.range(number, u32::MAX as usize);
        rng.pick(&[
            number,
            number,
            number + 1,
            below + 256,
            below + 65_536,
            below + (1 << 31),
            u32::MAX as usize,
            any,
        ])
        .max(number)
    }

    /// Each name of a shelf in turn, and the first number past the last.
    fn each_number(&self, rng: &mut Rng, offer: Offer) {
        let shelf = if rng.one_in(2) {
            shelf(rng)
        } else {
            some_of_each(rng)
        };
        for number in 0..=(self.number)(&shelf) {
            let text = text_allowed(rng, &shelf);
            offer(self.case(shelf.block(), number, text));
        }
    }

    fn every_length(&self, rng: &mut Rng, offer: Offer) {
        let wrapped = [255, 256, 256 + MOST_NAME, 65_536, 65_536 + MOST_NAME];
        for length in (0..=2 * MOST_NAME).chain(wrapped) {
            let shelf = some_of_each(rng);
            let number = self.any_number(rng, &shelf);
            let text = letters(rng, length);
            let case = self.case(shelf.block(), number, text);
            let expected = if length > MOST_NAME { 6 } else { 0 };
            assert_eq!(case.answer().number, expected, "{length} letters");
            offer(case);
        }
    }

    fn every_byte(&self, rng: &mut Rng, offer: Offer) {
        for length in [1, 3, MOST_NAME] {
            for at in [0, length / 2, length - 1] {
                for value in 0..=0xFF {
                    let shelf = one_of_each(rng);
                    let number = self.any_number(rng, &shelf);
                    let mut text = letters(rng, length);
                    text[at] = value;
                    offer(self.case(shelf.block(), number, text));
                }
            }
        }
    }

    /// The reasons for all refusals in every combination, of which the first has to be the answer.
    fn flaws_together(&self, rng: &mut Rng, offer: Offer) {
        for chosen in 0..8 {
            let [broken, past, not_allowed] = [0, 1, 2].map(|place| chosen >> place & 1 == 1);
            let shelf = some_of_each(rng);
            let mut block = shelf.block();
            if broken {
                break_block(&mut block, rng);
            }
            let number = if past {
                self.number_past_the_last(rng, &shelf)
            } else {
                self.any_number(rng, &shelf)
            };
            let text = if not_allowed {
                text_not_allowed(rng)
            } else {
                text_allowed(rng, &shelf)
            };
            let case = self.case(block, number, text);
            let first = match (broken, past, not_allowed) {
                (true, _, _) => 1,
                (_, true, _) => 15,
                (_, _, true) => 6,
                _ => 0,
            };
            assert_eq!(case.answer().number, first, "{}", self.call.name);
            offer(case);
        }
    }

    fn every_shelf_length(&self, rng: &mut Rng, offer: Offer) {
        let shelf = one_of_each(rng);
        let block = shelf.block();
        for length in 0..block.len() + 40 {
            let mut changed = block.clone();
            changed.resize(length, 0);
            let number = self.any_number(rng, &shelf);
            offer(self.case(changed, number, text(rng)));
        }
    }
}

/// Any, or one that the shelf has.
fn text_allowed(rng: &mut Rng, shelf: &Shelf) -> Vec<u8> {
    if rng.one_in(2) {
        text(rng)
    } else {
        element_name(rng, shelf).letters().to_vec()
    }
}

/// Too long, or with a byte that is no letter, or both.
fn text_not_allowed(rng: &mut Rng) -> Vec<u8> {
    let any = rng.range(MOST_NAME + 1, 4 * MOST_NAME);
    let too_long = rng.pick(&[MOST_NAME + 1, MOST_NAME + 1, 256 + MOST_NAME, any]);
    match rng.range(0, 4) {
        0 | 1 => letters(rng, too_long),
        2 => {
            let mut text = letters(rng, too_long);
            spoil(rng, &mut text);
            text
        }
        _ => {
            let mut text = text(rng);
            spoil(rng, &mut text);
            text
        }
    }
}
