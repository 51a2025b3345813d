//! How often names were written, read, looked for and set in each way that they can be.

use super::tally::{sort_name, Table, Tally};
use crate::limits::{MOST_NAME, NAME_BYTES};
use crate::pages::calls::{
    Answer, Call, FIND_NAME, READ_DESCRIPTORS, REWRITE_DESCRIPTORS, SET_NAME, SET_OVERALL_NAME,
    WRITE_DESCRIPTORS,
};
use crate::pages::cases::case::Case;
use crate::pages::parts;
use crate::record::{self, is_letter, Configuration, Name, Shelf};
use crate::shown::Place;
use std::iter::zip;

const LENGTHS: Table = Table {
    title: "names taken, without letters 0, with some 1, with as many as may be 2",
    possible: &[
        ("write_descriptors", &[0, 1, 2]),
        ("read_descriptors", &[0, 1, 2]),
        ("rewrite_descriptors", &[0, 1, 2]),
        ("set_name", &[0, 1, 2]),
        ("set_overall_name", &[0, 1, 2]),
    ],
};

const ENDS: Table = Table {
    title: "names written by what is behind them, zeros 0, a zero and more 1, 1Fh 2, 7Fh 3, FFh 4, another 5; \
            and letters further behind 6",
    possible: &[
        ("overall", &[0, 1, 2, 3, 4, 5, 6]),
        ("individual", &[0, 1, 2, 3, 4, 5, 6]),
    ],
};

const ENTRIES: Table = Table {
    title:
        "first entries refused, for a byte that is no letter 0, a letter behind a zero 1, another 2",
    possible: &[("overall", &[0, 1, 2]), ("individual", &[0, 1, 2])],
};

const BYTES: Table = Table {
    title: "first entries refused, by the byte",
    possible: &[(
        "byte",
        &[
            0, 1, 2, 3, 4, 5, 6, 7, 8, 9, 10, 11, 12, 13, 14, 15, 16, 17, 18, 19, 20, 21, 22, 23,
            24, 25, 26, 27, 28, 29, 30, 31,
        ],
    )],
};

const NUMBERS: Table = Table {
    title: "records refused with another number of entries, fewer 0, more 1, the same but for the upper byte 2",
    possible: &[("rewrite_descriptors", &[0, 1, 2])],
};

const FOUND: Table = Table {
    title: "names found, the first element 0, a later one 1; with others alike 2, 3; \
            not found, though a type has it 1",
    possible: &[
        ("found", &[0, 1, 2, 3]),
        ("behind a type of it", &[0, 1, 2, 3]),
        ("not found", &[0, 1]),
    ],
};

const TEXTS: Table = Table {
    title: "texts looked for, not found 0, found 1",
    possible: &[
        ("empty", &[0, 1]),
        ("as long as may be", &[0, 1]),
        ("a letter too many", &[0]),
        ("many too many", &[0]),
        ("no letters", &[0]),
        ("front of a name", &[0, 1]),
        ("name in front of it", &[0, 1]),
        ("name but for the end", &[0]),
    ],
};

const SET_OVER: Table = Table {
    title: "names set over longer 0, equal 1, as long or shorter ones 2",
    possible: &[("set_name", &[0, 1, 2]), ("set_overall_name", &[0, 1, 2])],
};

const PLACES: Table = Table {
    title: "names set, the first 0, the last 1, another 2, behind a type without elements 3",
    possible: &[
        ("set_name", &[0, 1, 2, 3]),
        ("set_overall_name", &[0, 1, 2, 3]),
    ],
};

const PAST: Table = Table {
    title: "names not set for their number, the first past the last 0, the next 1, another 2, with a lower byte \
            below 3",
    possible: &[("set_name", &[0, 1, 2, 3]), ("set_overall_name", &[0, 1, 2, 3])],
};

const NOT_SET: Table = Table {
    title: "names not set for their text, a letter too many 0, many 1, no letter first 2, between 3, last 4, \
            and too long 5",
    possible: &[
        ("set_name", &[0, 1, 2, 3, 4, 5]),
        ("set_overall_name", &[0, 1, 2, 3, 4, 5]),
    ],
};

#[derive(Default)]
pub struct Names {
    lengths: Tally,
    ends: Tally,
    entries: Tally,
    bytes: Tally,
    numbers: Tally,
    found: Tally,
    texts: Tally,
    set_over: Tally,
    places: Tally,
    past: Tally,
    not_set: Tally,
}

impl Names {
    /// Of any call.
    pub fn count(&mut self, case: &Case, answer: &Answer) {
        let is = |call: &Call| case.call.letter == call.letter;
        let name = case.call.name;
        match answer.number {
            0 if is(&WRITE_DESCRIPTORS) => self.count_written(&shelf_of(&case.inputs[0])),
            0 if is(&READ_DESCRIPTORS) => self.count_record(name, &case.inputs[0], answer.record()),
            0 if is(&REWRITE_DESCRIPTORS) => {
                self.count_record(name, &case.inputs[0], &case.inputs[1]);
            }
            6 if is(&REWRITE_DESCRIPTORS) => self.count_entry(&case.inputs[0], &case.inputs[1]),
            9 if is(&REWRITE_DESCRIPTORS) => self.count_number(&case.inputs[0], &case.inputs[1]),
            0 if is(&FIND_NAME) => {
                self.count_found(&shelf_of(&case.inputs[0]), &case.inputs[1], answer.found());
            }
            _ if is(&SET_NAME) || is(&SET_OVERALL_NAME) => self.count_set(case, answer),
            _ => {}
        }
    }

    pub fn print(&self) -> bool {
        let tallies = [
            (&self.lengths, &LENGTHS),
            (&self.ends, &ENDS),
            (&self.entries, &ENTRIES),
            (&self.bytes, &BYTES),
            (&self.numbers, &NUMBERS),
            (&self.found, &FOUND),
            (&self.texts, &TEXTS),
            (&self.set_over, &SET_OVER),
            (&self.places, &PLACES),
            (&self.past, &PAST),
            (&self.not_set, &NOT_SET),
        ];
        let mut enough = true;
        for (tally, table) in tallies {
            enough &= tally.print(table);
        }
        enough
    }

    fn count_length(&mut self, call: &'static str, letters: usize) {
        let number = match letters {
            0 => 0,
            MOST_NAME => 2,
            _ => 1,
        };
        self.lengths.count(call, number);
    }

    fn count_written(&mut self, shelf: &Shelf) {
        for (place, name) in zip(shelf.configuration().places(), shelf.names()) {
            let letters = name.letters().len();
            self.count_length(WRITE_DESCRIPTORS.name, letters);
            if let [end, behind @ ..] = &name.0[letters..] {
                let number = match end {
                    0x00 if behind.iter().all(|byte| *byte == 0) => 0,
                    0x00 => 1,
                    0x1F => 2,
                    0x7F => 3,
                    0xFF => 4,
                    _ => 5,
                };
                self.ends.count(sort_name(place), number);
                if behind.iter().any(is_letter) {
                    self.ends.count(sort_name(place), 6);
                }
            }
        }
    }

    fn count_record(&mut self, call: &'static str, configuration: &[u8], record: &[u8]) {
        for (_, entry) in entries_of(configuration, record) {
            self.count_length(call, Name(entry).letters().len());
        }
    }

    fn count_entry(&mut self, configuration: &[u8], record: &[u8]) {
        for (place, entry) in entries_of(configuration, record) {
            let letters = Name(entry).letters().len();
            let behind = (letters..NAME_BYTES).find(|at| entry[*at] != 0);
            if let Some(at) = behind {
                let number = match entry[at] {
                    _ if at == letters => 0,
                    byte if is_letter(&byte) => 1,
                    _ => 2,
                };
                self.entries.count(sort_name(place), number);
                self.bytes.count("byte", at as u8);
                return;
            }
        }
    }

    fn count_number(&mut self, configuration: &[u8], record: &[u8]) {
        let places = configuration_of(configuration).places().len();
        let number = usize::from(u16::from_be_bytes([record[2], record[3]]));
        let name = REWRITE_DESCRIPTORS.name;
        self.numbers.count(name, u8::from(number > places));
        if number % 256 == places % 256 {
            self.numbers.count(name, 2);
        }
    }

    fn count_found(&mut self, shelf: &Shelf, text: &[u8], found: Option<usize>) {
        let names = shelf.groups.iter().flat_map(|group| &group.names);
        let names: Vec<&[u8]> = names.map(Name::letters).collect();
        let mut types = shelf.groups.iter();
        match found {
            Some(element) => {
                let alike = names.iter().filter(|name| **name == text).count();
                let number = u8::from(element > 0) + if alike > 1 { 2 } else { 0 };
                self.found.count("found", number);
                let before = types.by_ref().scan(0, |elements, group| {
                    let before = *elements;
                    *elements += group.elements.len();
                    (before <= element).then_some(group)
                });
                let mut before = before.map(|group| group.overall_name);
                if before.any(|name| name.letters() == text) {
                    self.found.count("behind a type of it", number);
                }
            }
            None => {
                let of_a_type = types.any(|group| group.overall_name.letters() == text);
                self.found.count("not found", u8::from(of_a_type));
            }
        }
        self.count_text(&names, text, u8::from(found.is_some()));
    }

    fn count_text(&mut self, names: &[&[u8]], text: &[u8], found: u8) {
        let (texts, letters) = (&mut self.texts, text.len());
        if !text.iter().all(is_letter) {
            texts.count("no letters", found);
            let (_, front) = text.split_last().expect("a byte that is no letter");
            if names.contains(&front) {
                texts.count("name but for the end", found);
            }
            return;
        }
        match letters {
            0 => texts.count("empty", found),
            MOST_NAME => texts.count("as long as may be", found),
            _ if letters == MOST_NAME + 1 => texts.count("a letter too many", found),
            _ if letters > MOST_NAME => texts.count("many too many", found),
            _ => {}
        }
        let longer = |name: &&[u8]| name.len() > letters && name.starts_with(text);
        let shorter = |name: &&[u8]| name.len() < letters && text.starts_with(name);
        if letters > 0 && names.iter().any(longer) {
            texts.count("front of a name", found);
        }
        if letters <= MOST_NAME && names.iter().any(|name| !name.is_empty() && shorter(name)) {
            texts.count("name in front of it", found);
        }
    }

    fn count_set(&mut self, case: &Case, answer: &Answer) {
        let call = case.call.name;
        let (number, text) = (&case.inputs[0], &case.inputs[1]);
        let number = u32::from_be_bytes(number[..].try_into().expect("four bytes")) as usize;
        match answer.number {
            0 => {
                let (before, after) = (shelf_of(&case.lent), shelf_of(answer.shelf()));
                let all = all_of(case.call, &before);
                self.count_length(call, text.len());
                let had = all[number].letters().len();
                let over = match had {
                    _ if had > text.len() => 0,
                    _ if all[number] == all_of(case.call, &after)[number] => 1,
                    _ => 2,
                };
                self.set_over.count(call, over);
                self.count_place(case.call, &before, number);
            }
            15 => {
                let all = all_of(case.call, &shelf_of(&case.lent)).len();
                let past = match number - all {
                    0 => 0,
                    1 => 1,
                    _ => 2,
                };
                self.past.count(call, past);
                if number % 256 < all {
                    self.past.count(call, 3);
                }
            }
            6 => {
                let place = text.iter().position(|byte| !is_letter(byte));
                let number = match place {
                    None if text.len() == MOST_NAME + 1 => 0,
                    None => 1,
                    Some(_) if text.len() > MOST_NAME => 5,
                    Some(0) => 2,
                    Some(at) if at < text.len() - 1 => 3,
                    Some(_) => 4,
                };
                self.not_set.count(call, number);
            }
            _ => {}
        }
    }

    fn count_place(&mut self, call: &Call, shelf: &Shelf, number: usize) {
        let last = all_of(call, shelf).len() - 1;
        let place = match number {
            0 => 0,
            _ if number == last => 1,
            _ => 2,
        };
        self.places.count(call.name, place);
        let of_type = if call.letter == SET_NAME.letter {
            let mut types = zip(0.., &shelf.groups).flat_map(|(at, group)| {
                let names = group.names.iter();
                names.map(move |_| at)
            });
            types.nth(number).expect("an element of this number")
        } else {
            number
        };
        let mut before = shelf.groups[..of_type].iter();
        if before.any(|group| group.elements.is_empty()) {
            self.places.count(call.name, 3);
        }
    }
}

/// The names that the call can set.
fn all_of(call: &Call, shelf: &Shelf) -> Vec<Name> {
    let groups = shelf.groups.iter();
    if call.letter == SET_NAME.letter {
        groups.flat_map(|group| group.names.clone()).collect()
    } else {
        groups.map(|group| group.overall_name).collect()
    }
}

fn shelf_of(block: &[u8]) -> Shelf {
    record::read(block).expect("the shelf of a call that got as far")
}

fn configuration_of(block: &[u8]) -> Configuration {
    Configuration::read(block).expect("a well-formed configuration")
}

/// Of a record that has as many entries as the configuration has places.
fn entries_of(configuration: &[u8], record: &[u8]) -> Vec<(Place, [u8; NAME_BYTES])> {
    let configuration = configuration_of(configuration);
    let (_, entries) = parts(&configuration, record).expect("an entry for each place");
    zip(configuration.places(), entries).collect()
}
