//! How often the calls compared brought up each thing that they can.

mod collected;
mod fails;
mod fans;
mod names;
mod refused;
mod tally;
mod trail;

use super::calls::{
    self, Answer, APPLY_CONTROL, APPLY_THRESHOLDS, BUILD_CONTROL, EMPTY_COLLECTOR, END_PAGE,
    PUT_CHUNK, READ_STATUS, REWRITE_STATUS, WRITE_STATUS,
};
use super::cases::case::Case;
use super::status::Status;
use super::{parts, ElementPage, Refusal, TypeElements};
use crate::bits::{bit, flag};
use crate::record::{self, Configuration, Group, Shelf};
use crate::shown::Place;
use collected::Collected;
use fails::Fails;
use fans::{Entry, Fans};
use names::Names;
use refused::Refused;
use std::iter::zip;
use tally::{kind_name, place_name, Table, Tally, LEAST_OF_EACH};
use trail::Trail;

const CODES: Table = Table {
    title: "codes on the status pages written",
    possible: &[
        ("overall", &[0, 1, 2, 3, 6]),
        ("cooling", &[1, 2]),
        ("temperature", &[1, 2, 3, 6]),
        ("voltage", &[1, 2, 3]),
        ("current", &[1, 2, 3]),
    ],
};

/// The bytes of an entry that are a field of its place.
const FIELDS: &[(&str, &[u8])] = &[
    ("overall", &[0]),
    ("cooling", &[0, 1, 2, 3, 4, 5, 6, 7, 8, 9, 10]),
    ("temperature", &[0, 1, 2, 3, 4, 5, 6, 7, 8, 9, 10]),
    ("voltage", &[0, 1, 2, 3, 4, 5, 6, 7, 8, 9, 10, 11]),
    ("current", &[0, 1, 2, 3, 4, 5, 6, 7, 8, 9]),
];

const READ: Table = Table {
    title: "status fields read with their largest value, by byte of the entry",
    possible: FIELDS,
};

const REWRITTEN: Table = Table {
    title: "status fields written again with their largest value, by byte of the entry",
    possible: FIELDS,
};

/// Without the bytes that may have any value.
const OUT_OF_RANGE: Table = Table {
    title: "status records refused for one field just out of range, by byte of the entry",
    possible: &[
        ("overall", &[0]),
        ("cooling", &[0, 1, 2, 3, 4, 5, 7, 8, 9, 10]),
        ("temperature", &[0, 1, 2, 3, 4, 5, 7, 8, 9, 10]),
        ("voltage", &[0, 1, 2, 3, 4, 5, 6, 7, 8, 9]),
        ("current", &[0, 1, 2, 3, 4, 5, 6, 7]),
    ],
};

const NOT_SHOWN: Table = Table {
    title: "status records refused for one byte that shows nothing, by byte of the entry",
    possible: &[
        (
            "overall",
            &[1, 2, 3, 4, 5, 6, 7, 8, 9, 10, 11, 12, 13, 14, 15],
        ),
        ("cooling", &[11, 12, 13, 14, 15]),
        ("temperature", &[11, 12, 13, 14, 15]),
        ("voltage", &[12, 13, 14, 15]),
        ("current", &[10, 11, 12, 13, 14, 15]),
    ],
};

const CHANGED: Table = Table {
    title: "accepted pages that changed no, one, more elements",
    possible: &[
        ("apply_control", &[0, 1, 2]),
        ("apply_thresholds", &[0, 1, 2]),
    ],
};

const SELECTS: Table = Table {
    title: "elements by SELECT, individual 2, overall 1",
    possible: &[
        ("cooling", &[0, 1, 2, 3]),
        ("temperature", &[0, 1, 2, 3]),
        ("voltage", &[0, 1, 2, 3]),
        ("current", &[0, 1, 2, 3]),
    ],
};

const SOURCES: Table = Table {
    title: "thresholds by nonzero bytes, individual 4, overall 2, stored 1",
    possible: &[
        ("cooling", &[0]),
        ("temperature", &[0, 1, 2, 3, 4, 5, 6, 7]),
        ("voltage", &[0, 1, 2, 3, 4, 5, 6, 7]),
        ("current", &[0, 1, 2, 3, 4, 5, 6, 7]),
    ],
};

const BUILT: Table = Table {
    title: "pages built with no, one, two, more SELECTs",
    possible: &[("SELECTs", &[0, 1, 2, 3])],
};

/// A type without elements has no SELECT.
const BUILT_TYPES: Table = Table {
    title: "types on pages built by SELECT, any individual 2, overall 1",
    possible: &[
        ("cooling", &[0, 1, 2, 3]),
        ("temperature", &[0, 1, 2, 3]),
        ("voltage", &[0, 1, 2, 3]),
        ("current", &[0, 1, 2, 3]),
        ("without elements", &[0]),
    ],
};

const BUILT_OVERALL: Table = Table {
    title: "overall SELECTs on pages built, with RST SWAP 2, a speed code 1",
    possible: &[
        ("cooling", &[0, 1, 2, 3]),
        ("temperature", &[0, 2]),
        ("voltage", &[0, 2]),
        ("current", &[0, 2]),
    ],
};

#[derive(Default)]
pub struct Coverage {
    outcomes: Tally,
    refused: Refused,
    names: Names,
    fans: Fans,
    fails: Fails,
    trail: Trail,
    collected: Collected,
    codes: Tally,
    read: Tally,
    rewritten: Tally,
    out_of_range: Tally,
    not_shown: Tally,
    changed: Tally,
    selects: Tally,
    sources: Tally,
    built: Tally,
    built_types: Tally,
    built_overall: Tally,
}

impl Coverage {
    pub fn count(&mut self, case: &Case, answer: &Answer) {
        let Case { call, inputs, lent } = case;
        self.outcomes.count(call.name, answer.number);
        if [EMPTY_COLLECTOR.letter, PUT_CHUNK.letter, END_PAGE.letter].contains(&call.letter) {
            self.collected.count(case, answer);
            return;
        }
        if call.outcomes.contains(&Refusal::NeededLength.number()) {
            self.refused.count(case, answer);
        }
        self.names.count(case, answer);
        if call.letter == REWRITE_STATUS.letter && answer.number == Refusal::NotAllowed.number() {
            self.count_fault(&entries_of(&inputs[0], &inputs[1]), &inputs[1]);
        }
        if answer.number != 0 {
            return;
        }
        if call.letter == WRITE_STATUS.letter {
            let shelf = shelf_of(&inputs[0]);
            self.count_codes(&shelf);
            let trail = self.trail.written(&shelf);
            self.fans.count_written(&shelf, trail);
            let page = &answer.bytes[5..][..answer.written()];
            self.fails.count_written(&shelf, page, trail);
        } else if call.letter == READ_STATUS.letter {
            let entries = entries_of(&inputs[0], answer.record());
            count_largest(&mut self.read, &entries);
            self.fans.count_read(&entries);
            self.fails.count_read(&entries);
        } else if call.letter == REWRITE_STATUS.letter {
            let entries = entries_of(&inputs[0], &inputs[1]);
            count_largest(&mut self.rewritten, &entries);
            self.fans.count_rewritten(&entries);
            self.fails.count_rewritten(&entries);
        } else if call.letter == APPLY_CONTROL.letter {
            let (before, after) = self.count_changed(call.name, lent, answer);
            self.count_selects(&before, &inputs[0]);
            self.trail.controlled(&before, &after);
        } else if call.letter == APPLY_THRESHOLDS.letter {
            let (before, after) = self.count_changed(call.name, lent, answer);
            self.count_sources(&before, &inputs[0]);
            self.fails.count_moved(&before, &after);
        } else if call.letter == BUILD_CONTROL.letter {
            let shelf = shelf_of(&inputs[0]);
            let page = &answer.bytes[9..][..answer.written()];
            self.count_built(&shelf, page, answer.selects());
            self.fans.count_wanted(&shelf, &inputs[1]);
            self.fails.count_wanted(&shelf, &inputs[1], page);
        }
    }

    /// False if something that can come up did so too rarely.
    pub fn print(&self) -> bool {
        let outcomes = Table {
            title: "by outcome",
            possible: &calls::ALL.map(|call| (call.name, call.outcomes)),
        };
        let tallies = [
            (&self.outcomes, &outcomes),
            (&self.codes, &CODES),
            (&self.read, &READ),
            (&self.rewritten, &REWRITTEN),
            (&self.out_of_range, &OUT_OF_RANGE),
            (&self.not_shown, &NOT_SHOWN),
            (&self.changed, &CHANGED),
            (&self.selects, &SELECTS),
            (&self.sources, &SOURCES),
            (&self.built, &BUILT),
            (&self.built_types, &BUILT_TYPES),
            (&self.built_overall, &BUILT_OVERALL),
        ];
        let mut enough = true;
        for (tally, table) in tallies {
            enough &= tally.print(table);
        }
        enough &= self.refused.print();
        enough &= self.names.print();
        enough &= self.fans.print();
        enough &= self.fails.print();
        enough &= self.collected.print();
        if !enough {
            println!("too few: at least {LEAST_OF_EACH} of each are wanted");
        }
        enough
    }

    fn count_codes(&mut self, shelf: &Shelf) {
        for (place, shown) in zip(shelf.configuration().places(), Status::of(shelf).shown) {
            self.codes.count(place_name(place), shown.code());
        }
    }

    /// Of a status record with a byte too large, if it is the only one.
    fn count_fault(&mut self, entries: &[Entry], record: &[u8]) {
        let bytes = bytes_of(entries);
        let mut faults = bytes.iter().filter(|byte| byte.value > byte.most);
        if let (Some(fault), None, [0 | 1, 0 | 1, ..]) = (faults.next(), faults.next(), record) {
            let name = place_name(fault.place);
            if fault.most == 0 {
                self.not_shown.count(name, fault.at);
            } else if fault.value == fault.most + 1 {
                self.out_of_range.count(name, fault.at);
            }
        }
    }

    /// Hands back the shelf as it was before, and as it is after.
    fn count_changed(
        &mut self,
        call: &'static str,
        lent: &[u8],
        answer: &Answer,
    ) -> (Shelf, Shelf) {
        let (before, after) = (shelf_of(lent), shelf_of(answer.record()));
        let elements = zip(before.elements(), after.elements());
        let changed = elements.filter(|(before, after)| before != after).count();
        self.changed.count(call, changed.min(2) as u8);
        (before, after)
    }

    fn count_selects(&mut self, shelf: &Shelf, page: &[u8]) {
        for (group, asked) in by_group(shelf, page) {
            for (element, individual) in zip(&group.elements, asked.individual) {
                let number = flag(select(individual), 1) + flag(select(asked.overall), 0);
                self.selects.count(kind_name(group.kind), number);
                let mut in_turn = [individual, asked.overall].into_iter();
                if let Some(acting) = in_turn.find(|asked| select(*asked)) {
                    self.fans.count_asked(element, acting);
                    self.fails.count_asked(element, acting);
                }
            }
        }
    }

    fn count_built(&mut self, shelf: &Shelf, page: &[u8], selects: usize) {
        self.built.count("SELECTs", selects.min(3) as u8);
        for (group, asked) in by_group(shelf, page) {
            let name = if group.elements.is_empty() {
                "without elements"
            } else {
                kind_name(group.kind)
            };
            let any_individual = asked.individual.iter().any(|element| select(*element));
            let number = flag(any_individual, 1) + flag(select(asked.overall), 0);
            self.built_types.count(name, number);
            if select(asked.overall) {
                let [byte0, _, _, byte3] = asked.overall;
                let number = flag(bit(byte0, 4), 1) + flag(byte3 % 8 != 0, 0);
                self.built_overall.count(name, number);
            }
        }
    }

    fn count_sources(&mut self, shelf: &Shelf, page: &[u8]) {
        for (group, asked) in by_group(shelf, page) {
            for (element, individual) in zip(&group.elements, asked.individual) {
                let stored = element.thresholds().bytes();
                for at in 0..4 {
                    let number = flag(individual[at] != 0, 2)
                        + flag(asked.overall[at] != 0, 1)
                        + flag(stored[at] != 0, 0);
                    self.sources.count(kind_name(group.kind), number);
                }
            }
        }
    }
}

/// The fields of a status record that have their largest value.
fn count_largest(tally: &mut Tally, entries: &[Entry]) {
    for byte in bytes_of(entries) {
        if byte.most != 0 && byte.value == byte.most {
            tally.count(place_name(byte.place), byte.at);
        }
    }
}

fn select(element: [u8; 4]) -> bool {
    bit(element[0], 7)
}

fn shelf_of(block: &[u8]) -> Shelf {
    record::read(block).expect("the shelf of an accepted call")
}

/// Each type with what an accepted page has for it.
fn by_group<'a>(shelf: &'a Shelf, page: &[u8]) -> impl Iterator<Item = (&'a Group, TypeElements)> {
    let configuration = shelf.configuration();
    let page = ElementPage::read(page[0], &configuration, page).expect("an accepted page");
    zip(&shelf.groups, page.by_type(&configuration))
}

/// Of a status record that has as many as the configuration has places.
fn entries_of(configuration: &[u8], record: &[u8]) -> Vec<Entry> {
    let configuration = Configuration::read(configuration).expect("a well-formed configuration");
    let (_, entries) = parts(&configuration, record).expect("an entry for each place");
    zip(configuration.places(), entries).collect()
}

/// A byte of an entry, and the largest value that its place allows there, 0 if it shows nothing.
struct EntryByte {
    place: Place,
    at: u8,
    value: u8,
    most: u8,
}

fn bytes_of(entries: &[Entry]) -> Vec<EntryByte> {
    let bytes = entries.iter().flat_map(|(place, entry)| {
        let values = zip(0.., zip(*entry, place.largest()));
        values.map(move |(at, (value, most))| EntryByte {
            place: *place,
            at,
            value,
            most,
        })
    });
    bytes.collect()
}
