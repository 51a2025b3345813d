//! How often a page was refused for each wrong length and for each byte that can offend.

use super::tally::{place_name, sort_name, Table, Tally};
use crate::limits::{
    configuration_page_bytes, descriptor_page_bytes, element_page_bytes, DESCRIPTOR_HEAD_BYTES,
    HIGHEST_CODE, MOST_NAME, MOST_OF_TYPE, PAGE_TYPES_AT,
};
use crate::pages::calls::{
    Answer, Call, APPLY_CONTROL, READ_CONFIGURATION, READ_DESCRIPTORS, READ_STATUS, READ_THRESHOLDS,
};
use crate::pages::cases::case::Case;
use crate::pages::descriptors::DescriptorPage;
use crate::pages::{configuration, control, status, threshold_out, thresholds, ElementPage};
use crate::record::{self, Configuration};
use std::iter::zip;

const OTHER_THAN_SAID: Table = Table {
    title: "pages refused with 4, as long as the types need 0, of another length too 1",
    possible: &[
        ("read_configuration", &[0, 1]),
        ("read_status", &[0, 1]),
        ("read_thresholds", &[0, 1]),
        ("apply_control", &[0, 1]),
        ("apply_thresholds", &[0, 1]),
        ("read_descriptors", &[0, 1]),
    ],
};

const OTHER_THAN_NEEDED: Table = Table {
    title: "pages refused with 12, too short 0, too long 1, too short for the fixed part 2, for the headers 3",
    possible: &[
        ("read_configuration", &[0, 1, 2, 3]),
        ("read_status", &[0, 1]),
        ("read_thresholds", &[0, 1]),
        ("apply_control", &[0, 1]),
        ("apply_thresholds", &[0, 1]),
    ],
};

const DESCRIPTOR_ENDS: Table = Table {
    title: "descriptor pages refused with 12, shorter than 8 bytes 0, with bytes left over 1, or at the first \
            descriptor that goes beyond the end, in its head 2, its text 3, a text of FFFFh bytes 4",
    possible: &[
        ("page", &[0, 1]),
        ("overall", &[2, 3, 4]),
        ("individual", &[2, 3, 4]),
    ],
};

/// A Threshold Out page has but one byte that can offend.
const OFFENDING: Table = Table {
    title: "pages refused with 6, with one offending byte, with more",
    possible: &[
        ("read_configuration", &[1, 2]),
        ("read_status", &[1, 2]),
        ("read_thresholds", &[1, 2]),
        ("apply_control", &[1, 2]),
        ("apply_thresholds", &[1]),
        ("read_descriptors", &[1, 2]),
    ],
};

/// Page byte 1, or a byte of an element.
const STATUS: Table = Table {
    title: "status pages by their first offending byte, of the page or an element",
    possible: &[
        ("page", &[1]),
        ("overall", &[0, 1, 2, 3]),
        ("cooling", &[0, 1, 3]),
        ("temperature", &[0, 1, 3]),
        ("voltage", &[0, 1]),
        ("current", &[0, 1]),
    ],
};

const CODES: Table = Table {
    title: "status pages whose first offending byte has a code too high, by the code",
    possible: &[
        ("overall", &[9, 10, 11, 12, 13, 14, 15]),
        ("cooling", &[9, 10, 11, 12, 13, 14, 15]),
        ("temperature", &[9, 10, 11, 12, 13, 14, 15]),
        ("voltage", &[9, 10, 11, 12, 13, 14, 15]),
        ("current", &[9, 10, 11, 12, 13, 14, 15]),
    ],
};

const THRESHOLDS: Table = Table {
    title: "threshold status pages by their first offending byte, of the page or an element",
    possible: &[("page", &[1]), ("overall", &[0, 1, 2, 3])],
};

const CONTROL: Table = Table {
    title: "control pages by their first offending byte, of the page or an element",
    possible: &[
        ("page", &[1]),
        ("overall", &[0, 1, 2, 3]),
        ("cooling", &[0, 1, 2, 3]),
        ("temperature", &[0, 1, 2, 3]),
        ("voltage", &[0, 1, 2, 3]),
        ("current", &[0, 1, 2, 3]),
    ],
};

const CONFIGURATION: Table = Table {
    title: "configuration pages by their first offending byte: in front of the headers, in \
            the header of a type, or the first 0, another 1 or the last 2 letter of a text",
    possible: &[
        ("in front", &[1, 8, 9, 10, 11]),
        ("type", &[0, 1, 2, 3, 4, 5, 6, 7]),
        ("count", &[0, 1, 2, 3, 4, 5, 6, 7]),
        ("total", &[1, 2, 3, 4, 5, 6, 7]),
        ("zero", &[0, 1, 2, 3, 4, 5, 6, 7]),
        ("text length", &[0, 1, 2, 3, 4, 5, 6, 7]),
        ("letter", &[0, 1, 2]),
    ],
};

const DESCRIPTORS: Table = Table {
    title: "descriptor pages by their first offending byte: of the page; of a descriptor its first zero 0, its \
            second 1, its length with a lower byte too large 2, an upper byte 3, both 4, or the first 5, another \
            6 or the last 7 letter",
    possible: &[
        ("page", &[1]),
        ("overall", &[0, 1, 2, 3, 4, 5, 6, 7]),
        ("individual", &[0, 1, 2, 3, 4, 5, 6, 7]),
    ],
};

const DESCRIPTOR_PLACES: Table = Table {
    title: "descriptor pages by the first offending descriptor, the first 0, another 1, the last 2, the only 3",
    possible: &[("descriptor", &[0, 1, 2, 3])],
};

#[derive(Default)]
pub struct Refused {
    other_than_said: Tally,
    other_than_needed: Tally,
    offending: Tally,
    status: Tally,
    codes: Tally,
    thresholds: Tally,
    control: Tally,
    configuration: Tally,
    descriptor_ends: Tally,
    descriptors: Tally,
    descriptor_places: Tally,
}

impl Refused {
    /// Of a call that reads or applies a page.
    pub fn count(&mut self, case: &Case, answer: &Answer) {
        let page = case.inputs.last().expect("a page");
        match answer.number {
            4 => {
                let either = u8::from(!is_needed(case, page));
                self.other_than_said.count(case.call.name, either);
            }
            12 if case.call.letter == READ_DESCRIPTORS.letter => {
                let end = wrong_end(&configuration_of(case), page);
                let (part, number) = end.expect("an end elsewhere");
                self.descriptor_ends.count(part, number);
            }
            12 => {
                let number = match needed(case, page) {
                    Some(needed) => u8::from(page.len() > needed),
                    None if page.len() < configuration_page_bytes(0, 0) => 2,
                    None => 3,
                };
                self.other_than_needed.count(case.call.name, number);
            }
            6 => self.count_offences(case, page, answer.offset()),
            _ => {}
        }
    }

    pub fn print(&self) -> bool {
        let tallies = [
            (&self.other_than_said, &OTHER_THAN_SAID),
            (&self.other_than_needed, &OTHER_THAN_NEEDED),
            (&self.offending, &OFFENDING),
            (&self.status, &STATUS),
            (&self.codes, &CODES),
            (&self.thresholds, &THRESHOLDS),
            (&self.control, &CONTROL),
            (&self.configuration, &CONFIGURATION),
            (&self.descriptor_ends, &DESCRIPTOR_ENDS),
            (&self.descriptors, &DESCRIPTORS),
            (&self.descriptor_places, &DESCRIPTOR_PLACES),
        ];
        let mut enough = true;
        for (tally, table) in tallies {
            enough &= tally.print(table);
        }
        enough
    }

    fn count_offences(&mut self, case: &Case, page: &[u8], first: usize) {
        let is = |call: &Call| case.call.letter == call.letter;
        let offences = offences(case, page).len().min(2);
        self.offending.count(case.call.name, offences as u8);
        if is(&READ_CONFIGURATION) {
            let (part, number) = part_of_configuration(page, first);
            self.configuration.count(part, number);
        } else if is(&READ_STATUS) {
            let (part, at) = part_of_elements(case, first);
            self.status.count(part, at);
            let code = page[first] & 0x0F;
            if at == 0 && code > HIGHEST_CODE {
                self.codes.count(part, code);
            }
        } else if is(&READ_THRESHOLDS) {
            let (part, at) = part_of_elements(case, first);
            self.thresholds.count(part, at);
        } else if is(&APPLY_CONTROL) {
            let (part, at) = part_of_elements(case, first);
            self.control.count(part, at);
        } else if is(&READ_DESCRIPTORS) {
            self.count_descriptor(&configuration_of(case), page, first);
        }
    }
}

impl Refused {
    fn count_descriptor(&mut self, configuration: &Configuration, page: &[u8], first: usize) {
        let page = DescriptorPage::read(configuration, page).expect("a length that is right");
        let places = configuration.places();
        let last = places.len() - 1;
        let descriptors = zip(&page.descriptors, &places).enumerate();
        let before = descriptors.filter(|(_, (descriptor, _))| descriptor.at <= first);
        let (which, descriptor, place) = match before.last() {
            Some((which, (descriptor, place))) => (which, descriptor, *place),
            None => {
                self.descriptors.count("page", first as u8);
                return;
            }
        };
        let [_, _, upper, lower] = descriptor.head;
        let letters = descriptor.text.len();
        let number = match first - descriptor.at {
            0 => 0,
            1 => 1,
            2 => match (upper, usize::from(lower) > MOST_NAME) {
                (0, _) => 2,
                (_, false) => 3,
                (_, true) => 4,
            },
            4 => 5,
            at if at < DESCRIPTOR_HEAD_BYTES + letters - 1 => 6,
            _ => 7,
        };
        self.descriptors.count(sort_name(place), number);
        let number = match which {
            _ if last == 0 => 3,
            0 => 0,
            _ if which == last => 2,
            _ => 1,
        };
        self.descriptor_places.count("descriptor", number);
    }
}

/// How a page ends elsewhere than its descriptors do, if it does.
fn wrong_end(configuration: &Configuration, page: &[u8]) -> Option<(&'static str, u8)> {
    let mut at = descriptor_page_bytes(0, 0);
    if page.len() < at {
        return Some(("page", 0));
    }
    for place in configuration.places() {
        let text_at = at + DESCRIPTOR_HEAD_BYTES;
        let declared = match page.get(at..text_at) {
            Some(head) => u16::from_be_bytes([head[2], head[3]]),
            None => return Some((sort_name(place), 2)),
        };
        at = text_at + usize::from(declared);
        if at > page.len() {
            let number = if declared == 0xFFFF { 4 } else { 3 };
            return Some((sort_name(place), number));
        }
    }
    (at < page.len()).then_some(("page", 1))
}

/// All of a page that is refused for them.
fn offences(case: &Case, page: &[u8]) -> Vec<usize> {
    let is = |call: &Call| case.call.letter == call.letter;
    if is(&READ_CONFIGURATION) {
        return configuration::offences(page).collect();
    }
    let configuration = configuration_of(case);
    if is(&READ_DESCRIPTORS) {
        let page = DescriptorPage::read(&configuration, page).expect("a length that is right");
        return page.offences();
    }
    let page = ElementPage::read(page[0], &configuration, page).expect("a header that is right");
    if is(&READ_STATUS) {
        status::offences(&configuration, &page).collect()
    } else if is(&READ_THRESHOLDS) {
        thresholds::offences(&configuration, &page).collect()
    } else if is(&APPLY_CONTROL) {
        control::offences(&configuration, &page).collect()
    } else {
        threshold_out::offences(&page).collect()
    }
}

fn is_needed(case: &Case, page: &[u8]) -> bool {
    if case.call.letter == READ_DESCRIPTORS.letter {
        wrong_end(&configuration_of(case), page).is_none()
    } else {
        needed(case, page) == Some(page.len())
    }
}

/// The length of any page but 07h.
fn needed(case: &Case, page: &[u8]) -> Option<usize> {
    if case.call.letter == READ_CONFIGURATION.letter {
        configuration::needed(page)
    } else {
        Some(element_page_bytes(configuration_of(case).places().len()))
    }
}

/// Under which the call took its page, if the call got as far as that.
fn configuration_of(case: &Case) -> Configuration {
    let configuration = match &case.inputs[..] {
        [configuration, _page] => Configuration::read(configuration),
        _ => record::read(&case.lent).map(|shelf| shelf.configuration()),
    };
    configuration.expect("a well-formed one")
}

/// What the byte belongs to, and which of its bytes it is.
fn part_of_elements(case: &Case, offset: usize) -> (&'static str, u8) {
    match offset.checked_sub(element_page_bytes(0)) {
        None => ("page", offset as u8),
        Some(behind) => {
            let place = configuration_of(case).places()[behind / 4];
            (place_name(place), (behind % 4) as u8)
        }
    }
}

fn part_of_configuration(page: &[u8], offset: usize) -> (&'static str, u8) {
    let headers_at = configuration_page_bytes(0, 0);
    let texts_at = configuration_page_bytes(page[PAGE_TYPES_AT].into(), 0);
    if offset < headers_at {
        ("in front", offset as u8)
    } else if offset < texts_at {
        let too_many = usize::from(page[offset]) > MOST_OF_TYPE;
        let part = match (offset - headers_at) % 4 {
            0 => "type",
            1 if too_many => "count",
            1 => "total",
            2 => "zero",
            _ => "text length",
        };
        (part, ((offset - headers_at) / 4) as u8)
    } else {
        let text_lengths = page[headers_at..texts_at].chunks(4).map(|header| header[3]);
        ("letter", place_in_text(text_lengths, offset - texts_at))
    }
}

/// Whether this letter of all is the first of its text, another or the last.
fn place_in_text(text_lengths: impl Iterator<Item = u8>, letter: usize) -> u8 {
    let mut place = letter;
    for length in text_lengths.map(usize::from) {
        if place < length {
            return match place {
                0 => 0,
                place if place < length - 1 => 1,
                _ => 2,
            };
        }
        place -= length;
    }
    unreachable!("a letter behind all texts")
}
