//! How often elements of each code had FAIL stored, showed it, and were asked for it or not.

use super::fans::Entry;
use super::tally::{kind_name, place_name, Table, Tally};
use crate::bits::{bit, flag};
use crate::element::Code;
use crate::pages::builder::selects;
use crate::pages::fail_before;
use crate::record::{Element, Kind, Shelf};
use crate::shown::Place;
use std::iter::zip;

/// Without FAIL 0, with it 1.
const STORED: &[(&str, &[u8])] = &[
    ("cooling, code 1", &[0, 1]),
    ("cooling, code 2", &[0, 1]),
    ("temperature, code 1", &[0, 1]),
    ("temperature, code 2", &[0, 1]),
    ("temperature, code 3", &[0, 1]),
    ("temperature, code 6", &[0, 1]),
    ("voltage, code 1", &[0, 1]),
    ("voltage, code 2", &[0, 1]),
    ("voltage, code 3", &[0, 1]),
    ("current, code 1", &[0, 1]),
    ("current, code 2", &[0, 1]),
    ("current, code 3", &[0, 1]),
];

/// FAIL before 2, then 1.
const CHANGES: &[(&str, &[u8])] = &[
    ("cooling, code 1", &[0, 1, 2, 3]),
    ("cooling, code 2", &[0, 1, 2, 3]),
    ("temperature, code 1", &[0, 1, 2, 3]),
    ("temperature, code 2", &[0, 1, 2, 3]),
    ("temperature, code 3", &[0, 1, 2, 3]),
    ("temperature, code 6", &[0, 1, 2, 3]),
    ("voltage, code 1", &[0, 1, 2, 3]),
    ("voltage, code 2", &[0, 1, 2, 3]),
    ("voltage, code 3", &[0, 1, 2, 3]),
    ("current, code 1", &[0, 1, 2, 3]),
    ("current, code 2", &[0, 1, 2, 3]),
    ("current, code 3", &[0, 1, 2, 3]),
];

const WRITTEN: Table = Table {
    title: "elements on the status pages written, without a stored FAIL 0, with it 1",
    possible: STORED,
};

const LIT: Table = Table {
    title: "elements on the status pages written, as before request Five 0, with FAIL lit since 1",
    possible: &[
        ("overall", &[0]),
        ("cooling", &[0]),
        ("temperature", &[0, 1]),
        ("voltage", &[0, 1]),
        ("current", &[0, 1]),
    ],
};

/// By code. A shelf shows code 1 and 6 with FAIL and without, and a fan code 2; a sensor codes 2 and 3 with FAIL only.
const SHOWN: &[(&str, &[u8])] = &[
    ("cooling", &[0, 1, 2, 3, 4, 5, 6, 7, 8]),
    ("cooling, FAIL", &[0, 1, 2, 3, 4, 5, 6, 7, 8]),
    ("temperature", &[0, 1, 2, 3, 4, 5, 6, 7, 8]),
    ("temperature, FAIL", &[0, 1, 2, 3, 4, 5, 6, 7, 8]),
    ("voltage", &[0, 1, 2, 3, 4, 5, 6, 7, 8]),
    ("voltage, FAIL", &[0, 1, 2, 3, 4, 5, 6, 7, 8]),
    ("current", &[0, 1, 2, 3, 4, 5, 6, 7, 8]),
    ("current, FAIL", &[0, 1, 2, 3, 4, 5, 6, 7, 8]),
];

const READ: Table = Table {
    title: "elements on status pages read, without FAIL and with it, by the code",
    possible: SHOWN,
};

const REWRITTEN: Table = Table {
    title: "elements on status pages written again, without FAIL and with it, by the code",
    possible: SHOWN,
};

const ASKED: Table = Table {
    title: "elements that a control page acts on, FAIL stored 2, asked for 1",
    possible: CHANGES,
};

const AROUND: Table = Table {
    title: "elements with the status page written before and after a control page, FAIL stored then 2, and now 1",
    possible: CHANGES,
};

const WANTED: Table = Table {
    title: "elements on pages built, FAIL stored 2, wanted 1",
    possible: CHANGES,
};

const UNASKED: Table = Table {
    title: "elements on pages built with no SELECT, without a stored FAIL 0, with it 1",
    possible: STORED,
};

const MOVED: Table = Table {
    title: "sensors under threshold pages, without a stored FAIL and with it, code 2 or 3 before 2, after 1",
    possible: &[
        ("temperature", &[0, 1, 2, 3]),
        ("temperature, FAIL", &[0, 1, 2, 3]),
        ("voltage", &[0, 1, 2, 3]),
        ("voltage, FAIL", &[0, 1, 2, 3]),
        ("current", &[0, 1, 2, 3]),
        ("current, FAIL", &[0, 1, 2, 3]),
    ],
};

#[derive(Default)]
pub struct Fails {
    written: Tally,
    lit: Tally,
    read: Tally,
    rewritten: Tally,
    asked: Tally,
    around: Tally,
    wanted: Tally,
    unasked: Tally,
    moved: Tally,
}

impl Fails {
    pub fn print(&self) -> bool {
        let tallies = [
            (&self.written, &WRITTEN),
            (&self.lit, &LIT),
            (&self.read, &READ),
            (&self.rewritten, &REWRITTEN),
            (&self.asked, &ASKED),
            (&self.around, &AROUND),
            (&self.wanted, &WANTED),
            (&self.unasked, &UNASKED),
            (&self.moved, &MOVED),
        ];
        let mut enough = true;
        for (tally, table) in tallies {
            enough &= tally.print(table);
        }
        enough
    }

    /// Of a shelf whose status page was written, that page, and the trail up to the shelf.
    pub fn count_written(&mut self, shelf: &Shelf, page: &[u8], trail: &[Shelf]) {
        count_stored(&mut self.written, shelf);
        let before = fail_before::page(shelf);
        let elements = zip(page[8..].chunks(4), before[8..].chunks(4));
        for (place, (element, before)) in zip(shelf.configuration().places(), elements) {
            let number = u8::from(element != before);
            self.lit.count(place_name(place), number);
        }
        if let [.., then, now] = trail {
            for (then, now) in zip(then.elements(), now.elements()) {
                count_change(&mut self.around, then, now.settings().fail);
            }
        }
    }

    pub fn count_read(&mut self, entries: &[Entry]) {
        count_shown(&mut self.read, entries);
    }

    pub fn count_rewritten(&mut self, entries: &[Entry]) {
        count_shown(&mut self.rewritten, entries);
    }

    /// Of an element, and the control element that acts on it.
    pub fn count_asked(&mut self, element: &Element, asked: [u8; 4]) {
        count_change(&mut self.asked, element, fail_in(element.kind(), asked));
    }

    /// Of a shelf, the list of settings that a page was built for, and that page.
    pub fn count_wanted(&mut self, shelf: &Shelf, wanted: &[u8], page: &[u8]) {
        for (element, wanted) in zip(shelf.elements(), wanted.chunks_exact(4)) {
            let wanted = wanted.try_into().expect("four bytes");
            count_change(&mut self.wanted, element, fail_in(element.kind(), wanted));
        }
        if selects(page) == 0 {
            count_stored(&mut self.unasked, shelf);
        }
    }

    /// Of the shelves before and after a threshold page.
    pub fn count_moved(&mut self, before: &Shelf, after: &Shelf) {
        for (before, after) in zip(before.elements(), after.elements()) {
            if before.kind() != Kind::Cooling {
                let name = fail_name(before.kind(), before.settings().fail);
                let number = flag(has_condition(before), 1) + flag(has_condition(after), 0);
                self.moved.count(name, number);
            }
        }
    }
}

fn count_stored(tally: &mut Tally, shelf: &Shelf) {
    for element in shelf.elements() {
        tally.count(code_name(element), element.settings().fail.into());
    }
}

fn count_change(tally: &mut Tally, element: &Element, then: bool) {
    let number = flag(element.settings().fail, 1) + flag(then, 0);
    tally.count(code_name(element), number);
}

fn count_shown(tally: &mut Tally, entries: &[Entry]) {
    for (place, entry) in entries {
        if let Place::Individual(kind) = *place {
            let fail = match kind {
                Kind::Cooling => entry[7],
                Kind::Temperature | Kind::Voltage | Kind::Current => entry[5],
            };
            tally.count(fail_name(kind, fail == 1), entry[0]);
        }
    }
}

/// Settings have it where a control element has it.
fn fail_in(kind: Kind, [_, byte1, _, byte3]: [u8; 4]) -> bool {
    match kind {
        Kind::Cooling => bit(byte3, 6),
        Kind::Temperature | Kind::Voltage | Kind::Current => bit(byte1, 6),
    }
}

fn has_condition(element: &Element) -> bool {
    matches!(element.verdict().code, Code::Critical | Code::NonCritical)
}

fn fail_name(kind: Kind, fail: bool) -> &'static str {
    match (kind, fail) {
        (kind, false) => kind_name(kind),
        (Kind::Cooling, true) => "cooling, FAIL",
        (Kind::Temperature, true) => "temperature, FAIL",
        (Kind::Voltage, true) => "voltage, FAIL",
        (Kind::Current, true) => "current, FAIL",
    }
}

fn code_name(element: &Element) -> &'static str {
    match (element.kind(), element.verdict().code) {
        (Kind::Cooling, Code::Normal) => "cooling, code 1",
        (Kind::Cooling, Code::Critical) => "cooling, code 2",
        (Kind::Temperature, Code::Normal) => "temperature, code 1",
        (Kind::Temperature, Code::Critical) => "temperature, code 2",
        (Kind::Temperature, Code::NonCritical) => "temperature, code 3",
        (Kind::Temperature, Code::NoReading) => "temperature, code 6",
        (Kind::Voltage, Code::Normal) => "voltage, code 1",
        (Kind::Voltage, Code::Critical) => "voltage, code 2",
        (Kind::Voltage, Code::NonCritical) => "voltage, code 3",
        (Kind::Current, Code::Normal) => "current, code 1",
        (Kind::Current, Code::Critical) => "current, code 2",
        (Kind::Current, Code::NonCritical) => "current, code 3",
        (kind, code) => unreachable!("{kind:?} with {code:?}"),
    }
}
