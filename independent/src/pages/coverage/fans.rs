//! How often fans were ON and stopped, shown so, asked to become so, and went there and back.

use super::tally::{Table, Tally};
use crate::bits::bit;
use crate::limits::STATUS_ENTRY_BYTES;
use crate::record::{Element, FanSettings, Kind, Shelf};
use crate::shown::Place;
use std::iter::zip;

const SPEEDS: &[u8] = &[1, 2, 3, 4, 5, 6, 7];

const WRITTEN: Table = Table {
    title: "fans on the status pages written, by the stored SPEED",
    possible: &[
        ("ON, reading 0", SPEEDS),
        ("ON, turning", SPEEDS),
        ("stopped, reading 0", SPEEDS),
        ("stopped, turning", SPEEDS),
    ],
};

/// By speed code. Only two of these can be written of a shelf: ON with a code that is not 0, OFF with 0.
const SHOWN: &[(&str, &[u8])] = &[
    ("RQSTED ON", &[0, 1, 2, 3, 4, 5, 6, 7]),
    ("OFF", &[0, 1, 2, 3, 4, 5, 6, 7]),
    ("both", &[0, 1, 2, 3, 4, 5, 6, 7]),
    ("neither", &[0, 1, 2, 3, 4, 5, 6, 7]),
];

const READ: Table = Table {
    title: "fans on status pages read, by the speed code",
    possible: SHOWN,
};

const REWRITTEN: Table = Table {
    title: "fans on status pages written again, by the speed code",
    possible: SHOWN,
};

const ASKED: Table = Table {
    title:
        "fans under control pages, asked for speed code 0: 0, that of the stored SPEED 1, another 2",
    possible: &[
        ("ON, stays ON", &[0, 1, 2]),
        ("ON, is stopped", &[0, 1, 2]),
        ("stopped, is started", &[0, 1, 2]),
        ("stopped, stays so", &[0, 1, 2]),
    ],
};

const WANTED: Table = Table {
    title: "fans on pages built, wanted with the stored SPEED 0, another 1",
    possible: &[
        ("ON, stays ON", &[0, 1]),
        ("ON, is stopped", &[0, 1]),
        ("stopped, is started", &[0, 1]),
        ("stopped, stays so", &[0, 1]),
    ],
};

const RETURNED: Table = Table {
    title: "fans with the status page written before, between and after two control pages, by the stored SPEED",
    possible: &[
        ("stopped and started", SPEEDS),
        ("started and stopped", SPEEDS),
    ],
};

/// Of a status record, with what it is for.
pub type Entry = (Place, [u8; STATUS_ENTRY_BYTES]);

#[derive(Default)]
pub struct Fans {
    written: Tally,
    read: Tally,
    rewritten: Tally,
    asked: Tally,
    wanted: Tally,
    returned: Tally,
}

impl Fans {
    pub fn print(&self) -> bool {
        let tallies = [
            (&self.written, &WRITTEN),
            (&self.read, &READ),
            (&self.rewritten, &REWRITTEN),
            (&self.asked, &ASKED),
            (&self.wanted, &WANTED),
            (&self.returned, &RETURNED),
        ];
        let mut enough = true;
        for (tally, table) in tallies {
            enough &= tally.print(table);
        }
        enough
    }

    /// Of a shelf whose status page was written, and the trail up to it.
    pub fn count_written(&mut self, shelf: &Shelf, trail: &[Shelf]) {
        for (settings, reading) in fans(shelf) {
            let name = match (settings.on, reading) {
                (true, 0) => "ON, reading 0",
                (true, _) => "ON, turning",
                (false, 0) => "stopped, reading 0",
                (false, _) => "stopped, turning",
            };
            self.written.count(name, settings.speed);
        }
        self.count_returned(trail);
    }

    pub fn count_read(&mut self, entries: &[Entry]) {
        count_shown(&mut self.read, entries);
    }

    pub fn count_rewritten(&mut self, entries: &[Entry]) {
        count_shown(&mut self.rewritten, entries);
    }

    /// Of an element, and the control element that acts on it.
    pub fn count_asked(&mut self, element: &Element, asked: [u8; 4]) {
        if let Element::Cooling { settings, .. } = element {
            let (on, code) = on_and_speed(asked);
            let number = match code {
                0 => 0,
                code if code == settings.speed => 1,
                _ => 2,
            };
            self.asked.count(turn(settings.on, on), number);
        }
    }

    /// Of a shelf, and a list of settings that a page was built for.
    pub fn count_wanted(&mut self, shelf: &Shelf, wanted: &[u8]) {
        for (element, wanted) in zip(shelf.elements(), wanted.chunks_exact(4)) {
            if let Element::Cooling { settings, .. } = element {
                let (on, speed) = on_and_speed(wanted.try_into().expect("four bytes"));
                let number = u8::from(speed != settings.speed);
                self.wanted.count(turn(settings.on, on), number);
            }
        }
    }

    fn count_returned(&mut self, trail: &[Shelf]) {
        if let [.., first, between, last] = trail {
            let others = zip(fans(between), fans(last));
            for ((first, _), ((between, _), (last, _))) in zip(fans(first), others) {
                let turned = FanSettings {
                    on: !first.on,
                    ..first
                };
                if between == turned && last == first {
                    let name = if first.on {
                        "stopped and started"
                    } else {
                        "started and stopped"
                    };
                    self.returned.count(name, first.speed);
                }
            }
        }
    }
}

fn count_shown(tally: &mut Tally, entries: &[Entry]) {
    for (place, entry) in entries {
        if *place == Place::Individual(Kind::Cooling) {
            let [.., rqsted_on, off, code, _, _, _, _, _] = *entry;
            let name = match (rqsted_on, off) {
                (1, 0) => "RQSTED ON",
                (0, 1) => "OFF",
                (1, _) => "both",
                _ => "neither",
            };
            tally.count(name, code);
        }
    }
}

/// The settings of each fan, and its reading.
fn fans(shelf: &Shelf) -> impl Iterator<Item = (FanSettings, u16)> + '_ {
    shelf.elements().filter_map(|element| match element {
        Element::Cooling {
            settings, reading, ..
        } => Some((*settings, *reading)),
        _ => None,
    })
}

/// A fan's settings have both where a control element for it has them.
fn on_and_speed([_, _, _, byte3]: [u8; 4]) -> (bool, u8) {
    (bit(byte3, 5), byte3 % 8)
}

fn turn(from_on: bool, to_on: bool) -> &'static str {
    match (from_on, to_on) {
        (true, true) => "ON, stays ON",
        (true, false) => "ON, is stopped",
        (false, true) => "stopped, is started",
        (false, false) => "stopped, stays so",
    }
}
