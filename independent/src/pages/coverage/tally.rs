//! How often something came up, and how it is printed.

use crate::record::Kind;
use crate::shown::Place;
use std::collections::BTreeMap;

pub const LEAST_OF_EACH: usize = 100;

/// The numbers that can come up under each name.
pub struct Table<'a> {
    pub title: &'a str,
    pub possible: &'a [(&'static str, &'a [u8])],
}

/// How often each number came up under each name.
#[derive(Default)]
pub struct Tally(BTreeMap<(&'static str, u8), usize>);

impl Tally {
    pub fn count(&mut self, name: &'static str, number: u8) {
        *self.0.entry((name, number)).or_insert(0) += 1;
    }

    /// One line for each name; false if a number that can come up did so too rarely.
    pub fn print(&self, table: &Table) -> bool {
        println!("pages: {}", table.title);
        let mut enough = true;
        for (name, numbers) in table.possible {
            print!("  {name:21}");
            for number in *numbers {
                let times = self.0.get(&(*name, *number)).copied().unwrap_or(0);
                print!(" {number:2}: {times:<6}");
                enough &= times >= LEAST_OF_EACH;
            }
            println!();
        }
        enough
    }
}

pub fn place_name(place: Place) -> &'static str {
    match place {
        Place::Overall => "overall",
        Place::Individual(kind) => kind_name(kind),
    }
}

/// Whatever the type.
pub fn sort_name(place: Place) -> &'static str {
    match place {
        Place::Overall => "overall",
        Place::Individual(_) => "individual",
    }
}

pub fn kind_name(kind: Kind) -> &'static str {
    match kind {
        Kind::Cooling => "cooling",
        Kind::Temperature => "temperature",
        Kind::Voltage => "voltage",
        Kind::Current => "current",
    }
}
