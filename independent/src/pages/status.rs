//! The Status page, 02h.

use super::{joined, none_of, parts, ElementPage, Refusal};
use crate::bits::{bit, flag};
use crate::element::Code;
use crate::limits::STATUS_ENTRY_BYTES;
use crate::record::{Configuration, Element, Group, Shelf};
use crate::shown::{Place, Shown};
use std::iter::{once, zip};

const CODE: u8 = 0x02;
/// All but NON-CRIT and CRIT.
const RESERVED_IN_BYTE1: u8 = 0xF9;
const WORST_FIRST: [Code; 4] = [
    Code::Critical,
    Code::NonCritical,
    Code::NoReading,
    Code::Normal,
];

/// What the page shows; its elements are one for each place.
#[derive(Clone, Debug, PartialEq, Eq)]
pub struct Status {
    noncritical: bool,
    critical: bool,
    pub shown: Vec<Shown>,
}

impl Status {
    pub fn of(shelf: &Shelf) -> Status {
        let any = |code| {
            shelf
                .elements()
                .any(|element| element.verdict().code == code)
        };
        let shown = shelf.groups.iter().flat_map(|group| {
            once(overall(group)).chain(group.elements.iter().map(Element::shown))
        });
        Status {
            noncritical: any(Code::NonCritical),
            critical: any(Code::Critical),
            shown: shown.collect(),
        }
    }

    pub fn page(&self, generation: u32) -> Vec<u8> {
        let page = ElementPage {
            byte1: flag(self.noncritical, 2) + flag(self.critical, 1),
            elements: self.shown.iter().map(Shown::element).collect(),
        };
        page.written(CODE, generation)
    }

    /// Refusals 2, 3, 4, 12, 5, 6.
    pub fn read(configuration: &Configuration, page: &[u8]) -> Result<Status, Refusal> {
        let page = ElementPage::read(CODE, configuration, page)?;
        none_of(offences(configuration, &page))?;
        let elements = zip(configuration.places(), page.elements);
        Ok(Status {
            noncritical: bit(page.byte1, 2),
            critical: bit(page.byte1, 1),
            shown: elements
                .map(|(place, element)| Shown::from_element(place, element))
                .collect(),
        })
    }

    pub fn record(&self) -> Vec<u8> {
        let entries: Vec<[u8; STATUS_ENTRY_BYTES]> = self.shown.iter().map(Shown::entry).collect();
        joined([self.noncritical.into(), self.critical.into()], &entries)
    }

    /// Refusals 9, 6.
    pub fn from_record(configuration: &Configuration, record: &[u8]) -> Result<Status, Refusal> {
        let ([noncritical, critical], entries) = parts(configuration, record)?;
        Ok(Status {
            noncritical: allowed_flag(noncritical)?,
            critical: allowed_flag(critical)?,
            shown: all_allowed(configuration, entries)?,
        })
    }
}

/// The offending bytes in page order.
pub fn offences<'a>(
    configuration: &Configuration,
    page: &'a ElementPage,
) -> impl Iterator<Item = usize> + 'a {
    let places = configuration.places().into_iter();
    let byte1 = page.byte1_offence(RESERVED_IN_BYTE1).into_iter();
    byte1.chain(page.element_offences(places, Place::offends))
}

fn overall(group: &Group) -> Shown {
    let worst = WORST_FIRST.into_iter().find(|code| {
        let mut elements = group.elements.iter();
        elements.any(|element| element.verdict().code == *code)
    });
    Shown::overall(worst.map_or(0, Code::number))
}

fn all_allowed(
    configuration: &Configuration,
    entries: Vec<[u8; STATUS_ENTRY_BYTES]>,
) -> Result<Vec<Shown>, Refusal> {
    let shown: Option<Vec<Shown>> = zip(configuration.places(), entries)
        .map(|(place, entry)| Shown::from_entry(place, entry))
        .collect();
    shown.ok_or(Refusal::NotAllowed)
}

fn allowed_flag(byte: u8) -> Result<bool, Refusal> {
    match byte {
        0 => Ok(false),
        1 => Ok(true),
        _ => Err(Refusal::NotAllowed),
    }
}
