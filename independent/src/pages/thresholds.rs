//! The Threshold In page, 05h.

use super::{joined, none_of, parts, ElementPage, Refusal};
use crate::record::{Configuration, Element, Kind, Shelf, Thresholds};
use crate::shown::Place;
use std::iter::{once, zip};

const CODE: u8 = 0x05;
const RESERVED_IN_BYTE1: u8 = 0xFF;

/// The thresholds of each place, overall elements included.
#[derive(Clone, Debug, PartialEq, Eq)]
pub struct ThresholdList(Vec<Thresholds>);

impl ThresholdList {
    pub fn of(shelf: &Shelf) -> ThresholdList {
        let listed = shelf.groups.iter().flat_map(|group| {
            let individual = group.elements.iter().map(Element::thresholds);
            once(Thresholds::default()).chain(individual)
        });
        ThresholdList(listed.collect())
    }

    pub fn page(&self, generation: u32) -> Vec<u8> {
        let page = ElementPage {
            byte1: 0,
            elements: self.bytes(),
        };
        page.written(CODE, generation)
    }

    /// Refusals 2, 3, 4, 12, 5 to 8.
    pub fn read(configuration: &Configuration, page: &[u8]) -> Result<ThresholdList, Refusal> {
        let page = ElementPage::read(CODE, configuration, page)?;
        none_of(offences(configuration, &page))?;
        ThresholdList::had_in_order(configuration, &page.elements)
    }

    pub fn record(&self) -> Vec<u8> {
        joined([0, 0], &self.bytes())
    }

    /// Refusals 9, 6, 7, 8.
    pub fn from_record(
        configuration: &Configuration,
        record: &[u8],
    ) -> Result<ThresholdList, Refusal> {
        let (_spare, entries) = parts(configuration, record)?;
        let mut places = zip(configuration.places(), &entries);
        if places.any(|(place, entry)| (0..4).any(|at| offends(place, *entry, at))) {
            return Err(Refusal::NotAllowed);
        }
        ThresholdList::had_in_order(configuration, &entries)
    }

    fn bytes(&self) -> Vec<[u8; 4]> {
        self.0.iter().map(Thresholds::bytes).collect()
    }

    /// Refusals 7, 8.
    pub fn had_in_order(
        configuration: &Configuration,
        given: &[[u8; 4]],
    ) -> Result<ThresholdList, Refusal> {
        let listed = given.iter().map(|bytes| Thresholds::from_bytes(*bytes));
        let listed: Vec<Thresholds> = listed.collect();
        let mut individual: Vec<(Kind, Thresholds)> = Vec::new();
        for (place, thresholds) in zip(configuration.places(), &listed) {
            if let Place::Individual(kind) = place {
                individual.push((kind, *thresholds));
            }
        }
        if individual.iter().any(|(kind, set)| !set.had_by(*kind)) {
            Err(Refusal::NoSuchThreshold)
        } else if individual.iter().any(|(kind, set)| !set.keep_order(*kind)) {
            Err(Refusal::ThresholdOrder)
        } else {
            Ok(ThresholdList(listed))
        }
    }
}

/// The offending bytes in page order.
pub fn offences<'a>(
    configuration: &Configuration,
    page: &'a ElementPage,
) -> impl Iterator<Item = usize> + 'a {
    let places = configuration.places().into_iter();
    let byte1 = page.byte1_offence(RESERVED_IN_BYTE1).into_iter();
    byte1.chain(page.element_offences(places, offends))
}

fn offends(place: Place, element: [u8; 4], at: usize) -> bool {
    place == Place::Overall && element[at] != 0
}
