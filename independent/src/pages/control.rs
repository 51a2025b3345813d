//! The Enclosure Control page, 02h.

use super::{none_of, ElementPage, Refusal, TypeElements};
use crate::element::Request;
use crate::record::{Configuration, Group, Shelf};
use std::iter::{repeat, zip};

pub const CODE: u8 = 0x02;
const RESERVED_IN_BYTE1: u8 = 0xF0;

/// The shelf after the page. Refusals 2, 3, 4, 12, 5, 6.
pub fn after(shelf: &Shelf, page: &[u8]) -> Result<Shelf, Refusal> {
    let configuration = shelf.configuration();
    let page = ElementPage::read(CODE, &configuration, page)?;
    none_of(offences(&configuration, &page))?;
    let mut after = shelf.clone();
    for (group, asked) in zip(&mut after.groups, page.by_type(&configuration)) {
        obey(group, &asked);
    }
    Ok(after)
}

/// The offending bytes in page order.
pub fn offences<'a>(
    configuration: &'a Configuration,
    page: &'a ElementPage,
) -> impl Iterator<Item = usize> + 'a {
    let types = configuration.types.iter();
    let kinds = types.flat_map(|entry| repeat(entry.kind).take(1 + entry.count));
    let byte1 = page.byte1_offence(RESERVED_IN_BYTE1).into_iter();
    byte1.chain(page.element_offences(kinds, Request::offends))
}

/// An individual element with SELECT acts alone, one without leaves its element to the overall one.
fn obey(group: &mut Group, asked: &TypeElements) {
    let overall = Request::decode(group.kind, asked.overall);
    for (element, individual) in zip(&mut group.elements, &asked.individual) {
        let individual = Request::decode(group.kind, *individual);
        if let Some(request) = individual.or(overall) {
            element.obey(request);
        }
    }
}
