//! The Threshold Out page, 05h.

use super::{none_of, ElementPage, Refusal, TypeElements};
use crate::record::{Element, Group, Shelf, Thresholds};
use std::iter::zip;

pub const CODE: u8 = 0x05;
const RESERVED_IN_BYTE1: u8 = 0xFF;

/// The shelf after the page. Refusals 2, 3, 4, 12, 5 to 8.
pub fn after(shelf: &Shelf, page: &[u8]) -> Result<Shelf, Refusal> {
    let configuration = shelf.configuration();
    let page = ElementPage::read(CODE, &configuration, page)?;
    none_of(offences(&page))?;
    joined(shelf, &page.by_type(&configuration))
}

/// The only byte that can offend.
pub fn offences(page: &ElementPage) -> impl Iterator<Item = usize> {
    page.byte1_offence(RESERVED_IN_BYTE1).into_iter()
}

/// The shelf with what each type is asked for. Refusals 7, 8.
pub fn joined(shelf: &Shelf, asked: &[TypeElements]) -> Result<Shelf, Refusal> {
    if !zip(&shelf.groups, asked).all(|(group, asked)| has_all(group, asked)) {
        return Err(Refusal::NoSuchThreshold);
    }
    let mut after = shelf.clone();
    for (group, asked) in zip(&mut after.groups, asked) {
        join(group, asked);
    }
    if after.elements().all(keeps_order) {
        Ok(after)
    } else {
        Err(Refusal::ThresholdOrder)
    }
}

fn has_all(group: &Group, asked: &TypeElements) -> bool {
    asked
        .in_order()
        .all(|bytes| Thresholds::from_bytes(bytes).had_by(group.kind))
}

fn keeps_order(element: &Element) -> bool {
    element.thresholds().keep_order(element.kind())
}

fn join(group: &mut Group, asked: &TypeElements) {
    let overall = Thresholds::from_bytes(asked.overall);
    for (element, individual) in zip(&mut group.elements, &asked.individual) {
        let individual = Thresholds::from_bytes(*individual);
        *element.thresholds_mut() = element.thresholds().joined(overall, individual);
    }
}
