//! The Enclosure Control page for a wish, found by trying every element.

use super::{control, ElementPage, Refusal};
use crate::bits::bit;
use crate::element::Request;
use crate::record::{Cursor, Element, Group, Shelf};
use std::iter::{once, zip};

/// Of the unselected elements, which all do the same, the first in dictionary order.
const UNSELECTED: [u8; 4] = [0; 4];

/// One type's elements of a page, the overall one first. Fewer SELECTs are less, then the dictionary decides.
#[derive(PartialEq, Eq, PartialOrd, Ord)]
struct Part {
    selects: usize,
    elements: Vec<[u8; 4]>,
}

/// Of the pages that bring the shelf to the wish with the fewest SELECTs, the first in dictionary order.
/// Refusals 9, 10.
pub fn page(shelf: &Shelf, wanted: &[u8]) -> Result<Vec<u8>, Refusal> {
    let wish = wish(shelf, wanted).ok_or(Refusal::Entries)?;
    let parts = zip(&shelf.groups, &wish.groups).map(|(stored, wish)| best_part(stored, wish));
    let parts: Option<Vec<Part>> = parts.collect();
    let parts = parts.ok_or(Refusal::Unreachable)?;
    let page = ElementPage {
        byte1: 0,
        elements: parts.into_iter().flat_map(|part| part.elements).collect(),
    };
    Ok(page.written(control::CODE, shelf.generation))
}

/// How many elements of a page have SELECT.
pub fn selects(page: &[u8]) -> usize {
    let elements = page.chunks_exact(4).skip(2);
    elements.filter(|element| bit(element[0], 7)).count()
}

/// The shelf as it should become. None if the list has another length, or a record that its type may not
/// have.
fn wish(shelf: &Shelf, wanted: &[u8]) -> Option<Shelf> {
    let mut records = Cursor { rest: wanted };
    let mut wish = shelf.clone();
    for group in &mut wish.groups {
        for element in &mut group.elements {
            *element = element.with_settings(records.take()?)?;
        }
    }
    records.rest.is_empty().then_some(wish)
}

/// The least part that brings the type there, over every overall element.
fn best_part(stored: &Group, wish: &Group) -> Option<Part> {
    let requests = Request::every(stored.kind);
    let elements: Vec<Wanted> = zip(&stored.elements, &wish.elements)
        .map(|(stored, wish)| Wanted::of(*stored, *wish, &requests))
        .collect();
    let unselected = (UNSELECTED, None);
    let selected = requests
        .into_iter()
        .map(|(bytes, request)| (bytes, Some(request)));
    once(unselected)
        .chain(selected)
        .filter_map(|(bytes, request)| Part::under(bytes, request, &elements))
        .min()
}

/// One element, what it should become, and the first selected individual element that brings it there.
struct Wanted {
    stored: Element,
    wish: Element,
    selected: Option<[u8; 4]>,
}

impl Wanted {
    fn of(stored: Element, wish: Element, requests: &[([u8; 4], Request)]) -> Wanted {
        let reaching = requests
            .iter()
            .filter(|(_, request)| stored.obeying(Some(*request)) == wish);
        Wanted {
            stored,
            wish,
            selected: reaching.map(|(bytes, _)| *bytes).min(),
        }
    }

    /// The best individual element under this overall request; unselected it has a SELECT less.
    fn individual(&self, overall: Option<Request>) -> Option<[u8; 4]> {
        if self.stored.obeying(overall) == self.wish {
            Some(UNSELECTED)
        } else {
            self.selected
        }
    }
}

impl Part {
    /// The best part that has this overall element, if any reaches the wish.
    fn under(overall: [u8; 4], request: Option<Request>, wanted: &[Wanted]) -> Option<Part> {
        let mut elements = vec![overall];
        for element in wanted {
            elements.push(element.individual(request)?);
        }
        let selected = elements.iter().filter(|element| bit(element[0], 7));
        Some(Part {
            selects: selected.count(),
            elements,
        })
    }
}
