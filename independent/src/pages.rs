//! The pages 01h, 02h, 05h and 07h: what the readers of each hand back, what those that act do to a shelf, at once
//! or in pieces, and which is best for a wish; and the names of a shelf.

mod before;
mod builder;
pub mod calls;
pub mod cases;
pub mod collector;
pub mod compare;
mod configuration;
mod control;
mod coverage;
mod descriptors;
mod fail_before;
mod status;
mod threshold_out;
mod thresholds;

use crate::limits::element_page_bytes;
use crate::record::Configuration;
use std::iter::{once, zip};

#[derive(Clone, Copy, Debug, PartialEq, Eq)]
pub enum Refusal {
    NotWellFormed,
    PageTooShort,
    PageCode,
    PageLength,
    NeededLength,
    Generation,
    /// On a page, at the first byte that offends.
    NotAllowedAt(usize),
    /// In a record handed in.
    NotAllowed,
    NoSuchThreshold,
    ThresholdOrder,
    Entries,
    Unreachable,
    OutputTooShort,
    /// Or no such type, for an overall one.
    NoSuchElement,
}

impl Refusal {
    pub fn number(self) -> u8 {
        match self {
            Refusal::NotWellFormed => 1,
            Refusal::PageTooShort => 2,
            Refusal::PageCode => 3,
            Refusal::PageLength => 4,
            Refusal::Generation => 5,
            Refusal::NotAllowedAt(_) | Refusal::NotAllowed => 6,
            Refusal::NoSuchThreshold => 7,
            Refusal::ThresholdOrder => 8,
            Refusal::Entries => 9,
            Refusal::Unreachable => 10,
            Refusal::OutputTooShort => 11,
            Refusal::NeededLength => 12,
            Refusal::NoSuchElement => 15,
        }
    }

    /// 0 if it tells none: byte 0 of a page is its code and never offends.
    fn offset(self) -> usize {
        match self {
            Refusal::NotAllowedAt(offset) => offset,
            _ => 0,
        }
    }
}

/// Refusal 6 for the first of a page's offending bytes, which come in page order.
fn none_of(offences: impl IntoIterator<Item = usize>) -> Result<(), Refusal> {
    match offences.into_iter().next() {
        Some(offset) => Err(Refusal::NotAllowedAt(offset)),
        None => Ok(()),
    }
}

/// A page behind its first four bytes.
struct Body<'a> {
    byte1: u8,
    rest: &'a [u8],
}

fn framed(code: u8, byte1: u8, rest: &[u8]) -> Vec<u8> {
    let mut page = vec![code, byte1];
    page.extend((rest.len() as u16).to_be_bytes());
    page.extend(rest);
    page
}

/// Refusals 2, 3, 4.
fn unframed(code: u8, page: &[u8]) -> Result<Body<'_>, Refusal> {
    match *page {
        [byte0, _, _, _, ..] if byte0 != code => Err(Refusal::PageCode),
        [_, byte1, upper, lower, ref rest @ ..] => {
            if rest.len() == usize::from(u16::from_be_bytes([upper, lower])) {
                Ok(Body { byte1, rest })
            } else {
                Err(Refusal::PageLength)
            }
        }
        _ => Err(Refusal::PageTooShort),
    }
}

/// A page 02h or 05h: one element for each place of the configuration.
struct ElementPage {
    byte1: u8,
    elements: Vec<[u8; 4]>,
}

impl ElementPage {
    fn written(&self, code: u8, generation: u32) -> Vec<u8> {
        let mut rest = generation.to_be_bytes().to_vec();
        rest.extend(self.elements.concat());
        framed(code, self.byte1, &rest)
    }

    /// Refusals 2, 3, 4, 12, 5.
    fn read(code: u8, configuration: &Configuration, page: &[u8]) -> Result<ElementPage, Refusal> {
        let Body { byte1, rest } = unframed(code, page)?;
        let words: Result<Vec<[u8; 4]>, _> = rest.chunks(4).map(TryInto::try_into).collect();
        let words = words.map_err(|_| Refusal::NeededLength)?;
        let (generation, elements) = words.split_first().ok_or(Refusal::NeededLength)?;
        if elements.len() != configuration.places().len() {
            return Err(Refusal::NeededLength);
        }
        if *generation != configuration.generation.to_be_bytes() {
            return Err(Refusal::Generation);
        }
        Ok(ElementPage {
            byte1,
            elements: elements.to_vec(),
        })
    }

    /// Page byte 1, if one of these bits is set in it.
    fn byte1_offence(&self, reserved: u8) -> Option<usize> {
        (self.byte1 & reserved != 0).then_some(1)
    }

    /// The offending bytes of the elements. Whether a byte of an element offends depends on what that element
    /// is for.
    fn element_offences<'a, T: Copy + 'a>(
        &'a self,
        elements_are_for: impl Iterator<Item = T> + 'a,
        offends: fn(T, [u8; 4], usize) -> bool,
    ) -> impl Iterator<Item = usize> + 'a {
        let elements = zip(elements_are_for, &self.elements).enumerate();
        elements.flat_map(move |(place, (is_for, element))| {
            let bytes = (0..4).filter(move |at| offends(is_for, *element, *at));
            bytes.map(move |at| element_page_bytes(place) + at)
        })
    }
}

/// The elements of a page that acts, for one type.
struct TypeElements {
    overall: [u8; 4],
    individual: Vec<[u8; 4]>,
}

impl ElementPage {
    /// One for each type of the configuration that the page was read under.
    fn by_type(&self, configuration: &Configuration) -> Vec<TypeElements> {
        let mut elements = self.elements.iter().copied();
        let types = configuration.types.iter().map(|entry| TypeElements {
            overall: elements.next().expect("an element for each place"),
            individual: elements.by_ref().take(entry.count).collect(),
        });
        types.collect()
    }
}

impl TypeElements {
    /// The overall element first, as on the page.
    fn in_order(&self) -> impl Iterator<Item = [u8; 4]> + '_ {
        once(self.overall).chain(self.individual.iter().copied())
    }
}

/// A record 02h, 05h or 07h in parts: two leading bytes, and as many entries as the configuration has
/// places. Refusal 9 if it says another number.
fn parts<const N: usize>(
    configuration: &Configuration,
    record: &[u8],
) -> Result<([u8; 2], Vec<[u8; N]>), Refusal> {
    let places = configuration.places().len();
    match *record {
        [first, second, upper, lower, ref entries @ ..]
            if usize::from(u16::from_be_bytes([upper, lower])) == places =>
        {
            let entries = entries.chunks_exact(N).take(places);
            let entries = entries.map(|entry| entry.try_into().expect("a chunk of this length"));
            Ok(([first, second], entries.collect()))
        }
        _ => Err(Refusal::Entries),
    }
}

fn joined<const N: usize>(leading: [u8; 2], entries: &[[u8; N]]) -> Vec<u8> {
    let mut record = leading.to_vec();
    record.extend((entries.len() as u16).to_be_bytes());
    record.extend(entries.concat());
    record
}
