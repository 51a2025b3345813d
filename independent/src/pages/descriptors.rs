//! The Element Descriptor page, 07h, and the names of a shelf.

use super::{framed, joined, none_of, parts, unframed, Body, Refusal};
use crate::limits::{descriptor_page_bytes, DESCRIPTOR_HEAD_BYTES, MOST_NAME, NAME_BYTES};
use crate::record::{is_letter, Configuration, Cursor, Name, Shelf};

const CODE: u8 = 0x07;

/// The name of each place, overall elements included, with zeros behind its end.
#[derive(Clone, Debug, PartialEq, Eq)]
pub struct NameList(Vec<Name>);

impl NameList {
    pub fn of(shelf: &Shelf) -> NameList {
        NameList(
            shelf
                .names()
                .map(|name| of_letters(name.letters()))
                .collect(),
        )
    }

    pub fn page(&self, generation: u32) -> Vec<u8> {
        let mut rest = generation.to_be_bytes().to_vec();
        for name in &self.0 {
            let letters = name.letters();
            rest.extend([0, 0]);
            rest.extend((letters.len() as u16).to_be_bytes());
            rest.extend(letters);
        }
        framed(CODE, 0, &rest)
    }

    /// Refusals 2, 3, 4, 12, 5, 6.
    pub fn read(configuration: &Configuration, page: &[u8]) -> Result<NameList, Refusal> {
        let page = DescriptorPage::read(configuration, page)?;
        if page.generation != configuration.generation.to_be_bytes() {
            return Err(Refusal::Generation);
        }
        none_of(page.offences())?;
        let texts = page.descriptors.iter();
        Ok(NameList(texts.map(|told| of_letters(told.text)).collect()))
    }

    pub fn record(&self) -> Vec<u8> {
        let entries: Vec<[u8; NAME_BYTES]> = self.0.iter().map(|name| name.0).collect();
        joined([0, 0], &entries)
    }

    /// Refusals 9, 6.
    pub fn from_record(configuration: &Configuration, record: &[u8]) -> Result<NameList, Refusal> {
        let (_spare, entries) = parts(configuration, record)?;
        let names: Vec<Name> = entries.into_iter().map(Name).collect();
        let zeros_behind = |name: &Name| *name == of_letters(name.letters());
        if names.iter().all(zeros_behind) {
            Ok(NameList(names))
        } else {
            Err(Refusal::NotAllowed)
        }
    }
}

fn of_letters(letters: &[u8]) -> Name {
    Name::of(letters).expect("letters, and not too many")
}

/// A page that has just the bytes that its descriptors declare.
pub struct DescriptorPage<'a> {
    byte1: u8,
    generation: [u8; 4],
    pub descriptors: Vec<Descriptor<'a>>,
}

pub struct Descriptor<'a> {
    /// Where it stands on the page.
    pub at: usize,
    pub head: [u8; DESCRIPTOR_HEAD_BYTES],
    pub text: &'a [u8],
}

impl<'a> DescriptorPage<'a> {
    /// Refusals 2, 3, 4, 12.
    pub fn read(
        configuration: &Configuration,
        page: &'a [u8],
    ) -> Result<DescriptorPage<'a>, Refusal> {
        let Body { byte1, rest } = unframed(CODE, page)?;
        let taken = taken_apart(byte1, rest, configuration.places().len());
        taken.ok_or(Refusal::NeededLength)
    }

    /// The offending bytes in page order; a length that is too large, at its first byte.
    pub fn offences(&self) -> Vec<usize> {
        let mut offences = Vec::new();
        if self.byte1 != 0 {
            offences.push(1);
        }
        for Descriptor { at, head, text } in &self.descriptors {
            let [zero, another_zero, _, _] = *head;
            if zero != 0 {
                offences.push(*at);
            }
            if another_zero != 0 {
                offences.push(at + 1);
            }
            if text.len() > MOST_NAME {
                offences.push(at + 2);
            }
            let letters = at + DESCRIPTOR_HEAD_BYTES..;
            let not_letters = letters.zip(*text).filter(|(_, byte)| !is_letter(byte));
            offences.extend(not_letters.map(|(at, _)| at));
        }
        offences
    }
}

/// None if the page ends before its descriptors do, or behind them.
fn taken_apart(byte1: u8, rest: &[u8], places: usize) -> Option<DescriptorPage<'_>> {
    let mut cursor = Cursor { rest };
    let generation = cursor.take()?;
    let mut descriptors = Vec::new();
    let mut at = descriptor_page_bytes(0, 0);
    for _ in 0..places {
        let head: [u8; DESCRIPTOR_HEAD_BYTES] = cursor.take()?;
        let length = usize::from(u16::from_be_bytes([head[2], head[3]]));
        let text = cursor.take_some(length)?;
        descriptors.push(Descriptor { at, head, text });
        at += DESCRIPTOR_HEAD_BYTES + length;
    }
    cursor.rest.is_empty().then_some(DescriptorPage {
        byte1,
        generation,
        descriptors,
    })
}

/// The first element that has this name, through all types. Overall names are not looked at.
pub fn found(shelf: &Shelf, text: &[u8]) -> Option<usize> {
    let mut names = shelf.groups.iter().flat_map(|group| &group.names);
    names.position(|name| name.letters() == text)
}

/// The shelf with this name for an element. Refusals 15, 6.
pub fn named(shelf: &Shelf, element: usize, text: &[u8]) -> Result<Shelf, Refusal> {
    let mut after = shelf.clone();
    let mut names = after.groups.iter_mut().flat_map(|group| &mut group.names);
    let name = names.nth(element).ok_or(Refusal::NoSuchElement)?;
    *name = Name::of(text).ok_or(Refusal::NotAllowed)?;
    Ok(after)
}

/// The shelf with this name for the overall element of a type. Refusals 15, 6.
pub fn named_overall(shelf: &Shelf, of_type: usize, text: &[u8]) -> Result<Shelf, Refusal> {
    let mut after = shelf.clone();
    let group = after
        .groups
        .get_mut(of_type)
        .ok_or(Refusal::NoSuchElement)?;
    group.overall_name = Name::of(text).ok_or(Refusal::NotAllowed)?;
    Ok(after)
}
