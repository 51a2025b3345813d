//! The Configuration page, 01h.

use super::{framed, none_of, unframed, Refusal};
use crate::limits::{
    configuration_page_bytes, FIRST_LETTER, LAST_LETTER, MOST_ELEMENTS, MOST_OF_TYPE, MOST_TEXT,
    MOST_TYPES, PAGE_TYPES_AT,
};
use crate::record::{Configuration, Cursor, Identification, Kind, Type};

const CODE: u8 = 0x01;
const PROCESS_1_OF_1: u8 = 0x11;
const SUBENCLOSURE: u8 = 0;
const DESCRIPTOR_LENGTH: u8 = 0x24;
const HEADERS_AT: usize = configuration_page_bytes(0, 0);

pub fn page(configuration: &Configuration) -> Vec<u8> {
    let types = &configuration.types;
    let mut rest = configuration.generation.to_be_bytes().to_vec();
    rest.extend([
        PROCESS_1_OF_1,
        SUBENCLOSURE,
        types.len() as u8,
        DESCRIPTOR_LENGTH,
    ]);
    rest.extend(configuration.identification.bytes());
    for Type { kind, count, text } in types {
        rest.extend([kind.code(), *count as u8, 0, text.len() as u8]);
    }
    for Type { text, .. } in types {
        rest.extend(text);
    }
    framed(CODE, 0, &rest)
}

/// Refusals 2, 3, 4, 12, 6.
pub fn read(page: &[u8]) -> Result<Configuration, Refusal> {
    unframed(CODE, page)?;
    if needed(page) != Some(page.len()) {
        return Err(Refusal::NeededLength);
    }
    none_of(offences(page))?;
    Ok(told(page).expect("types that are served, and all bytes"))
}

/// The length that the headers ask for. None if there are too few bytes for the fixed part or for the headers.
pub fn needed(page: &[u8]) -> Option<usize> {
    let types = usize::from(*page.get(PAGE_TYPES_AT)?);
    let headers = page.get(HEADERS_AT..configuration_page_bytes(types, 0))?;
    let text_lengths = headers.chunks(4).map(|header| usize::from(header[3]));
    Some(configuration_page_bytes(types, text_lengths.sum()))
}

/// The offending bytes in page order, of a page that has the length it needs.
pub fn offences(page: &[u8]) -> impl Iterator<Item = usize> + '_ {
    let texts_at = configuration_page_bytes(page[PAGE_TYPES_AT].into(), 0);
    let mut elements = 0;
    (0..page.len()).filter(move |&at| {
        let byte = page[at];
        if at < HEADERS_AT {
            front_offends(at, byte)
        } else if at < texts_at {
            header_offends((at - HEADERS_AT) % 4, byte, &mut elements)
        } else {
            !(FIRST_LETTER..=LAST_LETTER).contains(&byte)
        }
    })
}

/// The code and the length are tested before, and a shelf may have any generation and identification.
fn front_offends(at: usize, byte: u8) -> bool {
    match at {
        1 => byte != 0,
        8 => byte != PROCESS_1_OF_1,
        9 => byte != SUBENCLOSURE,
        PAGE_TYPES_AT => !(1..=MOST_TYPES).contains(&byte.into()),
        11 => byte != DESCRIPTOR_LENGTH,
        _ => false,
    }
}

/// For a byte of a header, behind headers that have so many elements together. A total too large is told at the
/// count that passes the limit.
fn header_offends(at: usize, byte: u8, elements: &mut usize) -> bool {
    let number = usize::from(byte);
    match at {
        0 => Kind::from_code(byte).is_none(),
        1 => {
            let before = *elements;
            *elements += number;
            let passes = before <= MOST_ELEMENTS && *elements > MOST_ELEMENTS;
            number > MOST_OF_TYPE || passes
        }
        2 => byte != 0,
        _ => number > MOST_TEXT,
    }
}

fn told(page: &[u8]) -> Option<Configuration> {
    let (front, rest) = page.split_at(HEADERS_AT);
    let (headers, texts) = rest.split_at(4 * usize::from(page[PAGE_TYPES_AT]));
    let mut front = Cursor { rest: &front[4..] };
    let generation = u32::from_be_bytes(front.take()?);
    let _the_same_for_all: [u8; 4] = front.take()?;
    let identification = Identification::parse(&mut front)?;
    let mut texts = Cursor { rest: texts };
    let mut types = Vec::new();
    for header in headers.chunks(4) {
        types.push(Type {
            kind: Kind::from_code(header[0])?,
            count: header[1].into(),
            text: texts.take_some(header[3].into())?.to_vec(),
        });
    }
    Some(Configuration {
        generation,
        identification,
        types,
    })
}
