//! What a page got before request One, when 4 was for either wrong length and 6 told no offset. The tests stand
//! in their order of then, written apart from those of today but for 1, 7 and 8, which have not changed.

use super::calls::{
    APPLY_CONTROL, APPLY_THRESHOLDS, END_PAGE, READ_CONFIGURATION, READ_STATUS, READ_THRESHOLDS,
};
use super::cases::case::Case;
use super::thresholds::ThresholdList;
use super::{configuration, threshold_out, ElementPage, Refusal};
use crate::limits::{element_page_bytes, COLLECTOR_BYTES, HIGHEST_CODE};
use crate::record::{self, Configuration, Cursor, Identification, Kind, Shelf, Type};
use crate::shown::Place;
use std::iter::zip;

/// The number of then, 0 if the page was accepted. None for a call that neither reads nor applies one.
pub fn number(case: &Case) -> Option<u8> {
    let Case { call, inputs, lent } = case;
    let is = |letter: u8| call.letter == letter;
    let outcome = if is(READ_CONFIGURATION.letter) {
        configuration_read(&inputs[0])
    } else if is(READ_STATUS.letter) {
        status_read(&inputs[0], &inputs[1])
    } else if is(READ_THRESHOLDS.letter) {
        thresholds_read(&inputs[0], &inputs[1])
    } else if is(APPLY_CONTROL.letter) {
        control_applied(lent, &inputs[0])
    } else if is(APPLY_THRESHOLDS.letter) {
        thresholds_applied(lent, &inputs[0])
    } else if is(END_PAGE.letter) {
        joined_and_applied(&lent[COLLECTOR_BYTES..], inputs[1][0], &inputs[0])
    } else {
        return None;
    };
    Some(outcome.err().unwrap_or(0))
}

type Outcome = Result<(), u8>;

fn configuration_read(page: &[u8]) -> Outcome {
    let told = Told::parse(page);
    lengths(0x01, page, told.is_some())?;
    test(6, !told.map_or(false, |told| told.by_a_shelf(page)))
}

fn status_read(configuration: &[u8], page: &[u8]) -> Outcome {
    let configuration = Configuration::read(configuration).ok_or(1)?;
    header(0x02, &configuration, page)?;
    let mut elements = zip(configuration.places(), words(page));
    let any = elements.any(|(place, element)| nameless_in_status(place, element));
    test(6, page[1] & !0x06 != 0 || any)
}

fn thresholds_read(configuration: &[u8], page: &[u8]) -> Outcome {
    let configuration = Configuration::read(configuration).ok_or(1)?;
    header(0x05, &configuration, page)?;
    let mut elements = zip(configuration.places(), words(page));
    let any = elements.any(|(place, element)| place == Place::Overall && element != 0);
    test(6, page[1] != 0 || any)?;
    as_today(ThresholdList::had_in_order(
        &configuration,
        &elements_of(page),
    ))
}

fn control_applied(shelf: &[u8], page: &[u8]) -> Outcome {
    let configuration = well_formed(shelf)?.configuration();
    header(0x02, &configuration, page)?;
    let types = configuration.types.iter();
    let kinds = types.flat_map(|entry| vec![entry.kind; 1 + entry.count]);
    let any = zip(kinds, words(page)).any(|(kind, element)| reserved_in_control(kind, element));
    test(6, page[1] & 0xF0 != 0 || any)
}

fn thresholds_applied(shelf: &[u8], page: &[u8]) -> Outcome {
    let shelf = well_formed(shelf)?;
    let configuration = shelf.configuration();
    header(0x05, &configuration, page)?;
    test(6, page[1] != 0)?;
    let page = ElementPage {
        byte1: page[1],
        elements: elements_of(page),
    };
    as_today(threshold_out::joined(&shelf, &page.by_type(&configuration)))
}

/// A page that has come in pieces, by the one call for the code meant.
fn joined_and_applied(shelf: &[u8], code: u8, page: &[u8]) -> Outcome {
    match code {
        0x02 => control_applied(shelf, page),
        0x05 => thresholds_applied(shelf, page),
        _ => {
            well_formed(shelf)?;
            test(2, page.len() < 4)?;
            Err(3)
        }
    }
}

fn test(number: u8, holds: bool) -> Outcome {
    if holds {
        Err(number)
    } else {
        Ok(())
    }
}

fn as_today<T>(outcome: Result<T, Refusal>) -> Outcome {
    outcome.map(|_| ()).map_err(Refusal::number)
}

fn well_formed(block: &[u8]) -> Result<Shelf, u8> {
    record::read(block).filter(Shelf::well_formed).ok_or(1)
}

fn lengths(code: u8, page: &[u8], is_needed: bool) -> Outcome {
    test(2, page.len() < 4)?;
    test(3, page[0] != code)?;
    let said = 4 + 256 * usize::from(page[2]) + usize::from(page[3]);
    test(4, page.len() != said || !is_needed)
}

fn header(code: u8, configuration: &Configuration, page: &[u8]) -> Outcome {
    let elements: usize = configuration.types.iter().map(|entry| entry.count).sum();
    let needed = element_page_bytes(configuration.types.len() + elements);
    lengths(code, page, page.len() == needed)?;
    test(5, page[4..8] != configuration.generation.to_be_bytes())
}

fn elements_of(page: &[u8]) -> Vec<[u8; 4]> {
    let elements = page[8..].chunks(4);
    elements
        .map(|element| element.try_into().expect("four bytes"))
        .collect()
}

fn words(page: &[u8]) -> impl Iterator<Item = u32> {
    elements_of(page).into_iter().map(u32::from_be_bytes)
}

fn nameless_in_status(place: Place, element: u32) -> bool {
    let named = match place {
        Place::Overall => 0x0F00_0000,
        Place::Individual(Kind::Cooling) => 0x7F87_FF77,
        Place::Individual(Kind::Temperature) => 0x7FC0_FF0F,
        Place::Individual(Kind::Voltage) => 0x7FCF_FFFF,
        Place::Individual(Kind::Current) => 0x7FCA_FFFF,
    };
    element & !named != 0 || element >> 24 & 0x0F > HIGHEST_CODE.into()
}

fn reserved_in_control(kind: Kind, element: u32) -> bool {
    let named = match kind {
        Kind::Cooling => 0xF080_0067,
        Kind::Temperature | Kind::Voltage | Kind::Current => 0xF0C0_0000,
    };
    element >> 31 == 1 && element & !named != 0
}

/// A configuration page taken apart by the lengths in it, whatever it says.
struct Told {
    generation: [u8; 4],
    identification: Identification,
    headers: Vec<[u8; 4]>,
    texts: Vec<Vec<u8>>,
}

impl Told {
    /// None if there are fewer bytes than the lengths ask for, or more.
    fn parse(page: &[u8]) -> Option<Told> {
        let mut cursor = Cursor { rest: page };
        let _code_and_length: [u8; 4] = cursor.take()?;
        let generation = cursor.take()?;
        let [_, _, types, _] = cursor.take()?;
        let identification = Identification::parse(&mut cursor)?;
        let mut headers = Vec::new();
        for _ in 0..types {
            headers.push(cursor.take::<4>()?);
        }
        let mut texts = Vec::new();
        for [_, _, _, length] in &headers {
            texts.push(cursor.take_some((*length).into())?.to_vec());
        }
        cursor.rest.is_empty().then_some(Told {
            generation,
            identification,
            headers,
            texts,
        })
    }

    /// A well-formed shelf has this configuration, and writes it as this page.
    fn by_a_shelf(self, page: &[u8]) -> bool {
        match self.configuration() {
            Some(told) => told.well_formed() && configuration::page(&told) == page,
            None => false,
        }
    }

    /// None if a type is not served.
    fn configuration(self) -> Option<Configuration> {
        let mut types = Vec::new();
        for ([code, count, _, _], text) in zip(self.headers, self.texts) {
            types.push(Type {
                kind: Kind::from_code(code)?,
                count: count.into(),
                text,
            });
        }
        Some(Configuration {
            generation: u32::from_be_bytes(self.generation),
            identification: self.identification,
            types,
        })
    }
}
