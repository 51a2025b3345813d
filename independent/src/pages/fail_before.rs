//! The status page before request Five, when a sensor showed no FAIL but the stored one, and what the request makes
//! of it. The elements are put together apart from the tables of today; verdicts have not changed.

use super::ElementPage;
use crate::bits::flag;
use crate::element::{Limits, Verdict};
use crate::record::{Configuration, Element, FanSettings, Group, Kind, Settings, Shelf};
use crate::shown::Place;
use std::iter::{once, zip};

/// Of a well-formed shelf.
pub fn page(shelf: &Shelf) -> Vec<u8> {
    let any = |number| shelf.elements().any(|element| code(element) == number);
    let elements = shelf.groups.iter().flat_map(|group| {
        let individual = group.elements.iter().map(individual);
        once(overall(group)).chain(individual)
    });
    let page = ElementPage {
        byte1: flag(any(3), 2) + flag(any(2), 1),
        elements: elements.collect(),
    };
    page.written(0x02, shelf.generation)
}

/// The request, asked of a page: FAIL is set for each sensor that has code 2 or 3.
pub fn lit(configuration: &Configuration, mut page: Vec<u8>) -> Vec<u8> {
    for (place, element) in zip(configuration.places(), page[8..].chunks_mut(4)) {
        let sensor = !matches!(place, Place::Overall | Place::Individual(Kind::Cooling));
        if sensor && matches!(element[0] & 0x0F, 2 | 3) {
            element[1] |= 0x40;
        }
    }
    page
}

fn code(element: &Element) -> u8 {
    element.verdict().code.number()
}

fn overall(group: &Group) -> [u8; 4] {
    let codes: Vec<u8> = group.elements.iter().map(code).collect();
    let worst = [2, 3, 6, 1].into_iter().find(|code| codes.contains(code));
    [worst.unwrap_or(0), 0, 0, 0]
}

fn individual(element: &Element) -> [u8; 4] {
    let Settings {
        prdfail,
        disabled,
        swap,
        ident,
        fail,
    } = element.settings();
    let Verdict { code, limits } = element.verdict();
    let byte0 = flag(prdfail, 6) + flag(disabled, 5) + flag(swap, 4) + code.number();
    let byte1 = flag(ident, 7) + flag(fail, 6);
    let Limits {
        critical_over,
        warning_over,
        warning_under,
        critical_under,
    } = limits;
    match *element {
        Element::Cooling {
            settings: FanSettings { on, speed, .. },
            reading,
            ..
        } => {
            let [upper, lower] = reading.to_be_bytes();
            let turning = if on { 0x20 + speed } else { 0x10 };
            [
                byte0,
                flag(ident, 7) + upper,
                lower,
                flag(fail, 6) + turning,
            ]
        }
        Element::Temperature { reading, .. } => {
            let over = flag(critical_over, 3) + flag(warning_over, 2);
            let under = flag(critical_under, 1) + flag(warning_under, 0);
            [byte0, byte1, reading as u8, over + under]
        }
        Element::Voltage { reading, .. } | Element::Current { reading, .. } => {
            let [upper, lower] = reading.to_be_bytes();
            let warnings = flag(warning_over, 3) + flag(warning_under, 2);
            let critical = flag(critical_over, 1) + flag(critical_under, 0);
            [byte0, byte1 + warnings + critical, upper, lower]
        }
    }
}
