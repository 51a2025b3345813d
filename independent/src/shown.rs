//! One element of the status page by its fields. A table for each type says which there are, and from it
//! follow the element's four bytes on the page and its entry in a record, both ways.

use crate::element::Code;
use crate::limits::{FASTEST, HIGHEST_CODE, HIGHEST_SPEED, STATUS_ENTRY_BYTES};
use crate::record::{Configuration, Element, FanSettings, Kind};
use std::iter::{once, repeat, zip};

/// What an element of the pages 02h and 05h stands for.
#[derive(Clone, Copy, Debug, PartialEq, Eq)]
pub enum Place {
    Overall,
    Individual(Kind),
}

impl Configuration {
    /// The elements of a page in their order.
    pub fn places(&self) -> Vec<Place> {
        let places = self.types.iter().flat_map(|entry| {
            once(Place::Overall).chain(repeat(Place::Individual(entry.kind)).take(entry.count))
        });
        places.collect()
    }
}

/// A field of a status element, which is a byte of an entry.
struct Field {
    /// Its byte of the element, and its lowest bit there.
    byte: usize,
    bit: u32,
    /// Its largest value. It has as many bits as this needs.
    most: u8,
    /// What it shows of an element.
    of: fn(&Element) -> u8,
}

const fn flag(byte: usize, bit: u32, of: fn(&Element) -> u8) -> Field {
    up_to(1, byte, bit, of)
}

const fn whole_byte(byte: usize, of: fn(&Element) -> u8) -> Field {
    up_to(u8::MAX, byte, 0, of)
}

const fn up_to(most: u8, byte: usize, bit: u32, of: fn(&Element) -> u8) -> Field {
    Field {
        byte,
        bit,
        most,
        of,
    }
}

/// The fields that all types show.
static COMMON: [Field; 4] = [
    up_to(HIGHEST_CODE, 0, 0, |element| {
        element.verdict().code.number()
    }),
    flag(0, 6, |element| element.settings().prdfail.into()),
    flag(0, 5, |element| element.settings().disabled.into()),
    flag(0, 4, |element| element.settings().swap.into()),
];

/// The fields behind those, in the order of the page.
static COOLING: [Field; 7] = [
    flag(1, 7, ident),
    up_to(FASTEST.to_be_bytes()[0], 1, 0, upper_reading),
    whole_byte(2, lower_reading),
    flag(3, 6, stored_fail),
    flag(3, 5, |element| fan_settings(element).on.into()),
    flag(3, 4, |element| (!fan_settings(element).on).into()),
    up_to(HIGHEST_SPEED, 3, 0, speed_code),
];

static TEMPERATURE: [Field; 7] = [
    flag(1, 7, ident),
    flag(1, 6, sensor_fail),
    whole_byte(2, lower_reading),
    flag(3, 3, critical_over),
    flag(3, 2, warning_over),
    flag(3, 1, critical_under),
    flag(3, 0, warning_under),
];

static VOLTAGE: [Field; 8] = [
    flag(1, 7, ident),
    flag(1, 6, sensor_fail),
    flag(1, 3, warning_over),
    flag(1, 2, warning_under),
    flag(1, 1, critical_over),
    flag(1, 0, critical_under),
    whole_byte(2, upper_reading),
    whole_byte(3, lower_reading),
];

static CURRENT: [Field; 6] = [
    flag(1, 7, ident),
    flag(1, 6, sensor_fail),
    flag(1, 3, warning_over),
    flag(1, 1, critical_over),
    whole_byte(2, upper_reading),
    whole_byte(3, lower_reading),
];

impl Place {
    /// In the order of an entry; the code is the first.
    fn fields(self) -> impl Iterator<Item = &'static Field> {
        let (common, own): (&[Field], &[Field]) = match self {
            Place::Overall => (&COMMON[..1], &[]),
            Place::Individual(Kind::Cooling) => (&COMMON, &COOLING),
            Place::Individual(Kind::Temperature) => (&COMMON, &TEMPERATURE),
            Place::Individual(Kind::Voltage) => (&COMMON, &VOLTAGE),
            Place::Individual(Kind::Current) => (&COMMON, &CURRENT),
        };
        common.iter().chain(own)
    }

    /// This byte of an element has a bit set that the place does not name, or a code that is too high.
    pub fn offends(self, element: [u8; 4], at: usize) -> bool {
        let mut named = 0;
        for field in self.fields().filter(|field| field.byte == at) {
            let value = field.taken_from(element);
            if value > field.most {
                return true;
            }
            named += value << field.bit;
        }
        named != element[at]
    }

    /// The largest value of each byte of an entry: 0 where the place shows nothing.
    pub fn largest(self) -> [u8; STATUS_ENTRY_BYTES] {
        in_front(self.fields().map(|field| field.most))
    }
}

impl Field {
    fn taken_from(&self, element: [u8; 4]) -> u8 {
        (element[self.byte] >> self.bit) & (u8::MAX >> self.most.leading_zeros())
    }

    fn put_into(&self, element: &mut [u8; 4], value: u8) {
        element[self.byte] += value << self.bit;
    }
}

/// What one element of the page shows: a value for each field of its place, none too large.
#[derive(Clone, Debug, PartialEq, Eq)]
pub struct Shown {
    place: Place,
    values: Vec<u8>,
}

impl Shown {
    pub fn overall(code: u8) -> Shown {
        Shown {
            place: Place::Overall,
            values: vec![code],
        }
    }

    /// Of an element without an offending byte.
    pub fn from_element(place: Place, element: [u8; 4]) -> Shown {
        let values = place.fields().map(|field| field.taken_from(element));
        Shown {
            place,
            values: values.collect(),
        }
    }

    /// None if a field is out of range, or set where the place shows none.
    pub fn from_entry(place: Place, entry: [u8; STATUS_ENTRY_BYTES]) -> Option<Shown> {
        let values: Vec<u8> = zip(place.fields(), entry).map(|(_, byte)| byte).collect();
        let mut fields = zip(place.fields(), &values);
        let in_range = fields.all(|(field, value)| *value <= field.most);
        let shown = in_range.then_some(Shown { place, values })?;
        (shown.entry() == entry).then_some(shown)
    }

    pub fn code(&self) -> u8 {
        self.values[0]
    }

    /// The four bytes on the status page.
    pub fn element(&self) -> [u8; 4] {
        let mut element = [0; 4];
        for (field, value) in zip(self.place.fields(), &self.values) {
            field.put_into(&mut element, *value);
        }
        element
    }

    /// The bytes in a status record: the values, and zeros behind them.
    pub fn entry(&self) -> [u8; STATUS_ENTRY_BYTES] {
        in_front(self.values.iter().copied())
    }
}

fn in_front(bytes: impl Iterator<Item = u8>) -> [u8; STATUS_ENTRY_BYTES] {
    let mut entry = [0; STATUS_ENTRY_BYTES];
    for (byte, value) in zip(&mut entry, bytes) {
        *byte = value;
    }
    entry
}

impl Element {
    /// What the status page shows of this element.
    pub fn shown(&self) -> Shown {
        let place = Place::Individual(self.kind());
        let values = place.fields().map(|field| (field.of)(self));
        Shown {
            place,
            values: values.collect(),
        }
    }

    pub fn status(&self) -> [u8; 4] {
        self.shown().element()
    }
}

fn ident(element: &Element) -> u8 {
    element.settings().ident.into()
}

/// What a fan shows as FAIL, whatever its code.
fn stored_fail(element: &Element) -> u8 {
    element.settings().fail.into()
}

/// FAIL shows if the stored FAIL is set or the code is 2 or 3.
fn sensor_fail(element: &Element) -> u8 {
    let condition = matches!(element.verdict().code, Code::Critical | Code::NonCritical);
    (element.settings().fail || condition).into()
}

/// Types other than Cooling have ON 0 and SPEED 0.
fn fan_settings(element: &Element) -> FanSettings {
    match *element {
        Element::Cooling { settings, .. } => settings,
        Element::Temperature { settings, .. }
        | Element::Voltage { settings, .. }
        | Element::Current { settings, .. } => FanSettings {
            common: settings,
            on: false,
            speed: 0,
        },
    }
}

/// The stored SPEED shows while the fan is ON.
fn speed_code(element: &Element) -> u8 {
    let FanSettings { on, speed, .. } = fan_settings(element);
    if on {
        speed
    } else {
        0
    }
}

fn upper_reading(element: &Element) -> u8 {
    reading(element)[0]
}

fn lower_reading(element: &Element) -> u8 {
    reading(element)[1]
}

fn reading(element: &Element) -> [u8; 2] {
    match *element {
        Element::Cooling { reading, .. } | Element::Temperature { reading, .. } => {
            reading.to_be_bytes()
        }
        Element::Voltage { reading, .. } | Element::Current { reading, .. } => {
            reading.to_be_bytes()
        }
    }
}

fn critical_over(element: &Element) -> u8 {
    element.verdict().limits.critical_over.into()
}

fn warning_over(element: &Element) -> u8 {
    element.verdict().limits.warning_over.into()
}

fn warning_under(element: &Element) -> u8 {
    element.verdict().limits.warning_under.into()
}

fn critical_under(element: &Element) -> u8 {
    element.verdict().limits.critical_under.into()
}
