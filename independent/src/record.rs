//! The shelf record as typed data, what makes it well formed, and its block of bytes.

use crate::bits::{bit, flag};
use crate::limits::{
    ELEMENT_BYTES, FASTEST, FIRST_LETTER, HIGHEST_NOMINAL, HIGHEST_SPEED, LAST_LETTER,
    MOST_ELEMENTS, MOST_OF_TYPE, MOST_TEXT, MOST_TYPES, NAME_BYTES, SLOT_BYTES, TEXT_AT_IN_SLOT,
};
use std::iter::once;

#[derive(Clone, Debug, PartialEq, Eq)]
pub struct Shelf {
    pub generation: u32,
    pub identification: Identification,
    pub groups: Vec<Group>,
}

#[derive(Clone, Debug, PartialEq, Eq)]
pub struct Identification {
    pub logical_identifier: [u8; 8],
    pub vendor: [u8; 8],
    pub product: [u8; 16],
    pub revision: [u8; 4],
}

/// One entry of the type list with its elements.
#[derive(Clone, Debug, PartialEq, Eq)]
pub struct Group {
    pub kind: Kind,
    pub text: Vec<u8>,
    pub elements: Vec<Element>,
    pub overall_name: Name,
    /// One for each element.
    pub names: Vec<Name>,
}

/// All that a block keeps for a name. Its letters end before the first byte that is none; what stands behind
/// them has no meaning, and stays as it is until the name is set.
#[derive(Clone, Copy, Debug, PartialEq, Eq)]
pub struct Name(pub [u8; NAME_BYTES]);

/// A shelf but for what its elements hold: all that a configuration page tells.
#[derive(Clone, Debug, PartialEq, Eq)]
pub struct Configuration {
    pub generation: u32,
    pub identification: Identification,
    pub types: Vec<Type>,
}

/// One entry of the type list.
#[derive(Clone, Debug, PartialEq, Eq)]
pub struct Type {
    pub kind: Kind,
    pub count: usize,
    pub text: Vec<u8>,
}

#[derive(Clone, Copy, Debug, PartialEq, Eq)]
pub enum Kind {
    Cooling,
    Temperature,
    Voltage,
    Current,
}

/// Every field can hold all that its bytes can, so that a record may be malformed too.
#[derive(Clone, Copy, Debug, PartialEq, Eq)]
pub enum Element {
    Cooling {
        settings: FanSettings,
        thresholds: Thresholds,
        reading: u16,
        nominal: u16,
    },
    Temperature {
        settings: Settings,
        thresholds: Thresholds,
        reading: u16,
        nominal: u16,
    },
    Voltage {
        settings: Settings,
        thresholds: Thresholds,
        reading: i16,
        nominal: u16,
    },
    Current {
        settings: Settings,
        thresholds: Thresholds,
        reading: i16,
        nominal: u16,
    },
}

#[derive(Clone, Copy, Debug, Default, PartialEq, Eq)]
pub struct Settings {
    pub prdfail: bool,
    pub disabled: bool,
    pub swap: bool,
    pub ident: bool,
    pub fail: bool,
}

#[derive(Clone, Copy, Debug, PartialEq, Eq)]
pub struct FanSettings {
    pub common: Settings,
    pub on: bool,
    pub speed: u8,
}

#[derive(Clone, Copy, Debug, Default, PartialEq, Eq)]
pub struct Thresholds {
    pub high_critical: u8,
    pub high_warning: u8,
    pub low_warning: u8,
    pub low_critical: u8,
}

/// The record whose block these bytes are, or none if they are no record's block.
pub fn read(block: &[u8]) -> Option<Shelf> {
    let shelf = Shelf::parse(&mut Cursor { rest: block })?;
    // Parsing passes over padding, bits without a name and surplus bytes; writing the record
    // again shows them.
    (shelf.block() == block).then_some(shelf)
}

impl Shelf {
    pub fn well_formed(&self) -> bool {
        (1..=MOST_TYPES).contains(&self.groups.len())
            && self.elements().count() <= MOST_ELEMENTS
            && self.groups.iter().all(Group::well_formed)
    }

    pub fn elements(&self) -> impl Iterator<Item = &Element> {
        self.groups.iter().flat_map(|group| &group.elements)
    }

    pub fn configuration(&self) -> Configuration {
        Configuration {
            generation: self.generation,
            identification: self.identification.clone(),
            types: self.groups.iter().map(Group::entry).collect(),
        }
    }

    /// Of all places of a page, in their order.
    pub fn names(&self) -> impl Iterator<Item = &Name> {
        self.groups.iter().flat_map(Group::all_names)
    }

    pub fn block(&self) -> Vec<u8> {
        let mut block = self.configuration().block();
        for element in self.elements() {
            block.extend(element.bytes());
        }
        for Name(bytes) in self.names() {
            block.extend(bytes);
        }
        block
    }

    fn parse(cursor: &mut Cursor) -> Option<Shelf> {
        let configuration = Configuration::parse(cursor)?;
        let mut groups = Vec::new();
        for entry in configuration.types {
            groups.push(Group::parse(entry, cursor)?);
        }
        for group in &mut groups {
            group.overall_name = Name(cursor.take()?);
            for name in &mut group.names {
                *name = Name(cursor.take()?);
            }
        }
        Some(Shelf {
            generation: configuration.generation,
            identification: configuration.identification,
            groups,
        })
    }
}

impl Configuration {
    /// The configuration whose block these bytes are, or none if no well-formed shelf's block
    /// starts with just them.
    pub fn read(block: &[u8]) -> Option<Configuration> {
        let configuration = Configuration::parse(&mut Cursor { rest: block })?;
        (configuration.well_formed() && configuration.block() == block).then_some(configuration)
    }

    /// There is a well-formed shelf that has it.
    pub fn well_formed(&self) -> bool {
        let plain_shelf = Shelf {
            generation: self.generation,
            identification: self.identification.clone(),
            groups: self.types.iter().map(Type::plain_group).collect(),
        };
        plain_shelf.well_formed()
    }

    pub fn block(&self) -> Vec<u8> {
        let mut block = Vec::new();
        block.extend(self.generation.to_be_bytes());
        block.extend(self.identification.bytes());
        block.extend([self.types.len() as u8, 0, 0, 0]);
        for entry in &self.types {
            block.extend(entry.slot());
        }
        for _ in self.types.len()..MOST_TYPES {
            block.extend([0; SLOT_BYTES]);
        }
        block
    }

    fn parse(cursor: &mut Cursor) -> Option<Configuration> {
        let generation = u32::from_be_bytes(cursor.take()?);
        let identification = Identification::parse(cursor)?;
        let [types, _, _, _] = cursor.take()?;
        let mut slots = Vec::new();
        for _ in 0..MOST_TYPES {
            slots.push(cursor.take::<SLOT_BYTES>()?);
        }
        let mut entries = Vec::new();
        for slot in slots.get(..usize::from(types))? {
            entries.push(Type::parse(slot)?);
        }
        Some(Configuration {
            generation,
            identification,
            types: entries,
        })
    }
}

impl Identification {
    pub fn parse(cursor: &mut Cursor) -> Option<Identification> {
        Some(Identification {
            logical_identifier: cursor.take()?,
            vendor: cursor.take()?,
            product: cursor.take()?,
            revision: cursor.take()?,
        })
    }

    pub fn bytes(&self) -> Vec<u8> {
        let mut bytes = Vec::new();
        bytes.extend(self.logical_identifier);
        bytes.extend(self.vendor);
        bytes.extend(self.product);
        bytes.extend(self.revision);
        bytes
    }
}

impl Name {
    pub const EMPTY: Name = Name([0; NAME_BYTES]);

    /// The name of just these letters. None if they are too many, or one is no letter.
    pub fn of(text: &[u8]) -> Option<Name> {
        if !text.iter().all(is_letter) {
            return None;
        }
        let mut name = Name::EMPTY;
        name.0.get_mut(..text.len())?.copy_from_slice(text);
        Some(name)
    }

    pub fn letters(&self) -> &[u8] {
        let letters = self.0.iter().take_while(|byte| is_letter(byte)).count();
        &self.0[..letters]
    }
}

pub fn is_letter(byte: &u8) -> bool {
    (FIRST_LETTER..=LAST_LETTER).contains(byte)
}

impl Group {
    /// No element has a name, and they have none together.
    pub fn nameless(kind: Kind, text: Vec<u8>, elements: Vec<Element>) -> Group {
        Group {
            kind,
            text,
            overall_name: Name::EMPTY,
            names: vec![Name::EMPTY; elements.len()],
            elements,
        }
    }

    /// One element more, without a name.
    pub fn add(&mut self, element: Element) {
        self.elements.push(element);
        self.names.push(Name::EMPTY);
    }

    /// The overall one first.
    pub fn all_names(&self) -> impl Iterator<Item = &Name> {
        assert_eq!(self.names.len(), self.elements.len(), "a name each");
        once(&self.overall_name).chain(&self.names)
    }

    fn well_formed(&self) -> bool {
        self.elements.len() <= MOST_OF_TYPE
            && self.text.len() <= MOST_TEXT
            && self.text.iter().all(is_letter)
            && self
                .elements
                .iter()
                .all(|element| element.kind() == self.kind)
            && self.elements.iter().all(Element::well_formed)
    }

    fn entry(&self) -> Type {
        Type {
            kind: self.kind,
            count: self.elements.len(),
            text: self.text.clone(),
        }
    }

    fn parse(entry: Type, cursor: &mut Cursor) -> Option<Group> {
        let mut elements = Vec::new();
        for _ in 0..entry.count {
            elements.push(Element::parse(entry.kind, cursor)?);
        }
        Some(Group::nameless(entry.kind, entry.text, elements))
    }
}

impl Type {
    fn plain_group(&self) -> Group {
        let elements = vec![Element::plain(self.kind); self.count];
        Group::nameless(self.kind, self.text.clone(), elements)
    }

    fn slot(&self) -> [u8; SLOT_BYTES] {
        let mut slot = [0; SLOT_BYTES];
        slot[0] = self.kind.code();
        slot[1] = self.count as u8;
        slot[2] = self.text.len() as u8;
        slot[TEXT_AT_IN_SLOT..][..self.text.len()].copy_from_slice(&self.text);
        slot
    }

    fn parse(slot: &[u8; SLOT_BYTES]) -> Option<Type> {
        Some(Type {
            kind: Kind::from_code(slot[0])?,
            count: slot[1].into(),
            text: slot[TEXT_AT_IN_SLOT..]
                .get(..usize::from(slot[2]))?
                .to_vec(),
        })
    }
}

impl Kind {
    pub const ALL: [Kind; 4] = [
        Kind::Cooling,
        Kind::Temperature,
        Kind::Voltage,
        Kind::Current,
    ];

    pub fn code(self) -> u8 {
        match self {
            Kind::Cooling => 0x03,
            Kind::Temperature => 0x04,
            Kind::Voltage => 0x12,
            Kind::Current => 0x13,
        }
    }

    pub fn from_code(code: u8) -> Option<Kind> {
        Kind::ALL.into_iter().find(|kind| kind.code() == code)
    }
}

impl Element {
    pub fn kind(&self) -> Kind {
        match self {
            Element::Cooling { .. } => Kind::Cooling,
            Element::Temperature { .. } => Kind::Temperature,
            Element::Voltage { .. } => Kind::Voltage,
            Element::Current { .. } => Kind::Current,
        }
    }

    /// A well-formed element with as little in it as may be.
    fn plain(kind: Kind) -> Element {
        let settings = Settings::default();
        let thresholds = Thresholds::default();
        match kind {
            Kind::Cooling => Element::Cooling {
                settings: FanSettings {
                    common: settings,
                    on: false,
                    speed: 1,
                },
                thresholds,
                reading: 0,
                nominal: 0,
            },
            Kind::Temperature => Element::Temperature {
                settings,
                thresholds,
                reading: 0,
                nominal: 0,
            },
            Kind::Voltage => Element::Voltage {
                settings,
                thresholds,
                reading: 0,
                nominal: 1,
            },
            Kind::Current => Element::Current {
                settings,
                thresholds,
                reading: 0,
                nominal: 1,
            },
        }
    }

    fn well_formed(&self) -> bool {
        let in_range = match self {
            Element::Cooling {
                settings,
                thresholds,
                reading,
                nominal,
            } => {
                (1..=HIGHEST_SPEED).contains(&settings.speed)
                    && thresholds.had_by(Kind::Cooling)
                    && *reading <= FASTEST
                    && *nominal == 0
            }
            Element::Temperature {
                reading, nominal, ..
            } => *reading <= 255 && *nominal == 0,
            Element::Voltage { nominal, .. } => (1..=HIGHEST_NOMINAL).contains(nominal),
            Element::Current {
                thresholds,
                nominal,
                ..
            } => thresholds.had_by(Kind::Current) && (1..=HIGHEST_NOMINAL).contains(nominal),
        };
        in_range && self.thresholds().keep_order(self.kind())
    }

    /// Without a fan's ON and SPEED.
    pub fn settings(&self) -> Settings {
        match self {
            Element::Cooling { settings, .. } => settings.common,
            Element::Temperature { settings, .. }
            | Element::Voltage { settings, .. }
            | Element::Current { settings, .. } => *settings,
        }
    }

    pub fn thresholds(&self) -> Thresholds {
        match self {
            Element::Cooling { thresholds, .. }
            | Element::Temperature { thresholds, .. }
            | Element::Voltage { thresholds, .. }
            | Element::Current { thresholds, .. } => *thresholds,
        }
    }

    pub fn thresholds_mut(&mut self) -> &mut Thresholds {
        match self {
            Element::Cooling { thresholds, .. }
            | Element::Temperature { thresholds, .. }
            | Element::Voltage { thresholds, .. }
            | Element::Current { thresholds, .. } => thresholds,
        }
    }

    /// The element with these settings, or none if its type may not have them.
    pub fn with_settings(&self, settings: [u8; 4]) -> Option<Element> {
        let mut bytes = self.bytes();
        bytes[0..4].copy_from_slice(&settings);
        let element = Element::parse(self.kind(), &mut Cursor { rest: &bytes })?;
        (element.well_formed() && element.bytes() == bytes).then_some(element)
    }

    fn bytes(&self) -> [u8; ELEMENT_BYTES] {
        let (settings, reading, nominal) = match self {
            Element::Cooling {
                settings,
                reading,
                nominal,
                ..
            } => (settings.bytes(), reading.to_be_bytes(), nominal),
            Element::Temperature {
                settings,
                reading,
                nominal,
                ..
            } => (settings.bytes(), reading.to_be_bytes(), nominal),
            Element::Voltage {
                settings,
                reading,
                nominal,
                ..
            }
            | Element::Current {
                settings,
                reading,
                nominal,
                ..
            } => (settings.bytes(), reading.to_be_bytes(), nominal),
        };
        let mut bytes = [0; ELEMENT_BYTES];
        bytes[0..4].copy_from_slice(&settings);
        bytes[4..8].copy_from_slice(&self.thresholds().bytes());
        bytes[8..10].copy_from_slice(&reading);
        bytes[10..12].copy_from_slice(&nominal.to_be_bytes());
        bytes
    }

    fn parse(kind: Kind, cursor: &mut Cursor) -> Option<Element> {
        let settings = cursor.take()?;
        let thresholds = Thresholds::from_bytes(cursor.take()?);
        let reading = cursor.take()?;
        let nominal = u16::from_be_bytes(cursor.take()?);
        let _room_kept: [u8; 4] = cursor.take()?;
        Some(match kind {
            Kind::Cooling => Element::Cooling {
                settings: FanSettings::from_bytes(settings),
                thresholds,
                reading: u16::from_be_bytes(reading),
                nominal,
            },
            Kind::Temperature => Element::Temperature {
                settings: Settings::from_bytes(settings),
                thresholds,
                reading: u16::from_be_bytes(reading),
                nominal,
            },
            Kind::Voltage => Element::Voltage {
                settings: Settings::from_bytes(settings),
                thresholds,
                reading: i16::from_be_bytes(reading),
                nominal,
            },
            Kind::Current => Element::Current {
                settings: Settings::from_bytes(settings),
                thresholds,
                reading: i16::from_be_bytes(reading),
                nominal,
            },
        })
    }
}

impl Settings {
    fn bytes(&self) -> [u8; 4] {
        let byte0 = flag(self.prdfail, 6) + flag(self.disabled, 5) + flag(self.swap, 4);
        let byte1 = flag(self.ident, 7) + flag(self.fail, 6);
        [byte0, byte1, 0, 0]
    }

    fn from_bytes([byte0, byte1, _, _]: [u8; 4]) -> Settings {
        Settings {
            prdfail: bit(byte0, 6),
            disabled: bit(byte0, 5),
            swap: bit(byte0, 4),
            ident: bit(byte1, 7),
            fail: bit(byte1, 6),
        }
    }
}

impl FanSettings {
    fn bytes(&self) -> [u8; 4] {
        let fail_elsewhere = Settings {
            fail: false,
            ..self.common
        };
        let [byte0, byte1, byte2, _] = fail_elsewhere.bytes();
        let byte3 = flag(self.common.fail, 6) + flag(self.on, 5) + self.speed;
        [byte0, byte1, byte2, byte3]
    }

    fn from_bytes(bytes: [u8; 4]) -> FanSettings {
        let [_, _, _, byte3] = bytes;
        FanSettings {
            common: Settings {
                fail: bit(byte3, 6),
                ..Settings::from_bytes(bytes)
            },
            on: bit(byte3, 5),
            speed: byte3 % 8,
        }
    }
}

impl Thresholds {
    pub fn bytes(&self) -> [u8; 4] {
        [
            self.high_critical,
            self.high_warning,
            self.low_warning,
            self.low_critical,
        ]
    }

    pub fn from_bytes([high_critical, high_warning, low_warning, low_critical]: [u8; 4]) -> Self {
        Thresholds {
            high_critical,
            high_warning,
            low_warning,
            low_critical,
        }
    }

    /// None is set that the type does not have.
    pub fn had_by(&self, kind: Kind) -> bool {
        match kind {
            Kind::Cooling => *self == Thresholds::default(),
            Kind::Temperature | Kind::Voltage => true,
            Kind::Current => self.low_warning == 0 && self.low_critical == 0,
        }
    }

    pub fn keep_order(&self, kind: Kind) -> bool {
        let at_least = |above: u8, below: u8| above == 0 || below == 0 || above >= below;
        let high = at_least(self.high_critical, self.high_warning);
        let low = match kind {
            Kind::Temperature => at_least(self.low_warning, self.low_critical),
            Kind::Voltage => at_least(self.low_critical, self.low_warning),
            Kind::Cooling | Kind::Current => true,
        };
        high && low
    }
}

/// Bytes taken from the front, none once they run out.
pub struct Cursor<'a> {
    pub rest: &'a [u8],
}

impl<'a> Cursor<'a> {
    pub fn take<const N: usize>(&mut self) -> Option<[u8; N]> {
        let taken = self.rest.get(..N)?.try_into().ok()?;
        self.rest = &self.rest[N..];
        Some(taken)
    }

    pub fn take_some(&mut self, length: usize) -> Option<&'a [u8]> {
        let taken = self.rest.get(..length)?;
        self.rest = &self.rest[length..];
        Some(taken)
    }
}
