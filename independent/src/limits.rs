//! The limits that the rules set, and every size that follows from them.

/// Types of a shelf, which has one at least.
pub const MOST_TYPES: usize = 8;
/// Elements of a shelf, all types together.
pub const MOST_ELEMENTS: usize = 64;
/// Elements of one type.
pub const MOST_OF_TYPE: usize = 64;
/// Letters of a type's text.
pub const MOST_TEXT: usize = 32;
/// Letters of an element's name.
pub const MOST_NAME: usize = 32;
pub const FIRST_LETTER: u8 = 0x20;
pub const LAST_LETTER: u8 = 0x7E;
pub const HIGHEST_SPEED: u8 = 7;
/// A fan's reading, in tens of rpm.
pub const FASTEST: u16 = 2_047;
pub const HIGHEST_NOMINAL: u16 = 32_767;
/// A status code that a reader accepts.
pub const HIGHEST_CODE: u8 = 8;

/// As many elements as so many types may have together.
pub const fn most_elements_of(types: usize) -> usize {
    if types * MOST_OF_TYPE < MOST_ELEMENTS {
        types * MOST_OF_TYPE
    } else {
        MOST_ELEMENTS
    }
}

/// As many elements as each of so many types may have, if all have the same number.
pub const fn equal_share(types: usize) -> usize {
    most_elements_of(types) / types
}

/// Where a block has the number of types, and in front of it generation and identification.
pub const TYPES_AT: usize = 40;
/// Where a block has the slots of the types, in use or not.
pub const SLOTS_AT: usize = 44;
pub const TEXT_AT_IN_SLOT: usize = 4;
pub const SLOT_BYTES: usize = TEXT_AT_IN_SLOT + MOST_TEXT;
pub const CONFIGURATION_BYTES: usize = SLOTS_AT + SLOT_BYTES * MOST_TYPES;
pub const ELEMENTS_AT: usize = CONFIGURATION_BYTES;
pub const ELEMENT_BYTES: usize = 16;
/// What a block keeps for a name, whatever its length.
pub const NAME_BYTES: usize = MOST_NAME;
pub const LONGEST_BLOCK: usize = block_bytes(MOST_TYPES, MOST_ELEMENTS);

/// Where a block has this element, counted through all types.
pub const fn element_at(element: usize) -> usize {
    ELEMENTS_AT + ELEMENT_BYTES * element
}

/// Where a block with so many elements has this name, counted as the places of a page are.
pub const fn name_at(elements: usize, name: usize) -> usize {
    element_at(elements) + NAME_BYTES * name
}

pub const fn block_bytes(types: usize, elements: usize) -> usize {
    name_at(elements, types + elements)
}

/// Entries of a status, threshold or name record: an overall one for each type, and one for each element.
pub const MOST_ENTRIES: usize = MOST_TYPES + MOST_ELEMENTS;
pub const STATUS_ENTRY_BYTES: usize = 16;
pub const THRESHOLD_ENTRY_BYTES: usize = 4;
pub const STATUS_BYTES: usize = record_bytes(STATUS_ENTRY_BYTES, MOST_ENTRIES);
pub const THRESHOLDS_BYTES: usize = record_bytes(THRESHOLD_ENTRY_BYTES, MOST_ENTRIES);
pub const NAMES_BYTES: usize = record_bytes(NAME_BYTES, MOST_ENTRIES);

/// The bytes of a record up to the end of its last entry.
pub const fn record_bytes(entry_bytes: usize, entries: usize) -> usize {
    4 + entry_bytes * entries
}

/// A page 02h or 05h, which has as many elements as a record has entries.
pub const fn element_page_bytes(elements: usize) -> usize {
    8 + 4 * elements
}

/// Where a configuration page has the number of types.
pub const PAGE_TYPES_AT: usize = 10;

pub const fn configuration_page_bytes(types: usize, letters: usize) -> usize {
    48 + 4 * types + letters
}

/// A page 07h, which has as many descriptors as a record has entries, each of a head and its letters.
pub const fn descriptor_page_bytes(descriptors: usize, letters: usize) -> usize {
    8 + DESCRIPTOR_HEAD_BYTES * descriptors + letters
}

pub const DESCRIPTOR_HEAD_BYTES: usize = 4;
pub const LONGEST_DESCRIPTOR_PAGE: usize =
    descriptor_page_bytes(MOST_ENTRIES, MOST_ENTRIES * MOST_NAME);

/// The longest page that a shelf has, but for 07h.
pub const LONGEST_PAGE: usize = longer(
    element_page_bytes(MOST_ENTRIES),
    configuration_page_bytes(MOST_TYPES, MOST_TYPES * MOST_TEXT),
);

const fn longer(one: usize, other: usize) -> usize {
    if one > other {
        one
    } else {
        other
    }
}

/// The longest page that can say its own length, in 16 bits and without the first four bytes.
pub const LONGEST_SAID: usize = 4 + u16::MAX as usize;
/// Bytes of a page at which a collector stops counting, the first that no page can say.
pub const COUNT_STOPS: usize = LONGEST_SAID + 1;
/// What a collector keeps of a page: all of the longest 02h or 05h.
pub const MOST_KEPT: usize = element_page_bytes(MOST_ENTRIES);
/// Where a collector has what it keeps, behind the count.
pub const KEPT_AT: usize = 4;
pub const COLLECTOR_BYTES: usize = KEPT_AT + MOST_KEPT;
/// As many elements as all slots together can say, with a byte each.
pub const MOST_SAID: usize = MOST_TYPES * u8::MAX as usize;
