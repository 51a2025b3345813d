//! What can be wrong with a page, whichever it is.

use super::case::ROOM;
use crate::limits::LONGEST_SAID;
use crate::rng::Rng;

type Change = fn(&mut Vec<u8>, &mut Rng);

const CHANGES: [Change; 11] = [
    flipped_bit,
    flipped_bit,
    other_byte,
    several_bytes,
    shortened,
    lengthened,
    other_code,
    other_byte1,
    other_length_field,
    other_generation,
    other_count_of_words,
];

/// Up to four changes, so that several refusals have their reason at once.
pub fn change(page: &mut Vec<u8>, rng: &mut Rng) {
    for _ in 0..rng.pick(&[0, 0, 1, 1, 1, 2, 2, 3, 4]) {
        let change = rng.pick(&CHANGES);
        change(page, rng);
    }
}

/// A page of another sort altogether.
pub fn strange_page(rng: &mut Rng, code: u8, page: &[u8]) -> Vec<u8> {
    match rng.range(0, 9) {
        0 => Vec::new(),
        1..=3 => page[..rng.range(1, 3)].to_vec(),
        4 => random_page(rng, code, LONGEST_SAID),
        5 => wrapped(rng, page),
        _ => {
            let length = rng.range(4, ROOM);
            random_page(rng, code, length)
        }
    }
}

fn random_page(rng: &mut Rng, code: u8, length: usize) -> Vec<u8> {
    let mut page = rng.bytes(length);
    page[0] = code;
    if !rng.one_in(4) {
        say_own_length(&mut page);
    }
    page
}

/// So much longer that its length field, of 16 bits, could be taken as right.
fn wrapped(rng: &mut Rng, page: &[u8]) -> Vec<u8> {
    [page.to_vec(), rng.bytes(65_536)].concat()
}

/// The length field as the page has bytes, its lower 16 bits if they are too many.
pub fn say_own_length(page: &mut [u8]) {
    if let [_, _, upper, lower, rest @ ..] = page {
        [*upper, *lower] = (rest.len() as u16).to_be_bytes();
    }
}

/// Cut, or filled up with zeros, to each length up to a few bytes more; as it says itself, and saying so.
pub fn of_every_length(page: &[u8]) -> Vec<Vec<u8>> {
    let mut pages = Vec::new();
    for length in 0..page.len() + 16 {
        let mut resized = page.to_vec();
        resized.resize(length, 0);
        pages.push(resized.clone());
        say_own_length(&mut resized);
        pages.push(resized);
    }
    pages
}

/// With each value of the byte at this place.
pub fn with_every_value(bytes: &[u8], at: usize) -> impl Iterator<Item = Vec<u8>> + '_ {
    (0..=255).map(move |value| with(bytes, at, &[value]))
}

/// With any four of a few telling bytes from this place on.
pub fn with_every_quadruple(bytes: &[u8], at: usize) -> impl Iterator<Item = Vec<u8>> + '_ {
    const TELLING: [u8; 6] = [0, 1, 127, 128, 254, 255];
    (0..TELLING.len().pow(4)).map(move |number| {
        let digit = |place: u32| TELLING[number / TELLING.len().pow(place) % TELLING.len()];
        with(bytes, at, &[digit(3), digit(2), digit(1), digit(0)])
    })
}

pub fn with(bytes: &[u8], at: usize, put: &[u8]) -> Vec<u8> {
    let mut changed = bytes.to_vec();
    changed[at..at + put.len()].copy_from_slice(put);
    changed
}

/// Flips any bit from this byte on.
pub fn flip_bit(bytes: &mut [u8], from: usize, rng: &mut Rng) {
    let at = rng.range(from, bytes.len() - 1);
    bytes[at] ^= 1 << rng.range(0, 7);
}

pub fn set(bytes: &mut [u8], at: usize, value: u8) {
    if let Some(byte) = bytes.get_mut(at) {
        *byte = value;
    }
}

fn flipped_bit(page: &mut Vec<u8>, rng: &mut Rng) {
    if !page.is_empty() {
        flip_bit(page, 0, rng);
    }
}

fn other_byte(page: &mut Vec<u8>, rng: &mut Rng) {
    if !page.is_empty() {
        let at = rng.range(0, page.len() - 1);
        page[at] = rng.byte();
    }
}

fn several_bytes(page: &mut Vec<u8>, rng: &mut Rng) {
    for _ in 0..rng.range(2, 5) {
        let at = rng.range(4, ROOM);
        let value = rng.byte();
        set(page, at, value);
    }
}

fn shortened(page: &mut Vec<u8>, rng: &mut Rng) {
    let lost = if rng.one_in(2) {
        rng.range(1, 8)
    } else {
        rng.range(0, page.len())
    };
    page.truncate(page.len().saturating_sub(lost));
    perhaps_say_own_length(page, rng);
}

fn lengthened(page: &mut Vec<u8>, rng: &mut Rng) {
    let gained = rng.range(1, 8);
    page.extend(rng.bytes(gained));
    perhaps_say_own_length(page, rng);
}

fn perhaps_say_own_length(page: &mut [u8], rng: &mut Rng) {
    if rng.one_in(2) {
        say_own_length(page);
    }
}

fn other_code(page: &mut Vec<u8>, rng: &mut Rng) {
    let any = rng.byte();
    let code = rng.pick(&[0x00, 0x01, 0x02, 0x05, 0x07, 0x82, any]);
    set(page, 0, code);
}

fn other_byte1(page: &mut Vec<u8>, rng: &mut Rng) {
    let any = rng.byte();
    let value = rng.pick(&[0x01, 0x02, 0x04, 0x06, 0x08, 0x10, 0x80, any]);
    set(page, 1, value);
}

fn other_length_field(page: &mut Vec<u8>, rng: &mut Rng) {
    if let [_, _, upper, lower, ..] = &mut page[..] {
        let said = u16::from_be_bytes([*upper, *lower]);
        let any = rng.word();
        let step = rng.pick(&[1, 4, 256, any]);
        let other = rng.pick(&[said.wrapping_add(step), said.wrapping_sub(step)]);
        [*upper, *lower] = other.to_be_bytes();
    }
}

fn other_generation(page: &mut Vec<u8>, rng: &mut Rng) {
    let at = rng.range(4, 7);
    let value = rng.byte();
    set(page, at, value);
}

/// Some four bytes at the end more or less, and the length field right.
fn other_count_of_words(page: &mut Vec<u8>, rng: &mut Rng) {
    let bytes = 4 * rng.range(1, 3);
    if rng.one_in(2) {
        page.truncate(page.len().saturating_sub(bytes));
    } else {
        page.extend(vec![0; bytes]);
    }
    say_own_length(page);
}
