//! Makers of names: of every length, alike and nearly alike, and with anything behind their end.

use crate::limits::{FIRST_LETTER, LAST_LETTER, MOST_NAME, NAME_BYTES};
use crate::record::{is_letter, Group, Name};
use crate::rng::Rng;

/// Bytes at which a name ends, those next to a letter among them.
pub const NO_LETTERS: [u8; 5] = [0x00, FIRST_LETTER - 1, LAST_LETTER + 1, 0x80, 0xFF];

/// Names of a few texts, so that a shelf has some more than once.
pub fn give_names(rng: &mut Rng, groups: &mut [Group]) {
    let texts = texts(rng);
    let mut name = || {
        let text = &texts[rng.range(0, texts.len() - 1)];
        name_of(rng, text)
    };
    for group in groups {
        group.overall_name = name();
        group.names = group.elements.iter().map(|_| name()).collect();
    }
}

fn texts(rng: &mut Rng) -> Vec<Vec<u8>> {
    let mut texts = vec![text(rng)];
    for _ in 1..rng.pick(&[1, 2, 3, 4, 6, 40]) {
        let like = rng.range(0, texts.len() - 1);
        texts.push(if rng.one_in(2) {
            nearly(rng, &texts[like])
        } else {
            text(rng)
        });
    }
    texts
}

/// A text that a name can be.
pub fn text(rng: &mut Rng) -> Vec<u8> {
    let any = rng.range(0, MOST_NAME);
    let length = rng.pick(&[0, 1, MOST_NAME - 1, MOST_NAME, any, any, any, any]);
    letters(rng, length)
}

pub fn letters(rng: &mut Rng, number: usize) -> Vec<u8> {
    (0..number).map(|_| letter(rng)).collect()
}

/// The first and the last of them more often than others.
fn letter(rng: &mut Rng) -> u8 {
    match rng.byte() {
        0x00..=0x0F => FIRST_LETTER,
        0x10..=0x1F => LAST_LETTER,
        byte => FIRST_LETTER + byte % (LAST_LETTER - FIRST_LETTER + 1),
    }
}

pub fn no_letter(rng: &mut Rng) -> u8 {
    loop {
        let (edge, any) = (rng.pick(&NO_LETTERS), rng.byte());
        let byte = rng.pick(&[edge, any]);
        if !is_letter(&byte) {
            return byte;
        }
    }
}

/// A letter more or less, or another one at either end.
pub fn nearly(rng: &mut Rng, text: &[u8]) -> Vec<u8> {
    let mut other = text.to_vec();
    match rng.range(0, 3) {
        0 => other.truncate(text.len().saturating_sub(1)),
        1 if text.len() < MOST_NAME => other.push(letter(rng)),
        2 if !text.is_empty() => other[0] = letter(rng),
        _ => {
            other.pop();
            other.push(letter(rng));
        }
    }
    other
}

/// A name of this text, with zeros behind it or anything else.
pub fn name_of(rng: &mut Rng, text: &[u8]) -> Name {
    let mut bytes = [0; NAME_BYTES];
    bytes[..text.len()].copy_from_slice(text);
    if let [end, behind @ ..] = &mut bytes[text.len()..] {
        if rng.one_in(2) {
            *end = no_letter(rng);
            match rng.range(0, 2) {
                0 => {}
                1 => behind.iter_mut().for_each(|byte| *byte = rng.byte()),
                _ => behind.iter_mut().for_each(|byte| *byte = letter(rng)),
            }
        }
    }
    Name(bytes)
}
