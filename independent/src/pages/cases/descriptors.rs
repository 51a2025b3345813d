//! Element Descriptor pages and records of names: each byte that can offend, and each length that can be wrong.

use super::case::{page_written, Case, Offer};
use super::changes::{say_own_length, with};
use super::flaws::{break_block, Attempt};
use super::reading::{accepted_descriptors, Reader};
use super::rewriting::NAMES;
use super::shapes::{between_two, one_of_each, shelf, some_of_each};
use crate::cases::one_type;
use crate::limits::{
    descriptor_page_bytes, record_bytes, DESCRIPTOR_HEAD_BYTES, FIRST_LETTER, LAST_LETTER,
    LONGEST_SAID, MOST_NAME, NAMES_BYTES, NAME_BYTES,
};
use crate::names::{letters, no_letter};
use crate::pages::calls::{READ_DESCRIPTORS, REWRITE_DESCRIPTORS, WRITE_DESCRIPTORS};
use crate::record::{Kind, Name, Shelf};
use crate::rng::Rng;

static DESCRIPTORS: Reader = Reader {
    call: &READ_DESCRIPTORS,
    code: 0x07,
    record_bytes: NAMES_BYTES,
    accepted: accepted_descriptors,
    flaws: &[(6, not_allowed)],
};

pub fn offer_all(rng: &mut Rng, offer: Offer) {
    DESCRIPTORS.offer_spoiled(rng, offer);
    for _ in 0..60 {
        every_offending_byte(rng, offer);
    }
    for _ in 0..250 {
        every_wrong_end(rng, offer);
    }
    for _ in 0..1_500 {
        offer(other_declared_lengths(rng));
    }
    for _ in 0..4 {
        long_texts(rng, offer);
        overlapping(rng, offer);
    }
    every_value_in_an_entry(rng, offer);
    for _ in 0..60 {
        flaws_of_records_together(rng, offer);
    }
}

pub fn offending(rng: &mut Rng) -> Case {
    DESCRIPTORS.offending(rng)
}

/// A page for its configuration, with offending bytes, another end than its descriptors have, or neither.
pub fn any_page(rng: &mut Rng) -> Case {
    match rng.range(0, 3) {
        0 => offending(rng),
        1 => other_declared_lengths(rng),
        2 => {
            let shelf = shelf(rng);
            let ender = rng.pick(&ENDERS);
            ended(rng, &shelf, ender)
        }
        _ => {
            let shelf = shelf(rng);
            let inputs = accepted_descriptors(rng, &shelf);
            DESCRIPTORS.case(rng, inputs)
        }
    }
}

/// A descriptor that may declare another length than its text has.
#[derive(Clone)]
struct Told {
    zeros: [u8; 2],
    declared: u16,
    text: Vec<u8>,
}

/// A page by its descriptors.
struct Parts {
    front: Vec<u8>,
    told: Vec<Told>,
}

impl Parts {
    /// Of a page that is as long as its descriptors declare.
    fn of(page: &[u8], places: usize) -> Parts {
        let (front, mut rest) = page.split_at(descriptor_page_bytes(0, 0));
        let mut told = Vec::new();
        for _ in 0..places {
            let (head, behind) = rest.split_at(DESCRIPTOR_HEAD_BYTES);
            let declared = u16::from_be_bytes([head[2], head[3]]);
            let (text, behind) = behind.split_at(declared.into());
            told.push(Told {
                zeros: [head[0], head[1]],
                declared,
                text: text.to_vec(),
            });
            rest = behind;
        }
        Parts {
            front: front.to_vec(),
            told,
        }
    }

    fn of_shelf(shelf: &Shelf) -> Parts {
        let page = page_written(&WRITE_DESCRIPTORS, &[shelf.block()]);
        Parts::of(&page, places(shelf))
    }

    /// Where this descriptor stands, or the end of all.
    fn at(&self, place: usize) -> usize {
        let texts = self.told[..place].iter().map(|told| told.text.len());
        descriptor_page_bytes(place, texts.sum())
    }

    fn page(&self) -> Vec<u8> {
        let mut page = self.front.clone();
        for Told {
            zeros,
            declared,
            text,
        } in &self.told
        {
            page.extend(zeros);
            page.extend(declared.to_be_bytes());
            page.extend(text);
        }
        say_own_length(&mut page);
        page
    }

    fn any_place(&self, rng: &mut Rng) -> usize {
        let last = self.told.len() - 1;
        let any = rng.range(0, last);
        rng.pick(&[0, last, any, any])
    }
}

impl Told {
    fn give(&mut self, text: Vec<u8>) {
        self.declared = text.len() as u16;
        self.text = text;
    }

    fn have_letters(&mut self, rng: &mut Rng, least: usize) {
        if self.text.len() < least {
            let length = rng.range(least, MOST_NAME);
            self.give(letters(rng, length));
        }
    }
}

fn places(shelf: &Shelf) -> usize {
    shelf.configuration().places().len()
}

/// Makes a descriptor offend, and tells at which of its bytes it does so first if it did not before.
type Spoiler = fn(&mut Told, &mut Rng) -> usize;

const SPOILERS: [Spoiler; 9] = [
    |told, rng| zero_set(told, 0, rng),
    |told, rng| zero_set(told, 1, rng),
    |told, rng| too_long(told, rng, &[MOST_NAME + 1, MOST_NAME + 2, 127, 128, 255]),
    |told, rng| too_long(told, rng, &[256, 257, 256 + MOST_NAME - 1, 256 + MOST_NAME]),
    |told, rng| too_long(told, rng, &[256 + MOST_NAME + 1, 511, 1_023]),
    |told, rng| no_letter_in(told, rng, 1, |_| 0),
    |told, rng| no_letter_in(told, rng, 2, |_| 0),
    |told, rng| no_letter_in(told, rng, 3, |length| length / 2),
    |told, rng| no_letter_in(told, rng, 2, |length| length - 1),
];

fn zero_set(told: &mut Told, which: usize, rng: &mut Rng) -> usize {
    let any = rng.nonzero_byte();
    told.zeros[which] = rng.pick(&[0x01, 0x20, 0x80, 0xFF, any]);
    which
}

/// Letters enough for the length that it declares.
fn too_long(told: &mut Told, rng: &mut Rng, lengths: &[usize]) -> usize {
    let length = rng.pick(lengths);
    told.give(letters(rng, length));
    2
}

fn no_letter_in(told: &mut Told, rng: &mut Rng, least: usize, place: fn(usize) -> usize) -> usize {
    told.have_letters(rng, least);
    let at = place(told.text.len());
    told.text[at] = no_letter(rng);
    DESCRIPTOR_HEAD_BYTES + at
}

fn not_allowed(attempt: &mut Attempt, rng: &mut Rng) {
    if rng.one_in(8) {
        attempt.page()[1] = rng.nonzero_byte();
        return;
    }
    let places = places(&attempt.shelf);
    let mut parts = Parts::of(attempt.page(), places);
    let place = parts.any_place(rng);
    rng.pick(&SPOILERS)(&mut parts.told[place], rng);
    *attempt.page() = parts.page();
}

/// Each by itself, and with others behind it; in the first descriptor, the last, and another.
fn every_offending_byte(rng: &mut Rng, offer: Offer) {
    for spoiler in SPOILERS {
        for alone in [true, false] {
            let shelf = some_of_each(rng);
            let last = places(&shelf) - 1;
            for place in [0, rng.range(1, last - 1), last] {
                let mut parts = Parts::of_shelf(&shelf);
                let told = &mut parts.told[place];
                let offset = spoiler(told, rng);
                if !alone {
                    let behind = &mut parts.told[rng.range(place, last)..];
                    for told in behind.iter_mut().skip(1) {
                        rng.pick(&SPOILERS)(told, rng);
                    }
                }
                let offset = parts.at(place) + offset;
                offer(refused(rng, &shelf, parts.page(), (6, offset)));
            }
        }
    }
    for spoiler in SPOILERS {
        let kind = rng.pick(&Kind::ALL);
        let shelf = one_type(rng, kind, 0);
        let mut parts = Parts::of_shelf(&shelf);
        let offset = parts.at(0) + spoiler(&mut parts.told[0], rng);
        offer(refused(rng, &shelf, parts.page(), (6, offset)));
    }
    let shelf = shelf(rng);
    let mut parts = Parts::of_shelf(&shelf);
    parts.front[1] = rng.nonzero_byte();
    offer(refused(rng, &shelf, parts.page(), (6, 1)));
    let place = parts.any_place(rng);
    rng.pick(&SPOILERS)(&mut parts.told[place], rng);
    offer(refused(rng, &shelf, parts.page(), (6, 1)));
}

fn refused(rng: &mut Rng, shelf: &Shelf, page: Vec<u8>, told: (u8, usize)) -> Case {
    let configuration = shelf.configuration().block();
    let case = DESCRIPTORS.case(rng, vec![configuration, page]);
    assert_eq!(case.number_and_offset(), told);
    case
}

/// Makes a page end elsewhere than its descriptors do.
type Ender = fn(&mut Parts, &mut Rng) -> Vec<u8>;

const ENDERS: [Ender; 9] = [
    cut_in_head,
    cut_in_text,
    cut_in_front,
    bytes_left_over,
    another_descriptor,
    |parts, rng| far_too_long(parts, rng, 0xFFFF),
    |parts, rng| far_too_long(parts, rng, 0x8000),
    last_longer,
    last_shorter,
];

/// Each by itself, and together with all that is tested later.
fn every_wrong_end(rng: &mut Rng, offer: Offer) {
    for ender in ENDERS {
        let shelf = if rng.one_in(2) {
            shelf(rng)
        } else {
            some_of_each(rng)
        };
        offer(ended(rng, &shelf, ender));
    }
}

fn ended(rng: &mut Rng, shelf: &Shelf, ender: Ender) -> Case {
    let mut parts = Parts::of_shelf(shelf);
    if rng.one_in(2) {
        parts.front[rng.range(4, 7)] ^= rng.nonzero_byte();
    }
    if rng.one_in(2) {
        let place = parts.any_place(rng);
        rng.pick(&SPOILERS)(&mut parts.told[place], rng);
    }
    if rng.one_in(4) {
        parts.front[1] = rng.nonzero_byte();
    }
    let mut page = ender(&mut parts, rng);
    say_own_length(&mut page);
    refused(rng, shelf, page, (12, 0))
}

fn cut_in_head(parts: &mut Parts, rng: &mut Rng) -> Vec<u8> {
    let place = parts.any_place(rng);
    let end = parts.at(place) + rng.range(0, DESCRIPTOR_HEAD_BYTES - 1);
    parts.page()[..end].to_vec()
}

fn cut_in_text(parts: &mut Parts, rng: &mut Rng) -> Vec<u8> {
    let place = parts.any_place(rng);
    parts.told[place].have_letters(rng, 1);
    let last = parts.told[place].text.len() - 1;
    let any = rng.range(0, last);
    let end = parts.at(place) + DESCRIPTOR_HEAD_BYTES + rng.pick(&[0, any, last]);
    parts.page()[..end].to_vec()
}

fn cut_in_front(parts: &mut Parts, rng: &mut Rng) -> Vec<u8> {
    parts.page()[..rng.range(4, 7)].to_vec()
}

fn bytes_left_over(parts: &mut Parts, rng: &mut Rng) -> Vec<u8> {
    let any = rng.range(1, 2 * NAME_BYTES);
    let surplus = rng.pick(&[1, 2, 3, DESCRIPTOR_HEAD_BYTES, any]);
    [parts.page(), rng.bytes(surplus)].concat()
}

fn another_descriptor(parts: &mut Parts, rng: &mut Rng) -> Vec<u8> {
    let place = parts.any_place(rng);
    parts.told.push(parts.told[place].clone());
    parts.page()
}

fn far_too_long(parts: &mut Parts, rng: &mut Rng, declared: u16) -> Vec<u8> {
    let place = rng.range(0, parts.told.len() - 1);
    parts.told[place].declared = declared;
    parts.page()
}

fn last_longer(parts: &mut Parts, rng: &mut Rng) -> Vec<u8> {
    let last = parts.told.last_mut().expect("a descriptor");
    last.declared += rng.pick(&[1, 2, 256]);
    parts.page()
}

fn last_shorter(parts: &mut Parts, rng: &mut Rng) -> Vec<u8> {
    let last = parts.told.last_mut().expect("a descriptor");
    last.have_letters(rng, 1);
    last.declared -= rng.range(1, last.declared.into()) as u16;
    parts.page()
}

/// Some descriptors declare a few bytes more or less, so that the next ones are taken from elsewhere.
fn other_declared_lengths(rng: &mut Rng) -> Case {
    let shelf = if rng.one_in(2) {
        shelf(rng)
    } else {
        one_of_each(rng)
    };
    let mut parts = Parts::of_shelf(&shelf);
    for _ in 0..rng.range(1, 3) {
        let place = parts.any_place(rng);
        let declared = &mut parts.told[place].declared;
        let (fewer, more) = (rng.range(0, 8) as u16, rng.range(0, 8) as u16);
        *declared = rng.pick(&[
            declared.wrapping_add(more),
            declared.wrapping_sub(fewer),
            declared.wrapping_add(4),
            declared.wrapping_add(256),
            0,
        ]);
    }
    DESCRIPTORS.case(rng, vec![shelf.configuration().block(), parts.page()])
}

/// Texts as long as a page has room for, and a byte more than that.
fn long_texts(rng: &mut Rng, offer: Offer) {
    let kind = rng.pick(&Kind::ALL);
    let shelf = one_type(rng, kind, 0);
    let longest = LONGEST_SAID - descriptor_page_bytes(1, 0);
    for length in [0xFEFF, 0xFF00, 0xFF20, longest - 1, longest] {
        let mut parts = Parts::of_shelf(&shelf);
        parts.told[0].give(letters(rng, length));
        offer(refused(rng, &shelf, parts.page(), (6, 10)));
        for declared in [0, MOST_NAME, length - 1, length + 1, 0xFFFF] {
            parts.told[0].declared = declared as u16;
            offer(refused(rng, &shelf, parts.page(), (12, 0)));
        }
    }
}

/// The text of the first descriptor goes beyond the page by as much as 16 bits hold, less one: the second would
/// then start within the first.
fn overlapping(rng: &mut Rng, offer: Offer) {
    for length in 0..=MOST_NAME {
        let kind = rng.pick(&Kind::ALL);
        let shelf = one_type(rng, kind, 1);
        let mut page = Parts::of_shelf(&shelf).front;
        page.extend([0x00, 0x00, 0xFF, 0xFF, 0x00, 0x00, length as u8]);
        page.extend(letters(rng, length));
        say_own_length(&mut page);
        offer(refused(rng, &shelf, page, (12, 0)));
    }
}

/// What an entry may have, and what it may not, at each place of a name of each length.
fn every_value_in_an_entry(rng: &mut Rng, offer: Offer) {
    const TELLING: [u8; 8] = [
        0x00,
        0x01,
        FIRST_LETTER - 1,
        FIRST_LETTER,
        LAST_LETTER,
        LAST_LETTER + 1,
        0x80,
        0xFF,
    ];
    for length in 0..=MOST_NAME {
        let shelf = between_two(rng, Kind::Cooling, 1);
        let [configuration, record] = NAMES.accepted(rng, &shelf);
        let entry = rng.range(0, places(&shelf) - 1);
        let entry_at = record_bytes(NAME_BYTES, entry);
        let name = Name::of(&letters(rng, length)).expect("a name");
        let record = with(&record, entry_at, &name.0);
        let room = descriptor_page_bytes(places(&shelf), places(&shelf) * MOST_NAME);
        for at in 0..NAME_BYTES {
            for value in TELLING {
                let changed = with(&record, entry_at + at, &[value]);
                offer(Case {
                    call: &REWRITE_DESCRIPTORS,
                    inputs: vec![configuration.clone(), changed],
                    lent: rng.bytes(room),
                });
            }
        }
    }
}

/// The reasons for all refusals in every combination, of which the first has to be the answer.
fn flaws_of_records_together(rng: &mut Rng, offer: Offer) {
    const NUMBERS: [u8; 4] = [1, 9, 6, 11];
    for chosen in 0..1 << NUMBERS.len() {
        let is_chosen = |place: &usize| chosen >> place & 1 == 1;
        let numbers = (0..NUMBERS.len()).filter(is_chosen);
        let numbers: Vec<u8> = numbers.map(|place| NUMBERS[place]).collect();
        let case = flawed_record(rng, &numbers);
        let first = numbers.first().copied().unwrap_or(0);
        assert_eq!(case.answer().number, first, "flaws {numbers:?}");
        offer(case);
    }
}

fn flawed_record(rng: &mut Rng, numbers: &[u8]) -> Case {
    let shelf = some_of_each(rng);
    let [mut configuration, mut record] = NAMES.accepted(rng, &shelf);
    let page = page_written(&WRITE_DESCRIPTORS, &[shelf.block()]).len();
    let mut room = page + rng.range(0, 8);
    for number in numbers {
        match number {
            1 => break_block(&mut configuration, rng),
            9 => other_number_of_entries(&mut record, rng),
            6 => {
                let entry = record_bytes(NAME_BYTES, rng.range(0, places(&shelf) - 1));
                spoil_entry(&mut record[entry..entry + NAME_BYTES], rng);
            }
            _ => room = rng.pick(&[0, 1, 8, page - 1]),
        }
    }
    Case {
        call: &REWRITE_DESCRIPTORS,
        inputs: vec![configuration, record],
        lent: rng.bytes(room),
    }
}

fn other_number_of_entries(record: &mut [u8], rng: &mut Rng) {
    let any = rng.range(1, 0xFFFF) as u16;
    let changed: u16 = rng.pick(&[0x0001, 0x0002, 0x0100, 0x8000, any]);
    let [upper, lower] = changed.to_be_bytes();
    record[2] ^= upper;
    record[3] ^= lower;
}

/// A byte that is no letter and not zero, or a letter behind a zero.
fn spoil_entry(entry: &mut [u8], rng: &mut Rng) {
    let at = rng.range(0, NAME_BYTES - 1);
    if rng.one_in(2) || at == 0 {
        while entry[at] == 0 || (FIRST_LETTER..=LAST_LETTER).contains(&entry[at]) {
            entry[at] = no_letter(rng);
        }
    } else {
        entry[rng.range(0, at - 1)] = 0;
        entry[at] = rng.nonzero_byte();
    }
}
