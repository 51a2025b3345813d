//! Pages in pieces: cut everywhere, longer than is kept or counted, one behind the other and for shelves that change.

use super::acting::Actor;
use super::case::{Case, Offer};
use super::changes::{say_own_length, set};
use super::collectors::{self, Tail, LONGEST_PUT};
use super::control::CONTROL;
use super::flaws::break_block;
use super::shapes::{one_of_each, some_of_each};
use super::threshold_out::THRESHOLD_OUT;
use crate::cases::{groups, malformed_block, shelf_of};
use crate::limits::{
    most_elements_of, COLLECTOR_BYTES, COUNT_STOPS, KEPT_AT, LONGEST_SAID, MOST_KEPT, MOST_TYPES,
};
use crate::names::text;
use crate::pages::calls::{EMPTY_COLLECTOR, END_PAGE, PUT_CHUNK, SET_OVERALL_NAME};
use crate::pages::collector::Collector;
use crate::record::Shelf;
use crate::rng::Rng;

static ACTORS: [&Actor; 2] = [&CONTROL, &THRESHOLD_OUT];

pub fn offer_all(rng: &mut Rng, offer: Offer) {
    let tail = Tail::new(rng);
    for actor in ACTORS {
        cut_everywhere(rng, actor, offer);
        largest_page(rng, actor, offer);
        for (number, flaw) in actor.flaws {
            for _ in 0..70 {
                let one_call = actor.flawed(rng, *flaw);
                assert_eq!(one_call.answer().number, *number, "a flaw alone");
                in_any_pieces(rng, &one_call, offer);
            }
        }
        for _ in 0..500 {
            any_page(rng, actor, offer);
        }
        for _ in 0..55 {
            byte_by_byte(rng, actor, offer);
        }
        for length in telling_lengths() {
            long_pages(rng, actor, &tail, length, offer);
        }
        for _ in 0..10 {
            long_pages(rng, actor, &tail, LONGEST_SAID, offer);
            long_pages(rng, actor, &tail, COUNT_STOPS, offer);
        }
        for _ in 0..17 {
            long_pages(rng, actor, &tail, MOST_KEPT, offer);
        }
        for _ in 0..15 {
            without_bytes(rng, actor, offer);
        }
        for _ in 0..30 {
            changing_shelves(rng, actor, offer);
        }
    }
    every_code_meant(rng, offer);
    for _ in 0..350 {
        pages_in_a_row(rng, &tail, offer);
    }
    for _ in 0..60 {
        two_collectors(rng, offer);
    }
    collectors::offer_all(rng, &tail, offer);
}

/// A collector, with every call on it offered. Each goes on from what the one before has left.
struct Bus<'a> {
    collector: Collector,
    offer: Offer<'a>,
}

impl Bus<'_> {
    fn put(&mut self, chunk: &[u8]) {
        (self.offer)(put_case(&self.collector, chunk));
        self.collector.put(chunk);
    }

    fn put_all(&mut self, pieces: &[&[u8]]) {
        for piece in pieces {
            self.put(piece);
        }
    }

    fn empty(&mut self) {
        let case = empty_case(&self.collector);
        self.start(&case.answer().bytes);
        (self.offer)(case);
    }

    /// The number, and the shelf then.
    fn end(&mut self, shelf: &[u8], code: u8) -> (u8, Vec<u8>) {
        let case = end_case(&self.collector, shelf, code);
        let answer = case.answer();
        let (left, shelf) = answer.collector_and_shelf();
        self.start(left);
        (self.offer)(case);
        (answer.number, shelf.to_vec())
    }

    fn start(&mut self, left: &[u8]) {
        self.collector.start();
        assert_eq!(self.collector.block(), left, "a collector emptied");
    }
}

fn empty_case(collector: &Collector) -> Case {
    Case {
        call: &EMPTY_COLLECTOR,
        inputs: vec![collector.page().to_vec()],
        lent: collector.block(),
    }
}

fn put_case(collector: &Collector, chunk: &[u8]) -> Case {
    Case {
        call: &PUT_CHUNK,
        inputs: vec![collector.page().to_vec(), chunk.to_vec()],
        lent: collector.block(),
    }
}

fn end_case(collector: &Collector, shelf: &[u8], code: u8) -> Case {
    Case {
        call: &END_PAGE,
        inputs: vec![collector.page().to_vec(), vec![code]],
        lent: [&collector.block(), shelf].concat(),
    }
}

/// Nothing is collected yet; anything stands in the room.
pub fn fresh(rng: &mut Rng) -> Collector {
    let mut block = vec![0; COLLECTOR_BYTES];
    if !rng.one_in(4) {
        block[KEPT_AT..].copy_from_slice(&rng.bytes(MOST_KEPT));
    }
    Collector::of(&block, &[])
}

fn holding(rng: &mut Rng, page: &[u8]) -> Collector {
    let mut collector = fresh(rng);
    collector.put(page);
    collector
}

/// The page in pieces, cut at these places, which come in order.
pub fn cut<'a>(page: &'a [u8], places: &[usize]) -> Vec<&'a [u8]> {
    let mut pieces = Vec::new();
    let mut from = 0;
    for place in places.iter().copied().chain([page.len()]) {
        pieces.push(&page[from..place]);
        from = place;
    }
    pieces
}

/// Anywhere, more often where the room or the count ends, and some twice or at an end, which makes a piece without
/// bytes.
pub fn any_cuts(rng: &mut Rng, length: usize) -> Vec<usize> {
    let mut places = Vec::new();
    for _ in 0..rng.pick(&[0, 1, 1, 2, 3, 5]) {
        let any = rng.range(0, length);
        let near = rng.pick(&[MOST_KEPT, COUNT_STOPS]) - 2 + rng.range(0, 4);
        let place = rng.pick(&[any, any, any, near, near, 0, length]);
        places.push(place.min(length));
        if rng.one_in(4) {
            places.push(place.min(length));
        }
    }
    places.sort_unstable();
    places
}

/// The one call's page comes in pieces, and gets the same answer.
fn in_pieces(rng: &mut Rng, one_call: &Case, places: &[usize], offer: Offer) {
    let (page, shelf) = (&one_call.inputs[0], &one_call.lent);
    let mut bus = Bus {
        collector: fresh(rng),
        offer,
    };
    bus.put_all(&cut(page, places));
    let ended = bus.end(shelf, code_of(one_call));
    let answer = one_call.answer();
    let expected = (answer.number, answer.record().to_vec());
    assert_eq!(ended, expected, "{places:?}");
}

fn code_of(one_call: &Case) -> u8 {
    let letter = one_call.call.letter;
    let mut actors = ACTORS.iter();
    let actor = actors.find(|actor| actor.call.letter == letter);
    actor.expect("a call that acts").code
}

/// Pages with every reason for a refusal. Those with none, one or two are cut at each place, and at all at once.
fn cut_everywhere(rng: &mut Rng, actor: &Actor, offer: Offer) {
    let mut one_calls = Vec::new();
    actor.flaws_together(rng, one_of_each, &mut |case| one_calls.push(case));
    for (flaws, one_call) in one_calls.iter().enumerate() {
        let length = one_call.inputs[0].len();
        in_pieces(rng, one_call, &[], offer);
        in_any_pieces(rng, one_call, offer);
        if flaws.count_ones() <= 2 {
            for place in 0..=length {
                in_pieces(rng, one_call, &[place], offer);
            }
            in_single_bytes(rng, one_call, offer);
            for _ in 0..3 {
                in_any_pieces(rng, one_call, offer);
            }
        }
        other_code_meant(rng, one_call, offer);
    }
}

fn in_single_bytes(rng: &mut Rng, one_call: &Case, offer: Offer) {
    let each: Vec<usize> = (1..one_call.inputs[0].len()).collect();
    in_pieces(rng, one_call, &each, offer);
}

fn in_any_pieces(rng: &mut Rng, one_call: &Case, offer: Offer) {
    let places = any_cuts(rng, one_call.inputs[0].len());
    in_pieces(rng, one_call, &places, offer);
}

/// The same page and shelf, but the code of the other page is meant, or one of none that acts.
fn other_code_meant(rng: &mut Rng, one_call: &Case, offer: Offer) {
    let (page, shelf) = (&one_call.inputs[0], &one_call.lent);
    let collector = holding(rng, page);
    let other = 0x07 - code_of(one_call);
    for code in [other, code_of_neither(rng)] {
        let case = end_case(&collector, shelf, code);
        if page.first() != Some(&other) || code != other {
            let number = match one_call.answer().number {
                number @ (1 | 2) => number,
                _ => 3,
            };
            assert_eq!(case.answer().number, number, "{code:02X}h meant");
        }
        offer(case);
    }
}

fn code_of_neither(rng: &mut Rng) -> u8 {
    let any = rng.byte();
    match rng.pick(&[
        any, any, 0x00, 0x01, 0x03, 0x04, 0x06, 0x07, 0x0A, 0x82, 0x85,
    ]) {
        0x02 | 0x05 => 0x07,
        code => code,
    }
}

/// A page that fills the room.
fn largest_page(rng: &mut Rng, actor: &Actor, offer: Offer) {
    let groups = groups(rng, MOST_TYPES, most_elements_of(MOST_TYPES));
    let shelf = shelf_of(rng, groups);
    let page = (actor.accepted)(rng, &shelf);
    assert_eq!(page.len(), MOST_KEPT, "the longest page");
    let one_call = actor.case(&shelf, page);
    for place in 0..=MOST_KEPT {
        in_pieces(rng, &one_call, &[place], offer);
    }
    in_single_bytes(rng, &one_call, offer);
}

/// Short pages, accepted and for another generation.
fn byte_by_byte(rng: &mut Rng, actor: &Actor, offer: Offer) {
    let elements = rng.range(0, 1);
    let groups = groups(rng, 1, elements);
    let shelf = shelf_of(rng, groups);
    let mut one_call = actor.case(&shelf, (actor.accepted)(rng, &shelf));
    in_single_bytes(rng, &one_call, offer);
    one_call.inputs[0][rng.range(4, 7)] ^= rng.nonzero_byte();
    in_single_bytes(rng, &one_call, offer);
}

/// The one call too.
fn any_page(rng: &mut Rng, actor: &Actor, offer: Offer) {
    let one_call = actor.changed_page(rng);
    in_any_pieces(rng, &one_call, offer);
    offer(one_call);
}

/// Around the end of the room and of the count, so long that 16 bits take it for less, and far longer.
fn telling_lengths() -> impl Iterator<Item = usize> {
    let room = MOST_KEPT - 1..=MOST_KEPT + 4;
    let between = [400, 512 + 40, 32_768 + 4, 65_535];
    let stops = COUNT_STOPS - 4..=COUNT_STOPS + 5;
    let behind = [65_536 + 40, 65_536 + MOST_KEPT, 2 * 65_536 + 40];
    room.chain(between)
        .chain(stops)
        .chain(behind)
        .chain([LONGEST_PUT])
}

/// Pages of this length that say so, or something else, each ended for several shelves and codes.
fn long_pages(rng: &mut Rng, actor: &Actor, tail: &Tail, length: usize, offer: Offer) {
    let any = rng.word();
    for said in [(length - 4) as u16, u16::MAX, any, any.wrapping_add(1)] {
        let of = one_of_each(rng);
        let mut page = actor.blank(&of);
        page.truncate(8);
        page.extend(tail.bytes(rng, length - 8));
        page[2..4].copy_from_slice(&said.to_be_bytes());
        let places = any_cuts(rng, length);
        let mut bus = Bus {
            collector: fresh(rng),
            offer,
        };
        bus.put_all(&cut(&page, &places));
        let collector = bus.collector;
        let number = match usize::from(said) + 4 {
            said if said == length => 12,
            _ => 4,
        };
        let malformed = malformed_block(rng);
        let neither = code_of_neither(rng);
        let ends = [
            (of.block(), actor.code, number),
            (one_of_each(rng).block(), actor.code, number),
            (small_shelf(rng).block(), actor.code, number),
            (malformed.clone(), actor.code, 1),
            (malformed, neither, 1),
            (of.block(), 0x07 - actor.code, 3),
            (of.block(), neither, 3),
        ];
        for (shelf, code, number) in ends {
            let case = end_case(&collector, &shelf, code);
            assert_eq!(case.answer().number, number, "{length} bytes, {said} said");
            offer(case);
        }
    }
}

/// Its pages are shorter than the room.
fn small_shelf(rng: &mut Rng) -> Shelf {
    let (types, elements) = (rng.range(1, MOST_TYPES), rng.range(0, 16));
    let groups = groups(rng, types, elements);
    shelf_of(rng, groups)
}

/// No chunk at all, and chunks without bytes.
fn without_bytes(rng: &mut Rng, actor: &Actor, offer: Offer) {
    for chunks in [0, 1, 3] {
        let shelf = one_of_each(rng).block();
        let mut broken = shelf.clone();
        break_block(&mut broken, rng);
        let mut bus = Bus {
            collector: fresh(rng),
            offer,
        };
        for (shelf, code, number) in [
            (&shelf, actor.code, 2),
            (&broken, actor.code, 1),
            (&shelf, code_of_neither(rng), 2),
            (&broken, code_of_neither(rng), 1),
        ] {
            bus.put_all(&vec![&[][..]; chunks]);
            let (answer, after) = bus.end(shelf, code);
            assert_eq!((answer, &after), (number, shelf), "a page without bytes");
        }
    }
}

/// Each code is meant, and each stands in byte 0.
fn every_code_meant(rng: &mut Rng, offer: Offer) {
    for code in 0..=0xFF {
        let any = rng.byte();
        for byte0 in [0x02, 0x05, code, any] {
            end_with(rng, byte0, code, offer);
        }
        for meant in [0x02, 0x05] {
            end_with(rng, code, meant, offer);
        }
    }
}

/// A page accepted but for its code, and the same with a reason for 1 or 2, or both.
fn end_with(rng: &mut Rng, byte0: u8, meant: u8, offer: Offer) {
    let shelf = one_of_each(rng);
    let of = if byte0 == 0x05 || byte0 != 0x02 && meant == 0x05 {
        &THRESHOLD_OUT
    } else {
        &CONTROL
    };
    let mut page = (of.accepted)(rng, &shelf);
    page[0] = byte0;
    let mut block = shelf.block();
    let is_meant = byte0 == meant && [0x02, 0x05].contains(&meant);
    let number = if is_meant { 0 } else { 3 };
    let case = end_case(&holding(rng, &page), &block, meant);
    assert_eq!(case.answer().number, number, "{byte0:02X}h, {meant:02X}h");
    offer(case);
    let (short, broken) = rng.pick(&[(true, false), (false, true), (true, true)]);
    if short {
        page.truncate(rng.range(0, 3));
    }
    if broken {
        break_block(&mut block, rng);
    }
    let number = if broken { 1 } else { 2 };
    let case = end_case(&holding(rng, &page), &block, meant);
    assert_eq!(case.answer().number, number, "{byte0:02X}h, {meant:02X}h");
    offer(case);
}

/// The shelf while a page comes in, the shelf when it is ended, and the answer.
struct Changing {
    first: Vec<u8>,
    then: Vec<u8>,
    number: u8,
}

/// The library sees the shelf before the page, and another once it has come in.
fn changing_shelves(rng: &mut Rng, actor: &Actor, offer: Offer) {
    let shelf = one_of_each(rng);
    let page = (actor.accepted)(rng, &shelf);
    for Changing {
        first,
        then,
        number,
    } in changes_of(rng, &shelf)
    {
        let mut bus = Bus {
            collector: fresh(rng),
            offer,
        };
        bus.end(&first, actor.code);
        let places = any_cuts(rng, page.len());
        bus.put_all(&cut(&page, &places));
        let (answer, _) = bus.end(&then, actor.code);
        assert_eq!(answer, number, "by the shelf at the end");
    }
    applied_between(rng, &shelf, actor, &page, offer);
}

fn changes_of(rng: &mut Rng, shelf: &Shelf) -> Vec<Changing> {
    let right = shelf.block();
    let mut other_generation = right.clone();
    other_generation[rng.range(0, 3)] ^= rng.nonzero_byte();
    let mut broken = right.clone();
    break_block(&mut broken, rng);
    let other_types = some_of_each(rng);
    let length = |shelf: &Shelf| shelf.configuration().places().len();
    let mut others = vec![(other_generation, 5), (broken, 1)];
    if length(&other_types) != length(shelf) {
        others.push((other_types.block(), 12));
    }
    let mut changes = Vec::new();
    for (other, number) in others {
        changes.push(Changing {
            first: right.clone(),
            then: other.clone(),
            number,
        });
        changes.push(Changing {
            first: other,
            then: right.clone(),
            number: 0,
        });
    }
    changes
}

/// Other pages and a name are set between two pieces.
fn applied_between(rng: &mut Rng, shelf: &Shelf, actor: &Actor, page: &[u8], offer: Offer) {
    let mut block = shelf.block();
    let place = rng.range(0, page.len());
    let (front, rest) = page.split_at(place);
    let collector = fresh(rng);
    offer(put_case(&collector, front));
    for other in ACTORS {
        let case = other.case_of(block, (other.accepted)(rng, shelf));
        block = case.answer().record().to_vec();
        offer(case);
    }
    let case = Case {
        call: &SET_OVERALL_NAME,
        inputs: vec![vec![0; 4], text(rng)],
        lent: block,
    };
    block = case.answer().shelf().to_vec();
    offer(case);
    let mut bus = Bus { collector, offer };
    bus.collector.put(front);
    bus.put(rest);
    let ended = bus.end(&block, actor.code);
    let answer = actor.case_of(block, page.to_vec()).answer();
    let expected = (answer.number, answer.record().to_vec());
    assert_eq!(ended, expected, "other pages between");
}

/// Up to five pages one behind the other. The next starts from nothing, after whatever became of the one before.
fn pages_in_a_row(rng: &mut Rng, tail: &Tail, offer: Offer) {
    let shelf = one_of_each(rng);
    let mut block = shelf.block();
    let mut bus = Bus {
        collector: fresh(rng),
        offer,
    };
    for _ in 0..rng.range(2, 5) {
        let actor = rng.pick(&ACTORS);
        let mut page = (actor.accepted)(rng, &shelf);
        match rng.range(0, 9) {
            0 => page.truncate(rng.range(0, 3)),
            1 => page.truncate(rng.range(4, page.len())),
            2 => set(&mut page, rng.range(0, 7), rng.byte()),
            3 => {
                page.extend(tail.bytes(rng, MOST_KEPT));
                say_own_length(&mut page);
            }
            4 if rng.one_in(4) => page.extend(tail.bytes(rng, COUNT_STOPS)),
            _ => {}
        }
        if rng.one_in(4) {
            bus.put(tail.bytes(rng, page.len()));
            bus.empty();
        }
        let places = any_cuts(rng, page.len());
        bus.put_all(&cut(&page, &places));
        let (number, after) = bus.end(&block, actor.code);
        block = after;
        if number == 0 && rng.one_in(2) {
            let length = rng.range(0, page.len() - 1);
            let length = rng.pick(&[0, length]);
            if length > 0 {
                bus.put(&page[..length]);
            }
            let (number, _) = bus.end(&block, actor.code);
            let expected = if length < 4 { 2 } else { 4 };
            assert_eq!(number, expected, "the front of the page before");
        }
    }
}

/// Two pages for one shelf come in by turns, each into its own collector.
fn two_collectors(rng: &mut Rng, offer: Offer) {
    let shelf = one_of_each(rng);
    let mut block = shelf.block();
    let mut coming: Vec<(Collector, Vec<u8>)> = Vec::new();
    for actor in ACTORS {
        coming.push((fresh(rng), (actor.accepted)(rng, &shelf)));
    }
    while coming.iter().any(|(_, rest)| !rest.is_empty()) {
        for (collector, rest) in &mut coming {
            let chunk: Vec<u8> = rest.drain(..rng.range(0, rest.len())).collect();
            offer(put_case(collector, &chunk));
            collector.put(&chunk);
        }
    }
    for ((collector, _), actor) in coming.iter().zip(ACTORS) {
        let case = end_case(collector, &block, actor.code);
        let answer = case.answer();
        assert_eq!(answer.number, 0, "a page in turn with another");
        block = answer.collector_and_shelf().1.to_vec();
        offer(case);
    }
}
