//! Collectors of any bytes, for each call on one.

use super::case::{Case, Offer};
use super::control::CONTROL;
use super::shapes::shelf;
use super::threshold_out::THRESHOLD_OUT;
use crate::cases::malformed_block;
use crate::limits::{COLLECTOR_BYTES, COUNT_STOPS, KEPT_AT, MOST_KEPT};
use crate::pages::calls::{EMPTY_COLLECTOR, END_PAGE, PUT_CHUNK};
use crate::pages::collector::counted;
use crate::rng::Rng;

pub fn offer_all(rng: &mut Rng, tail: &Tail, offer: Offer) {
    chunks_at_every_count(rng, tail, offer);
    for _ in 0..1_200 {
        offer(empty_any(rng, tail));
        offer(put_into_any(rng, tail));
        offer(end_any(rng, tail));
    }
}

/// So many bytes of any content that every page can end with some of them.
pub struct Tail(Vec<u8>);

/// Far more than is counted.
pub const LONGEST_PUT: usize = 200_000;

impl Tail {
    pub fn new(rng: &mut Rng) -> Tail {
        Tail(rng.bytes(LONGEST_PUT + 1_000))
    }

    pub fn bytes(&self, rng: &mut Rng, length: usize) -> &[u8] {
        let from = rng.range(0, self.0.len() - length);
        &self.0[from..][..length]
    }
}

/// Each count up to the room's end and around the last, with chunks that end before, at and behind either.
fn chunks_at_every_count(rng: &mut Rng, tail: &Tail, offer: Offer) {
    for count in 0..=MOST_KEPT as u32 + 4 {
        let left = MOST_KEPT.saturating_sub(count as usize);
        for length in [0, 1, 2, left.saturating_sub(1), left, left + 1, left + 80] {
            offer(put_at(rng, tail, count, length));
        }
    }
    let stops = COUNT_STOPS as u32;
    for count in stops - 6..=stops {
        for length in 0..=8 {
            offer(put_at(rng, tail, count, length));
        }
    }
    for _ in 0..110 {
        let kept = rng.range(0, MOST_KEPT - 1);
        let counted = rng.range(MOST_KEPT, COUNT_STOPS - 1);
        for (count, past) in [(kept, 0), (kept, 1), (kept, 2), (counted, 1), (counted, 2)] {
            let length = COUNT_STOPS - 1 - count + past;
            offer(put_at(rng, tail, count as u32, length));
        }
        let length = rng.range(2, MOST_KEPT);
        offer(put_at(rng, tail, MOST_KEPT as u32 - 1, length));
    }
    for count in TOO_LARGE {
        for length in [0, 1, 2, 7, MOST_KEPT, 65_536] {
            offer(put_at(rng, tail, count, length));
        }
    }
}

/// Counts that mean the last one. Some have lower bytes that would mean a page within the room.
const TOO_LARGE: [u32; 14] = [
    COUNT_STOPS as u32 + 1,
    COUNT_STOPS as u32 + 2,
    65_536 + 8,
    65_536 + 40,
    65_536 + MOST_KEPT as u32,
    2 * 65_536,
    2 * 65_536 + 40,
    1 << 24,
    (1 << 24) + 40,
    1 << 31,
    (1 << 31) + 40,
    u32::MAX - 65_536,
    u32::MAX - 1,
    u32::MAX,
];

fn put_at(rng: &mut Rng, tail: &Tail, count: u32, length: usize) -> Case {
    let mut block = rng.bytes(COLLECTOR_BYTES);
    block[..KEPT_AT].copy_from_slice(&count.to_be_bytes());
    put_into(rng, tail, block, length)
}

/// A chunk of so many bytes.
fn put_into(rng: &mut Rng, tail: &Tail, block: Vec<u8>, length: usize) -> Case {
    let page = stood_for(rng, tail, &block);
    Case {
        call: &PUT_CHUNK,
        inputs: vec![page, tail.bytes(rng, length).to_vec()],
        lent: block,
    }
}

/// A page that the block can stand for: what it has not kept may be anything.
fn stood_for(rng: &mut Rng, tail: &Tail, block: &[u8]) -> Vec<u8> {
    let counted = counted(block);
    let kept = counted.min(MOST_KEPT);
    let mut page = block[KEPT_AT..][..kept].to_vec();
    page.extend(tail.bytes(rng, counted - kept));
    if counted == COUNT_STOPS {
        let any = rng.range(0, 2_000);
        let more = rng.pick(&[0, 1, any]);
        page.extend(tail.bytes(rng, more));
    }
    page
}

/// Any bytes, with any count or a telling one.
fn any_block(rng: &mut Rng) -> Vec<u8> {
    let mut block = rng.bytes(COLLECTOR_BYTES);
    let within = rng.range(0, 2 * MOST_KEPT) as u32;
    let near = rng.pick(&[0, 1, 1, 2]) + rng.pick(&[MOST_KEPT, COUNT_STOPS]) as u32 - 1;
    let too_large = rng.pick(&TOO_LARGE);
    let word = u32::from(rng.word());
    let count = rng.pick(&[0, within, within, near, near, near, near, too_large, word]);
    if !rng.one_in(8) {
        block[..KEPT_AT].copy_from_slice(&count.to_be_bytes());
    }
    block
}

fn empty_any(rng: &mut Rng, tail: &Tail) -> Case {
    let block = any_block(rng);
    Case {
        call: &EMPTY_COLLECTOR,
        inputs: vec![stood_for(rng, tail, &block)],
        lent: block,
    }
}

fn put_into_any(rng: &mut Rng, tail: &Tail) -> Case {
    let block = any_block(rng);
    let left = MOST_KEPT.saturating_sub(counted(&block));
    let (within, any) = (rng.range(0, left), rng.range(0, 2 * MOST_KEPT));
    let length = rng.pick(&[0, 1, within, left, left + 1, any, any]);
    put_into(rng, tail, block, length)
}

/// In the room stands any page, or anything; the count is that of the page, nearly, or any.
fn end_any(rng: &mut Rng, tail: &Tail) -> Case {
    let shelf = shelf(rng);
    let actor = rng.pick(&[&CONTROL, &THRESHOLD_OUT]);
    let mut block = any_block(rng);
    if !rng.one_in(4) {
        let page = (actor.accepted)(rng, &shelf);
        block[KEPT_AT..][..page.len()].copy_from_slice(&page);
        let length = page.len() as u32;
        let near = length - 2 + rng.range(0, 4) as u32;
        let step = rng.pick(&[1 << 8, 1 << 16, 1 << 24, 1 << 31]);
        let count = rng.pick(&[length, length, length, near, length + step]);
        if !rng.one_in(8) {
            block[..KEPT_AT].copy_from_slice(&count.to_be_bytes());
        }
    }
    let shelf = if rng.one_in(8) {
        malformed_block(rng)
    } else {
        shelf.block()
    };
    let code = match rng.range(0, 7) {
        0 => 0x07 - actor.code,
        1 => rng.byte(),
        _ => actor.code,
    };
    Case {
        call: &END_PAGE,
        inputs: vec![stood_for(rng, tail, &block), vec![code]],
        lent: [block, shelf].concat(),
    }
}
