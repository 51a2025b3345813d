//! Pages in pieces: examples worked out by hand from request Four, and laws that follow from it.

use super::checks::Checks;
use super::examples::{block_a, fan, shelf_a, shelf_a_of, temperature, with, BEFORE, SPEED_5};
use crate::limits::{COLLECTOR_BYTES, COUNT_STOPS, LONGEST_SAID, MOST_KEPT, TYPES_AT};
use crate::pages::calls::{apply_thresholds, empty_collector, end_page, put_chunk, Answer};
use crate::pages::cases::case::Case;
use crate::pages::cases::collecting::{any_cuts, cut, fresh};
use crate::pages::cases::control::CONTROL;
use crate::pages::cases::threshold_out::THRESHOLD_OUT;
use crate::pages::collector::{counted, stands_for, Collector};
use crate::record::{Kind, Thresholds};
use crate::rng::Rng;

const SEED: u64 = 0xC011;
const ROUNDS: usize = 400;

pub fn check(checks: &mut Checks) {
    limits(checks);
    chunks_put(checks);
    counts_too_large(checks);
    emptied(checks);
    page_for_a(checks);
    refused_for_a(checks);
    broken_a(checks);
    long_pages(checks);
    next_page(checks);
    shelf_at_the_end(checks);
    found(checks);
    laws(checks);
}

fn limits(checks: &mut Checks) {
    checks.equal("bytes kept", MOST_KEPT, 296);
    checks.equal("bytes of a collector", COLLECTOR_BYTES, 300);
    checks.equal("last count", COUNT_STOPS, 65_540);
}

/// The count, these bytes in front, and behind them what was there before.
fn block(count: [u8; 4], front: &[u8]) -> Vec<u8> {
    let mut block = [&count[..], front].concat();
    block.resize(COLLECTOR_BYTES, BEFORE);
    block
}

/// Nothing is collected yet.
fn new() -> Collector {
    Collector::of(&block([0; 4], &[]), &[])
}

fn holding(page: &[u8]) -> Collector {
    let mut collector = new();
    collector.put(page);
    collector
}

fn bytes(length: usize) -> Vec<u8> {
    (0..length).map(|at| at as u8).collect()
}

/// The bytes put so far, the next chunk, and the count then.
const PUT: [(usize, usize, [u8; 4]); 14] = [
    (0, 0, [0, 0, 0x00, 0x00]),
    (0, 1, [0, 0, 0x00, 0x01]),
    (0, 255, [0, 0, 0x00, 0xFF]),
    (255, 1, [0, 0, 0x01, 0x00]),
    (0, 296, [0, 0, 0x01, 0x28]),
    (0, 297, [0, 0, 0x01, 0x29]),
    (295, 2, [0, 0, 0x01, 0x29]),
    (296, 1, [0, 0, 0x01, 0x29]),
    (300, 1_000, [0, 0, 0x05, 0x14]),
    (65_538, 1, [0, 1, 0x00, 0x03]),
    (65_539, 1, [0, 1, 0x00, 0x04]),
    (65_539, 2, [0, 1, 0x00, 0x04]),
    (0, 65_541, [0, 1, 0x00, 0x04]),
    (70_000, 9, [0, 1, 0x00, 0x04]),
];

fn chunks_put(checks: &mut Checks) {
    let three = put_chunk(new(), &[0x02, 0x00, 0x09]).bytes;
    checks.equal(
        "three bytes",
        &three[..],
        &block([0, 0, 0, 3], &[0x02, 0x00, 0x09]),
    );
    let collector = Collector::of(&three, &[0x02, 0x00, 0x09]);
    checks.equal(
        "two more",
        put_chunk(collector, &[0x14, 0x15]).bytes,
        block([0, 0, 0, 5], &[0x02, 0x00, 0x09, 0x14, 0x15]),
    );
    for (so_far, more, count) in PUT {
        let page = bytes(so_far + more);
        let answer = put_chunk(holding(&page[..so_far]), &page[so_far..]);
        let kept = &page[..page.len().min(296)];
        let what = format!("{more} bytes behind {so_far}");
        checks.equal(&what, answer.bytes, block(count, kept));
    }
}

/// They mean the last one, and are that once anything is put, if only nothing.
fn counts_too_large(checks: &mut Checks) {
    let page = vec![BEFORE; 65_540];
    for count in [[0, 1, 0, 5], [0, 1, 1, 0], [1, 0, 0, 0], [0xFF; 4]] {
        let too_large = block(count, &[]);
        for chunk in [0, 1, 70_000] {
            let answer = put_chunk(Collector::of(&too_large, &page), &bytes(chunk));
            checks.equal("too large", answer.bytes, block([0, 1, 0, 4], &[]));
        }
        let answer = end_page(Collector::of(&too_large, &page), &block_a(), BEFORE);
        checks.equal("too large, ended", answer.number, 3);
        let answer = empty_collector(Collector::of(&too_large, &page));
        checks.equal("too large, emptied", answer.bytes, block([0; 4], &[]));
    }
}

fn emptied(checks: &mut Checks) {
    for length in [0, 3, 296, 297, 65_540] {
        let page = bytes(length);
        let kept = &page[..length.min(296)];
        let answer = empty_collector(holding(&page));
        checks.equal("emptied", answer.bytes, block([0; 4], kept));
    }
}

const HEADER: [u8; 8] = [0x02, 0x00, 0x00, 0x14, 0x00, 0x00, 0x00, 0x07];

/// Speed 5 for all fans of A.
fn page_a() -> Vec<u8> {
    [&HEADER[..], &SPEED_5, &[0; 12]].concat()
}

fn ended(number: u8, offset: u8, kept: &[u8], shelf: &[u8]) -> Answer {
    Answer {
        number,
        bytes: [&[number, 0, 0, 0, offset][..], &block([0; 4], kept), shelf].concat(),
    }
}

fn page_for_a(checks: &mut Checks) {
    let page = page_a();
    let after = shelf_a(vec![fan(5), fan(5), fan(5)]).block();
    let pieces: [&[usize]; 5] = [&[], &[1, 8], &[0, 0, 24, 24], &[3], &[23]];
    for places in pieces {
        let mut collector = new();
        for piece in cut(&page, places) {
            collector.put(piece);
        }
        let answer = end_page(collector, &block_a(), 0x02);
        let what = format!("speed 5, cut at {places:?}");
        checks.equal(&what, answer, ended(0, 0, &page, &after));
    }
}

fn refused_for_a(checks: &mut Checks) {
    let page = page_a();
    let thresholds = with(&with(&page, 0, &[0x05]), 8, &[0; 4]);
    let longer = [&page[..], &[0]].concat();
    let cases: [(&str, u8, u8, u8, Vec<u8>); 19] = [
        ("nothing", 0x02, 2, 0, Vec::new()),
        ("nothing", 0x05, 2, 0, Vec::new()),
        ("nothing", 0x07, 2, 0, Vec::new()),
        ("3 bytes", 0x02, 2, 0, page[..3].to_vec()),
        ("3 bytes", 0x07, 2, 0, page[..3].to_vec()),
        ("4 bytes", 0x07, 3, 0, page[..4].to_vec()),
        ("4 bytes", 0x05, 3, 0, page[..4].to_vec()),
        ("4 bytes", 0x02, 4, 0, page[..4].to_vec()),
        ("the control page", 0x05, 3, 0, page.clone()),
        ("the threshold page", 0x02, 3, 0, thresholds.clone()),
        ("the control page", 0x00, 3, 0, page.clone()),
        ("a page 07h", 0x07, 3, 0, with(&page, 0, &[0x07])),
        ("23 bytes", 0x02, 4, 0, page[..23].to_vec()),
        ("25 bytes", 0x02, 4, 0, longer.clone()),
        ("25 bytes, so said", 0x02, 12, 0, with(&longer, 3, &[0x15])),
        ("generation 8", 0x02, 5, 0, with(&page, 7, &[0x08])),
        ("a reserved bit", 0x02, 6, 11, with(&page, 11, &[0x08])),
        ("byte 1", 0x05, 6, 1, with(&thresholds, 1, &[0x01])),
        ("a threshold", 0x05, 7, 0, with(&thresholds, 23, &[0x01])),
    ];
    for (what, code, number, offset, page) in cases {
        let answer = end_page(holding(&page), &block_a(), code);
        let expected = ended(number, offset, &page, &block_a());
        checks.equal(&format!("{what}, {code:02X}h meant"), answer, expected);
    }
}

fn broken_a(checks: &mut Checks) {
    let broken = with(&block_a(), TYPES_AT + 1, &[1]);
    for code in [0x02, 0x05, 0x07] {
        for page in [Vec::new(), vec![code], page_a()] {
            let answer = end_page(holding(&page), &broken, code);
            checks.equal("broken A", answer, ended(1, 0, &page, &broken));
        }
    }
}

/// The bytes of the page, its length field, and the answer for A.
const LONG: [(usize, u16, u8); 14] = [
    (296, 0x0124, 12),
    (296, 0x0014, 4),
    (297, 0x0125, 12),
    (297, 0x0124, 4),
    (65_538, 0xFFFE, 12),
    (65_539, 0xFFFF, 12),
    (65_539, 0xFFFE, 4),
    (65_540, 0xFFFF, 4),
    (65_540, 0x0000, 4),
    (65_541, 0xFFFF, 4),
    (65_536 + 24, 0x0014, 4),
    (65_536 + 24, 0xFFFF, 4),
    (200_000, 0xFFFF, 4),
    (200_000, (199_996 % 65_536) as u16, 4),
];

fn long_pages(checks: &mut Checks) {
    for (length, said, number) in LONG {
        for code in [0x02, 0x05] {
            let mut page = with(&page_a(), 0, &[code]);
            page.resize(length, 0xFF);
            page = with(&page, 2, &said.to_be_bytes());
            let what = format!("{length} bytes, {said:04X}h");
            for (meant, number) in [(code, number), (0x07 - code, 3), (0x07, 3)] {
                let answer = end_page(holding(&page), &block_a(), meant);
                let expected = ended(number, 0, &page[..296], &block_a());
                checks.equal(&what, answer, expected);
            }
        }
    }
}

/// After a page, whatever became of it.
fn next_page(checks: &mut Checks) {
    let page = page_a();
    for (first, number) in [(page.clone(), 0), (with(&page, 7, &[0x08]), 5)] {
        let answer = end_page(holding(&first), &block_a(), 0x02);
        checks.equal("the first page", answer.number, number);
        let (left, shelf) = answer.collector_and_shelf();
        for (what, next, number) in [
            ("no next page", &page[..0], 2),
            ("its front", &page[..23], 4),
            ("its code", &page[..1], 2),
            ("the page again", &page[..], 0),
        ] {
            let mut collector = Collector::of(left, &[]);
            collector.put(next);
            checks.equal(what, end_page(collector, shelf, 0x02).number, number);
        }
    }
}

/// A high warning of 80 comes in between, and 70 is no high critical for it any more.
fn shelf_at_the_end(checks: &mut Checks) {
    let of = |bytes| {
        let thresholds = Thresholds::from_bytes(bytes);
        shelf_a_of(Kind::Temperature, vec![temperature(64, thresholds)]).block()
    };
    let page = |overall: [u8; 4]| {
        let header = [0x05, 0x00, 0x00, 0x0C, 0x00, 0x00, 0x00, 0x07];
        [&header[..], &overall, &[0; 4]].concat()
    };
    let lower = page([70, 0, 0, 0]);
    let first = of([90, 60, 0, 0]);
    let answer = end_page(holding(&lower), &first, 0x05);
    checks.equal("70", answer, ended(0, 0, &lower, &of([70, 60, 0, 0])));
    let then = apply_thresholds(&first, &page([0, 80, 0, 0]))
        .record()
        .to_vec();
    checks.equal("80", &then, &of([90, 80, 0, 0]));
    let answer = end_page(holding(&lower), &then, 0x05);
    checks.equal("70 under 80", answer, ended(8, 0, &lower, &then));
    let other = with(&first, 3, &[0x08]);
    let answer = end_page(holding(&lower), &other, 0x05);
    checks.equal("generation 8 then", answer, ended(5, 0, &lower, &other));
}

/// A wrong count or a wrong byte of the page is; what stands behind the page is no part of it.
fn found(checks: &mut Checks) {
    let page = page_a();
    let right = holding(&page).block();
    checks.equal("right", stands_for(&right, &page), true);
    for at in 0..COLLECTOR_BYTES {
        for bit in 0..8 {
            let wrong = with(&right, at, &[right[at] ^ 1 << bit]);
            checks.equal("a bit", stands_for(&wrong, &page), at >= 4 + page.len());
        }
    }
    let long = bytes(70_000);
    for length in [295, 296, 297, 65_539, 65_540, 70_000] {
        let block = holding(&long[..length]).block();
        let last = length.min(COUNT_STOPS);
        checks.equal("its count", counted(&block), last);
        for other in [295, 296, 297, 65_539, 65_540, 69_999] {
            let expected = last == other.min(COUNT_STOPS);
            let is_one = stands_for(&block, &long[..other]);
            checks.equal("another length", is_one, expected);
        }
    }
}

fn laws(checks: &mut Checks) {
    let mut rng = Rng::new(SEED);
    for actor in [&CONTROL, &THRESHOLD_OUT] {
        for _ in 0..ROUNDS {
            let one_call = actor.changed_page(&mut rng);
            any_cut_gives_the_same(checks, &mut rng, &one_call, actor.code);
            other_counts_do_not(checks, &one_call, actor.code);
            what_is_not_kept(checks, &mut rng, &one_call, actor.code);
        }
    }
}

fn any_cut_gives_the_same(checks: &mut Checks, rng: &mut Rng, one_call: &Case, code: u8) {
    let (page, shelf) = (&one_call.inputs[0], &one_call.lent);
    let start = fresh(rng);
    let mut whole = start.clone();
    whole.put(page);
    let mut room = start.block();
    let kept = page.len().min(MOST_KEPT);
    room[4..][..kept].copy_from_slice(&page[..kept]);
    let answer = one_call.answer();
    let (numbers, after) = answer.bytes.split_at(5);
    let expected = [numbers, &room, after].concat();
    for _ in 0..3 {
        let mut collector = start.clone();
        for piece in cut(page, &any_cuts(rng, page.len())) {
            collector.put(piece);
        }
        checks.equal("any cut", collector.block(), whole.block());
        let ended = end_page(collector, shelf, code);
        checks.equal("any cut, ended", &ended.bytes, &expected);
    }
}

/// A page that is accepted is not so with a byte more or less.
fn other_counts_do_not(checks: &mut Checks, one_call: &Case, code: u8) {
    let (page, shelf) = (&one_call.inputs[0], &one_call.lent);
    if one_call.answer().number == 0 {
        for length in [0, 3, 4, page.len() - 1, page.len() + 1] {
            let mut other = page.clone();
            other.resize(length, 0);
            let number = end_page(holding(&other), shelf, code).number;
            let expected = if length < 4 { 2 } else { 4 };
            checks.equal("a byte more or less", number, expected);
        }
    }
}

/// Any bytes beyond the room, and any length past the last count, leave the same block and answer.
fn what_is_not_kept(checks: &mut Checks, rng: &mut Rng, one_call: &Case, code: u8) {
    let (page, shelf) = (&one_call.inputs[0], &one_call.lent);
    let mut front = page.clone();
    front.resize(MOST_KEPT, 0);
    let long = |tail: Vec<u8>| holding(&[&front[..], &tail].concat());
    let more = rng.range(1, 40);
    let pairs = [
        (long(vec![0; more]), long(rng.bytes(more))),
        (
            long(vec![0; COUNT_STOPS - MOST_KEPT]),
            long(vec![0xFF; LONGEST_SAID + more]),
        ),
    ];
    for (one, other) in pairs {
        checks.equal("not kept", one.block(), other.block());
        let answer = end_page(one, shelf, code);
        checks.equal("not kept, ended", answer, end_page(other, shelf, code));
    }
}
