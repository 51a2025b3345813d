//! How often a page came in pieces in each way that it can, and what became of it.

use super::tally::{Table, Tally};
use crate::limits::{COLLECTOR_BYTES, COUNT_STOPS, KEPT_AT, LONGEST_SAID, MOST_KEPT};
use crate::pages::calls::{Answer, END_PAGE, PUT_CHUNK};
use crate::pages::cases::case::Case;
use crate::pages::collector::counted;

const COUNTS: Table = Table {
    title: "collectors by count, none 0, within the room 1, just full 2, beyond it 3, the last 4, too large 5",
    possible: &[
        ("empty_collector", &[0, 1, 2, 3, 4, 5]),
        ("put_chunk", &[0, 1, 2, 3, 4, 5]),
        ("end_page", &[0, 1, 2, 3, 4, 5]),
    ],
};

/// Without a byte, or with all of them kept, the count cannot come to the last.
const CHUNKS: Table = Table {
    title: "chunks by what is kept, the count then less than the last 0, come to it 1, past it 2, there before 3",
    possible: &[
        ("no bytes", &[0, 3]),
        ("all", &[0]),
        ("all, room then full", &[0]),
        ("some", &[0, 1, 2]),
        ("none", &[0, 1, 2, 3]),
    ],
};

const CROSSING: Table = Table {
    title: "chunks that cross the end of the room, with one byte 1, more 2",
    possible: &[("kept", &[1, 2]), ("not kept", &[1, 2])],
};

const ENDED: Table = Table {
    title: "pages ended, by the code meant and by outcome",
    possible: &[
        ("02h", &[0, 1, 2, 3, 4, 5, 6, 12]),
        ("05h", &[0, 1, 2, 3, 4, 5, 6, 7, 8, 12]),
        ("neither", &[1, 2, 3]),
    ],
};

const CODES: Table = Table {
    title: "pages refused with 3, by the code meant, byte 0 that code 0, another 1, 02h 2, 05h 5",
    possible: &[
        ("02h", &[1, 5]),
        ("05h", &[1, 2]),
        ("neither", &[0, 1, 2, 5]),
    ],
};

const LENGTHS: Table = Table {
    title: "pages ended, shorter than the room 0, as long 1, longer 2, the longest said 3, the last count 4, more 5",
    possible: &[
        ("accepted", &[0, 1]),
        ("refused with 1", &[0, 1, 2, 3, 4, 5]),
        ("refused with 3", &[0, 1, 2, 3, 4, 5]),
        ("refused with 4", &[0, 1, 2, 3, 4, 5]),
        ("refused with 12", &[0, 1, 2, 3]),
    ],
};

const PIECES: Table = Table {
    title: "pages ended by the pieces they came in, accepted 0, refused 1",
    possible: &[
        ("none", &[1]),
        ("none with bytes", &[1]),
        ("one with bytes", &[0, 1]),
        ("two with bytes", &[0, 1]),
        ("of a byte each", &[0, 1]),
        ("more", &[0, 1]),
        ("the first empty", &[0, 1]),
        ("one between empty", &[0, 1]),
        ("the last empty", &[0, 1]),
    ],
};

const BEHIND: Table = Table {
    title: "pages ended behind one that was accepted 0, refused 1, given up 2",
    possible: &[
        ("accepted", &[0, 1, 2]),
        ("refused", &[0, 1, 2]),
        ("without bytes", &[0, 1]),
    ],
};

#[derive(Default)]
pub struct Collected {
    counts: Tally,
    chunks: Tally,
    crossing: Tally,
    ended: Tally,
    codes: Tally,
    lengths: Tally,
    pieces: Tally,
    behind: Tally,
    trail: Option<Trail>,
}

/// The collector as a call left it, the lengths of the chunks since the page began, and what became of the page
/// before it: the number in `BEHIND`, if there was one.
struct Trail {
    block: Vec<u8>,
    chunks: Vec<usize>,
    behind: Option<u8>,
}

impl Collected {
    /// Of a call on a collector.
    pub fn count(&mut self, case: &Case, answer: &Answer) {
        let (block, inputs) = (&case.lent[..COLLECTOR_BYTES], &case.inputs);
        self.counts.count(case.call.name, count_of(block));
        let trail = self.trail.take().filter(|trail| trail.block == block);
        let started = || {
            let is_new = counted(block) == 0;
            is_new.then(|| Trail::new(block, None))
        };
        let trail = trail.or_else(started);
        self.trail = if case.call.letter == END_PAGE.letter {
            self.count_ended(&inputs[0], inputs[1][0], answer.number);
            if let Some(trail) = &trail {
                self.count_trail(trail, answer.number);
            }
            let refused = u8::from(answer.number != 0);
            Some(Trail::new(answer.collector_and_shelf().0, Some(refused)))
        } else if case.call.letter == PUT_CHUNK.letter {
            self.count_chunk(&inputs[0], inputs[1].len());
            trail.map(|mut trail| {
                trail.chunks.push(inputs[1].len());
                trail.block = answer.bytes.clone();
                trail
            })
        } else {
            Some(Trail::new(&answer.bytes, Some(2)))
        };
    }

    pub fn print(&self) -> bool {
        let tallies = [
            (&self.counts, &COUNTS),
            (&self.chunks, &CHUNKS),
            (&self.crossing, &CROSSING),
            (&self.ended, &ENDED),
            (&self.codes, &CODES),
            (&self.lengths, &LENGTHS),
            (&self.pieces, &PIECES),
            (&self.behind, &BEHIND),
        ];
        let mut enough = true;
        for (tally, table) in tallies {
            enough &= tally.print(table);
        }
        enough
    }

    fn count_chunk(&mut self, page: &[u8], length: usize) {
        let (before, after) = (page.len(), page.len() + length);
        let count = match after {
            _ if before >= COUNT_STOPS => 3,
            COUNT_STOPS => 1,
            _ if after > COUNT_STOPS => 2,
            _ => 0,
        };
        let kept = match before {
            _ if length == 0 => "no bytes",
            _ if after < MOST_KEPT => "all",
            _ if after == MOST_KEPT => "all, room then full",
            _ if before < MOST_KEPT => "some",
            _ => "none",
        };
        self.chunks.count(kept, count);
        if kept == "some" {
            let number = |bytes: usize| bytes.min(2) as u8;
            self.crossing.count("kept", number(MOST_KEPT - before));
            self.crossing.count("not kept", number(after - MOST_KEPT));
        }
    }

    fn count_ended(&mut self, page: &[u8], code: u8, number: u8) {
        let meant = match code {
            0x02 => "02h",
            0x05 => "05h",
            _ => "neither",
        };
        self.ended.count(meant, number);
        if number == 3 {
            let byte0 = match page[0] {
                byte0 if byte0 == code => 0,
                byte0 @ (0x02 | 0x05) => byte0,
                _ => 1,
            };
            self.codes.count(meant, byte0);
        }
        let outcome = match number {
            0 => "accepted",
            1 => "refused with 1",
            3 => "refused with 3",
            4 => "refused with 4",
            12 => "refused with 12",
            _ => return,
        };
        let length = match page.len() {
            MOST_KEPT => 1,
            LONGEST_SAID => 3,
            COUNT_STOPS => 4,
            length if length < MOST_KEPT => 0,
            length if length < LONGEST_SAID => 2,
            _ => 5,
        };
        self.lengths.count(outcome, length);
    }

    fn count_trail(&mut self, trail: &Trail, number: u8) {
        let refused = u8::from(number != 0);
        let with_bytes = trail.chunks.iter().filter(|length| **length > 0);
        let pieces = match (trail.chunks.len(), with_bytes.count()) {
            (0, _) => "none",
            (_, 0) => "none with bytes",
            (_, 1) => "one with bytes",
            (_, 2) => "two with bytes",
            _ if trail.chunks.iter().all(|length| *length == 1) => "of a byte each",
            _ => "more",
        };
        self.pieces.count(pieces, refused);
        if let [first, between @ .., last] = &trail.chunks[..] {
            let empty = [
                ("the first empty", *first == 0),
                ("one between empty", between.contains(&0)),
                ("the last empty", *last == 0),
            ];
            for (name, _) in empty.iter().filter(|(_, is_so)| *is_so) {
                self.pieces.count(name, refused);
            }
        }
        if let Some(behind) = trail.behind {
            let outcome = match pieces {
                "none" | "none with bytes" => "without bytes",
                _ if number == 0 => "accepted",
                _ => "refused",
            };
            self.behind.count(outcome, behind);
        }
    }
}

impl Trail {
    fn new(block: &[u8], behind: Option<u8>) -> Trail {
        Trail {
            block: block.to_vec(),
            chunks: Vec::new(),
            behind,
        }
    }
}

fn count_of(block: &[u8]) -> u8 {
    let last = (COUNT_STOPS as u32).to_be_bytes();
    match counted(block) {
        0 => 0,
        MOST_KEPT => 2,
        COUNT_STOPS if block[..KEPT_AT] == last => 4,
        COUNT_STOPS => 5,
        counted if counted < MOST_KEPT => 1,
        _ => 3,
    }
}
