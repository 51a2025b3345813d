//! One call to compare, and output buffers of telling lengths for it.

use crate::limits::{LONGEST_DESCRIPTOR_PAGE, LONGEST_PAGE, LONGEST_SAID};
use crate::pages::calls::{Answer, Call};
use crate::rng::Rng;

pub struct Case {
    pub call: &'static Call,
    /// The buffers that the call only looks at.
    pub inputs: Vec<Vec<u8>>,
    /// The output buffer, record or shelf before the call.
    pub lent: Vec<u8>,
}

pub type Offer<'a> = &'a mut dyn FnMut(Case);

impl Case {
    pub fn answer(&self) -> Answer {
        self.call.answer(&self.inputs, &self.lent)
    }

    /// Of a call that reads or applies a page.
    pub fn number_and_offset(&self) -> (u8, usize) {
        let answer = self.answer();
        (answer.number, answer.offset())
    }
}

/// As long as any page that a shelf has, but for 07h, and longer.
pub const ROOM: usize = LONGEST_PAGE + 64;

/// A call that writes, with an output buffer of a telling length.
pub fn writing_case(rng: &mut Rng, call: &'static Call, inputs: Vec<Vec<u8>>) -> Case {
    let page = page_written(call, &inputs).len();
    let length = output_length(rng, page);
    Case {
        call,
        inputs,
        lent: rng.bytes(length),
    }
}

/// A call that writes another page than 07h, with room for any.
pub fn roomy_case(rng: &mut Rng, call: &'static Call, inputs: Vec<Vec<u8>>) -> Case {
    Case {
        call,
        inputs,
        lent: rng.bytes(ROOM),
    }
}

/// A call that writes, with output buffers from none to longer than the page.
pub fn every_output_length(rng: &mut Rng, call: &'static Call, inputs: &[Vec<u8>], offer: Offer) {
    for length in 0..page_written(call, inputs).len() + 8 {
        offer(Case {
            call,
            inputs: inputs.to_vec(),
            lent: rng.bytes(length),
        });
    }
}

/// Empty if the call refuses.
pub fn page_written(call: &Call, inputs: &[Vec<u8>]) -> Vec<u8> {
    let answer = call.answer(inputs, &[0; LONGEST_DESCRIPTOR_PAGE]);
    let out = &answer.bytes[answer.bytes.len() - LONGEST_DESCRIPTOR_PAGE..];
    out[..answer.written()].to_vec()
}

pub fn output_length(rng: &mut Rng, page: usize) -> usize {
    match rng.range(0, 199) {
        0 => rng.pick(&[LONGEST_SAID, LONGEST_SAID + 1, LONGEST_SAID + 5, 2 * 65_536]),
        1..=10 => rng.range(0, 8),
        11..=30 => page.saturating_sub(1),
        31..=50 => rng.range(0, page),
        51..=120 => page,
        121..=140 => page + 1,
        _ => page + rng.range(2, 64),
    }
}
