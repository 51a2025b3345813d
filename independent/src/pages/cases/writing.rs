//! Pages of a shelf.

use super::case::{every_output_length, roomy_case, writing_case, Offer};
use super::shapes::{at_limits, one_of_each, shelf};
use crate::cases::malformed_block;
use crate::pages::calls::{
    Call, WRITE_CONFIGURATION, WRITE_DESCRIPTORS, WRITE_STATUS, WRITE_THRESHOLDS,
};
use crate::record::Kind;
use crate::rng::Rng;

static WRITERS: [&Call; 4] = [
    &WRITE_CONFIGURATION,
    &WRITE_STATUS,
    &WRITE_THRESHOLDS,
    &WRITE_DESCRIPTORS,
];

pub fn offer_all(rng: &mut Rng, offer: Offer) {
    readings_at_limits(rng, offer);
    for _ in 0..3_000 {
        let block = shelf(rng).block();
        every_page(rng, &block, offer);
    }
    for _ in 0..1_500 {
        let block = malformed_block(rng);
        every_page(rng, &block, offer);
    }
    for call in WRITERS {
        let block = one_of_each(rng).block();
        every_output_length(rng, call, &[block], offer);
    }
}

fn every_page(rng: &mut Rng, block: &[u8], offer: Offer) {
    for call in WRITERS {
        offer(writing_case(rng, call, vec![block.to_vec()]));
    }
}

fn readings_at_limits(rng: &mut Rng, offer: Offer) {
    for _ in 0..250 {
        for kind in Kind::ALL {
            let block = at_limits(rng, kind).block();
            offer(roomy_case(rng, &WRITE_STATUS, vec![block]));
        }
    }
}
