//! FAIL set, cleared and wanted with every code, and codes that change under it.

use super::building::every_wish_over;
use super::case::{roomy_case, Offer};
use super::control::there_and_back;
use super::shapes::{at_limits, of_code, some_of_each};
use super::threshold_out::{accepted_page, page_of, THRESHOLD_OUT};
use super::wishes::Few;
use crate::element::Code;
use crate::limits::most_elements_of;
use crate::pages::calls::WRITE_STATUS;
use crate::record::Kind;
use crate::rng::Rng;

pub fn offer_all(rng: &mut Rng, offer: Offer) {
    for _ in 0..25 {
        set_and_cleared(rng, offer);
        for kind in [Kind::Temperature, Kind::Voltage, Kind::Current] {
            limits_moved(rng, kind, offer);
        }
    }
    every_wish(rng, offer);
}

/// Of some elements of each type, and then of those with each code.
fn set_and_cleared(rng: &mut Rng, offer: Offer) {
    let shelf = some_of_each(rng);
    there_and_back(rng, &shelf, fail_bit, offer);
    for kind in Kind::ALL {
        for code in kind.codes() {
            let count = rng.range(1, most_elements_of(1));
            let shelf = of_code(rng, kind, *code, count);
            there_and_back(rng, &shelf, fail_bit, offer);
        }
    }
}

fn fail_bit(kind: Kind) -> u32 {
    match kind {
        Kind::Cooling => 0x0000_0040,
        Kind::Temperature | Kind::Voltage | Kind::Current => 0x0040_0000,
    }
}

/// One page moves the limits of sensors anywhere, the next as far out as they go. The status page is written
/// before, between and after.
fn limits_moved(rng: &mut Rng, kind: Kind, offer: Offer) {
    let shelf = at_limits(rng, kind);
    let mut block = shelf.block();
    let anywhere = accepted_page(rng, &shelf);
    for page in [anywhere, page_of(&shelf, &[farthest_out(kind)])] {
        offer(roomy_case(rng, &WRITE_STATUS, vec![block.clone()]));
        let case = THRESHOLD_OUT.case_of(block, page);
        block = case.answer().record().to_vec();
        offer(case);
    }
    offer(roomy_case(rng, &WRITE_STATUS, vec![block]));
}

fn farthest_out(kind: Kind) -> [u8; 4] {
    match kind {
        Kind::Cooling => [0, 0, 0, 0],
        Kind::Temperature => [255, 255, 1, 1],
        Kind::Voltage => [255, 255, 255, 255],
        Kind::Current => [255, 255, 0, 0],
    }
}

/// Three elements with each code are to have FAIL or not, over FAIL stored or not. A fan is ON for code 2 only.
fn every_wish(rng: &mut Rng, offer: Offer) {
    for kind in Kind::ALL {
        for code in kind.codes() {
            let always = match (kind, code) {
                (Kind::Cooling, Code::Critical) => 0x0000_0023,
                (Kind::Cooling, _) => 0x0000_0003,
                _ => 0x0000_0000,
            };
            let few = Few::new(kind, 3, always, fail_bit(kind));
            let shelf = of_code(rng, kind, *code, few.count);
            every_wish_over(rng, &shelf, &few, offer);
        }
    }
}
